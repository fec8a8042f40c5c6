// tools/profile: the shipped example, files against the second rater, a line where a file has no profile,
// arguments and outputs, and no C compiler.
use super::{ended, stops, Ended, SHARED};
use crate::common::field::{binary_fields, Field, Name};
use crate::common::random::Random;
use crate::common::route::{self, file_with, Contents, Factor};
use crate::common::{expect, primes, rater, sequence, Outcome, Test};
use std::fs;
use std::os::unix::fs::symlink;
use std::path::Path;
use std::process::Command;

const TOOL: &str = "tools/profile";
const EXAMPLE: &str = "examples/profile.route";
const BUILT: &str = "target/tests";
const RANDOM_FILES: u64 = 20;

fn tool(arguments: &[&str], input: &[u8]) -> Result<Ended, String> {
    ended(Command::new(TOOL).args(arguments), input)
}

// The rows of the columns without their header, each as words.
fn rows(columns: &str) -> Vec<Vec<String>> {
    let words = |line: &str| line.split_whitespace().map(String::from).collect();
    columns.lines().skip(1).map(words).collect()
}

// The rows that the second rater gives, from each beginning of the terms.
fn expected(field: Name, terms: &[u8]) -> Vec<Vec<String>> {
    let field = Field::of(field).unwrap();
    let known = sequence::of_bytes(terms);
    let row = |m: usize| {
        let rating = rater::free_rating(field, &known[..m]);
        let degree = rating.polynomial.len() - 1;
        let word = if rating.unique == Some(true) {
            "one"
        } else {
            "some"
        };
        [m, terms[m - 1] as usize, degree]
            .iter()
            .map(|n| n.to_string())
            .chain([word.to_string()])
            .collect()
    };
    (1..=terms.len()).map(row).collect()
}

// The example: its first lines, where L jumps, all its rows, and the picture of the README.
fn example() -> Outcome {
    let (code, columns, said) = tool(&[EXAMPLE], &[])?;
    expect((code, said.as_str()), (Some(0), ""), || said.clone())?;
    expect(
        columns.lines().take(2).collect::<Vec<_>>(),
        vec![" m  term   L  word", " 1     0   0  one"],
        || "the first lines".into(),
    )?;
    let found = rows(&columns);
    let jumps: Vec<(&str, &str)> = found
        .windows(2)
        .filter(|w| w[0][2] != w[1][2])
        .map(|w| (w[1][0].as_str(), w[1][2].as_str()))
        .collect();
    let known = "2:2 6:4 12:8 18:10 33:23 47:24 49:25 53:28 58:30 61:31 63:32";
    let known: Vec<(&str, &str)> = known
        .split(' ')
        .map(|jump| jump.split_once(':').unwrap())
        .collect();
    expect(jumps, known, || "the jumps".into())?;
    let file = fs::read(EXAMPLE).map_err(|e| e.to_string())?;
    let held = route::contents(&file).map_err(|n| format!("refused {n}"))?;
    expect(&found, &expected(held.field, &held.terms), || {
        "the rows".into()
    })?;
    expect(
        tool(&[], &file)?,
        (Some(0), columns.clone(), String::new()),
        || "standard input".into(),
    )?;
    let out = format!("{BUILT}/profile.svg");
    let drawn = tool(&["--svg", &out, EXAMPLE], &[])?;
    expect(drawn, (Some(0), columns, String::new()), || {
        "with a picture".into()
    })?;
    let read = |path: &str| fs::read_to_string(path).map_err(|e| format!("{path}: {e}"));
    expect(read(&out)?, read("docs/profile.svg")?, || {
        "the picture".into()
    })?;
    Ok(5)
}

// Files of all modes, whatever their factors: the terms alone decide.
fn against_the_second_rater() -> Outcome {
    let mut random = Random::of_seed(1);
    let (primes, binary) = (primes(), binary_fields());
    for i in 0..RANDOM_FILES {
        let field = match i % 2 {
            0 => Field::prime(random.one_of(&primes)),
            _ => random.one_of(&binary),
        };
        let mode = 1 + (i % 3) as u8;
        let factors = match mode {
            1 => vec![Factor::of_polynomial(&[0, 0, 1], 0)],
            2 => vec![Factor::of_polynomial(&[1, 1], 1)],
            _ => vec![],
        };
        let count = random.between(1, 200) as usize;
        let mut terms = random.elements(field, count);
        if random.below(3) == 0 {
            terms[..count / 2].fill(0);
        }
        let held = Contents {
            field: field.name,
            mode,
            factors,
            terms,
        };
        let (code, columns, said) = tool(&[], &file_with(&held))?;
        expect((code, said.as_str()), (Some(0), ""), || format!("{held:?}"))?;
        expect(rows(&columns), expected(field.name, &held.terms), || {
            format!("{held:?}")
        })?;
    }
    let held = Contents {
        field: Name::Prime(251),
        mode: 3,
        factors: vec![],
        terms: random.numbers(251, 4096),
    };
    let (code, columns, said) = tool(&[], &file_with(&held))?;
    expect((code, said.as_str()), (Some(0), ""), || {
        "4,096 terms".into()
    })?;
    expect(rows(&columns).len(), 4096, || "4,096 terms".into())?;
    Ok(RANDOM_FILES + 1)
}

// A file for each of 1 to 8, and 20.
fn no_profile() -> Outcome {
    let good = Contents {
        field: Name::Prime(5),
        mode: 3,
        factors: vec![],
        terms: vec![0, 1, 4],
    };
    let file = file_with(&good);
    let with = |change: &dyn Fn(&mut Contents)| {
        let mut changed = good.clone();
        change(&mut changed);
        file_with(&changed)
    };
    let four = Name::Binary { degree: 2, low: 3 };
    let reducible = Name::Binary { degree: 8, low: 1 };
    let reasons = [
        "16,384 bytes",
        "1 to 9",
        "the end record",
        "out of place",
        "do not suit it",
        "a prime from 2 to 251",
        "no terms, or more than 4,096",
        "p or more, or 2^n or more",
    ];
    let cases = [
        (1, [file.clone(), vec![0; route::MOST_BYTES]].concat()),
        (2, [&file[..file.len() - 1], &[10]].concat()),
        (3, file[..file.len() - 1].to_vec()),
        (3, vec![]),
        (4, [&file[..], &[8]].concat()),
        (5, with(&|c| c.mode = 4)),
        (6, with(&|c| c.field = Name::Prime(6))),
        (20, with(&|c| c.field = reducible)),
        (7, with(&|c| c.terms.clear())),
        (7, with(&|c| c.terms.resize(4097, 0))),
        (8, with(&|c| c.terms[1] = 5)),
        (8, with(&|c| c.field = four)),
    ];
    for &(number, ref file) in &cases {
        let begin = format!("profile: standard input has no profile: refused by {number}, ");
        let reason = reasons.get(number - 1).unwrap_or(&"or is reducible");
        stops(tool(&[], file)?, 4, &begin, reason)?;
    }
    Ok(cases.len() as u64)
}

// The title of the picture names the field.
fn titles() -> Outcome {
    let out = format!("{BUILT}/field.svg");
    for (name, field) in [
        ("gf256", "16 terms over GF(2^8) by 27"),
        ("e", "3 terms over GF(3)"),
    ] {
        let path = format!("examples/{name}.route");
        let drawn = tool(&["--svg", &out, &path], &[])?;
        expect(drawn.0, Some(0), || drawn.2.clone())?;
        let picture = fs::read_to_string(&out).map_err(|e| e.to_string())?;
        let title = format!("<title>Linear complexity profile of {name}.route: {field}</title>");
        expect(picture.contains(&title), true, || format!("no {title}"))?;
    }
    Ok(2)
}

fn arguments() -> Outcome {
    let (code, help, said) = tool(&["--help"], &[])?;
    expect((code, said.as_str()), (Some(0), ""), || "--help".into())?;
    expect(help.contains("tools/profile FILE"), true, || help)?;
    let asks = "tools/profile --help says how it is called";
    stops(tool(&["--svgs", EXAMPLE], &[])?, 2, "profile: ", asks)?;
    stops(tool(&[EXAMPLE, "--svg"], &[])?, 2, "profile: ", asks)?;
    stops(tool(&[EXAMPLE, EXAMPLE], &[])?, 2, "profile: ", asks)?;
    stops(
        tool(&["examples/none"], &[])?,
        2,
        "profile: there is no file examples/none",
        "",
    )?;
    stops(tool(&["examples"], &[])?, 3, "profile: examples: ", "")?;
    stops(
        tool(&[EXAMPLE, "--svg", "examples"], &[])?,
        3,
        "profile: examples: ",
        "",
    )?;
    let full = fs::File::create("/dev/full").map_err(|e| e.to_string())?;
    let lost = Command::new(TOOL)
        .arg(EXAMPLE)
        .stdout(full)
        .output()
        .map_err(|e| e.to_string())?;
    let said = String::from_utf8_lossy(&lost.stderr).into_owned();
    expect(lost.status.code(), Some(3), || said.clone())?;
    expect(said.starts_with("profile: standard output: "), true, || {
        said
    })?;
    Ok(8)
}

// Makes the folder, with a link to every command on the path but cc.
fn fill_without_cc(folder: &Path) -> std::io::Result<()> {
    fs::create_dir(folder)?;
    for place in std::env::split_paths(&std::env::var_os("PATH").unwrap_or_default()) {
        for entry in fs::read_dir(place).into_iter().flatten().flatten() {
            if entry.file_name() != "cc" {
                let _ = symlink(entry.path(), folder.join(entry.file_name()));
            }
        }
    }
    Ok(())
}

// Without the shared object and without cc there is a line; with cc it is made, and then cc is not needed.
fn tried_without(folder: &Path) -> Outcome {
    fill_without_cc(folder).map_err(|e| format!("{}: {e}", folder.display()))?;
    let without = || ended(Command::new(TOOL).arg(EXAMPLE).env("PATH", folder), &[]);
    fs::remove_file(SHARED).map_err(|e| format!("{SHARED}: {e}"))?;
    stops(without()?, 2, "library: cc is not on the path", "")?;
    let made = tool(&[EXAMPLE], &[])?;
    expect(made.0, Some(0), || made.2.clone())?;
    expect(without()?, made, || {
        "without cc, with the shared object".into()
    })?;
    Ok(3)
}

// The folder is outside the checkout, in which `rt ci` takes no links.
fn no_compiler() -> Outcome {
    let folder = std::env::temp_dir().join(format!("rate_without_cc_{}", std::process::id()));
    let outcome = tried_without(&folder);
    let _ = fs::remove_dir_all(&folder);
    outcome
}

pub const TESTS: [(&str, Test); 6] = [
    ("profile: the example", example),
    (
        "profile: against the second rater",
        against_the_second_rater,
    ),
    ("profile: files without one", no_profile),
    ("profile: titles", titles),
    ("profile: arguments", arguments),
    ("profile: no C compiler", no_compiler),
];
