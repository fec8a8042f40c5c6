// tools/route: the shipped examples, texts of any file, a clear error for bad text, the longest inputs, and
// arguments.
mod common;

use common::random::Random;
use common::route::{self, Record};
use common::{expect, output_of, Outcome, EXAMPLES};
use std::process::Command;

const TOOL: &str = "tools/route";
const RANDOM_FILES: u64 = 20;

// What the tool does with an input: whether it ends well, and what it writes to its two outputs.
fn tool(verb: &str, input: &[u8]) -> Result<(bool, Vec<u8>, String), String> {
    let output = output_of(Command::new(TOOL).arg(verb), input)?;
    let errors = String::from_utf8_lossy(&output.stderr).into_owned();
    Ok((output.status.success(), output.stdout, errors))
}

fn well(verb: &str, input: &[u8]) -> Result<Vec<u8>, String> {
    match tool(verb, input)? {
        (true, output, errors) if errors.is_empty() => Ok(output),
        (_, _, errors) => Err(format!("{verb} of {input:?}: {errors}")),
    }
}

fn examples() -> Outcome {
    for name in EXAMPLES {
        let read = |suffix: &str| {
            let path = format!("examples/{name}.{suffix}");
            std::fs::read(&path).map_err(|e| format!("{path}: {e}"))
        };
        let (file, text) = (read("route")?, read("text")?);
        expect(well("write", &text)?, file.clone(), || {
            format!("the file of {name}")
        })?;
        let shown = String::from_utf8(well("show", &file)?).map_err(|e| e.to_string())?;
        let text = String::from_utf8(text).map_err(|e| e.to_string())?;
        let statements: String = text
            .split_inclusive('\n')
            .filter(|l| !l.starts_with('#'))
            .collect();
        expect(shown, statements, || format!("the text of {name}"))?;
    }
    Ok(2 * EXAMPLES.len() as u64)
}

fn random_record(random: &mut Random) -> Record {
    let kind = random.one_of(&[1, 2, 3, 4, 4, 5, 5, 6, 6, 7, 8, 9, 9]);
    let mut body = random.bytes(route::body_length(kind).unwrap());
    if kind == 4 && random.below(3) > 0 {
        let degree = random.below(34) as u8;
        body[0] = degree;
        body.iter_mut()
            .skip(3 + degree as usize)
            .for_each(|c| *c = 0);
    }
    Record::of(kind, &body)
}

// Any file comes back from its text: records in any order, long runs of terms, cut files, other bytes.
fn files_come_back() -> Outcome {
    let mut random = Random::of_seed(1);
    for _ in 0..RANDOM_FILES {
        let mut records = vec![];
        for _ in 0..random.below(40) {
            let record = random_record(&mut random);
            let times = if record.kind == 5 || record.kind == 6 {
                random.one_of(&[1, 2, 63, 64, 130])
            } else {
                1
            };
            records.extend(vec![record; times]);
        }
        let mut file = route::file_of(&records);
        match random.below(4) {
            0 => file.truncate(random.below(file.len() as u64 + 1) as usize),
            1 => file.extend(random.bytes(5)),
            _ => {}
        }
        file.truncate(route::MOST_BYTES);
        let text = well("show", &file)?;
        expect(well("write", &text)?, file, || {
            String::from_utf8_lossy(&text).into_owned()
        })?;
    }
    Ok(RANDOM_FILES)
}

// What each statement writes, by the table of kinds, all in one text.
fn statements() -> Outcome {
    let cases: [(&str, Vec<u8>); 13] = [
        ("", vec![]),
        ("box 258 # a comment", vec![1, 0, 0, 1, 2]),
        ("field 251", vec![2, 251]),
        ("field 2^8 27\nfield 2^2 3", vec![9, 8, 27, 9, 2, 3]),
        ("field 2^0 255\nfield 2^255 0", vec![9, 0, 255, 9, 255, 0]),
        (
            "mode period\nmode set\nmode free\nmode 9",
            vec![3, 1, 3, 2, 3, 3, 3, 9],
        ),
        (
            "factor 260: 5 0 1",
            [vec![4, 2, 1, 4, 5], vec![0; 31]].concat(),
        ),
        ("terms 7 8", vec![6, 7, 6, 8]),
        (
            &format!("terms{}", " 3".repeat(65)),
            [vec![5], vec![3; 64], vec![6, 3]].concat(),
        ),
        (
            "stop 0102030405 06 07 ff",
            vec![7, 1, 2, 3, 4, 5, 6, 7, 255],
        ),
        ("end", vec![8]),
        ("record 200 00 ff", vec![200, 0, 255]),
        ("bytes 0aff", vec![10, 255]),
    ];
    let texts: Vec<&str> = cases.iter().map(|c| c.0).collect();
    let files: Vec<u8> = cases.iter().flat_map(|c| c.1.clone()).collect();
    expect(well("write", texts.join("\n").as_bytes())?, files, || {
        "all statements".into()
    })?;
    Ok(cases.len() as u64)
}

// Bad text: nothing is written, and the error names the line.
fn bad_texts() -> Outcome {
    let bad = [
        "box",
        "box 1 2",
        "box 4294967296",
        "box -1",
        "field 256",
        "field x",
        "field",
        "field 2 3",
        "field 2^8",
        "field 2^8 27 1",
        "field 2^ 27",
        "field 2^256 27",
        "field 2^8 256",
        "field 2^8 1b",
        "field 3^2 1",
        "mode other",
        "factor 1 1 1",
        "factor 65536: 1 1",
        "factor 1: 1 2",
        "factor 1:",
        "factor 1: 256 1",
        "terms",
        "terms 1 256",
        "stop 00",
        "stop zz",
        "end 1",
        "record",
        "record 256",
        "record 4 0",
        "bytes 0g",
        "boxes 1",
    ];
    let long = format!("box {}", "9".repeat(5000));
    for text in bad.into_iter().chain([long.as_str()]) {
        let (good, output, errors) = tool("write", format!("box 1\n\n{text}\n").as_bytes())?;
        let said = errors.starts_with("standard input:3: ") && errors.lines().count() == 1;
        expect((good, output.len(), said), (false, 0, true), || {
            format!("{text}: {errors}")
        })?;
    }
    let file = std::fs::read("examples/a.route").map_err(|e| e.to_string())?;
    let (good, output, errors) = tool("write", &file)?;
    let said = errors.starts_with("standard input: this is no text");
    expect((good, output.len(), said), (false, 0, true), || errors)?;
    Ok(bad.len() as u64 + 2)
}

// One line that begins so, and the status.
fn stops(command: &mut Command, input: &[u8], status: i32, begin: &str) -> Result<(), String> {
    let output = output_of(command, input)?;
    let said = String::from_utf8_lossy(&output.stderr).into_owned();
    let one = said.lines().count() == 1 && said.starts_with(begin);
    expect(
        (output.status.code(), output.stdout.len(), one),
        (Some(status), 0, true),
        || format!("{begin}: {said}"),
    )
}

// The longest file and the longest text, one byte more, and inputs without an end.
fn longest() -> Outcome {
    let verbs = [("show", 16384, "16,384"), ("write", 131072, "131,072")];
    for (verb, most, named) in verbs {
        let blanks = vec![b' '; most + 1];
        well(verb, &blanks[..most])?;
        let long = |name: &str| format!("{name}: it has more than {named} bytes");
        let mut command = Command::new(TOOL);
        stops(command.arg(verb), &blanks, 1, &long("standard input"))?;
        let bounded = format!("ulimit -v 1000000; exec {TOOL} {verb} /dev/zero");
        let mut command = Command::new("sh");
        stops(command.args(["-c", &bounded]), &[], 1, &long("/dev/zero"))?;
    }
    let shown = well("show", &[3, 1].repeat(8192))?;
    expect(shown.len() <= 131072, true, || "the longest text".into())?;
    Ok(3 * verbs.len() as u64 + 1)
}

fn arguments() -> Outcome {
    let helps: [&[&str]; 3] = [&["--help"], &["-h"], &["show", "--help"]];
    for words in helps {
        let output = output_of(Command::new(TOOL).args(words), &[])?;
        let help = String::from_utf8_lossy(&output.stdout).into_owned();
        expect(
            (output.status.code(), output.stderr.len()),
            (Some(0), 0),
            || format!("{words:?}"),
        )?;
        expect(help.contains("tools/route show"), true, || help)?;
    }
    let wrong: [&[&str]; 3] = [&[], &["shows"], &["show", "a", "b"]];
    for words in wrong {
        stops(Command::new(TOOL).args(words), &[], 2, "route: ")?;
    }
    Ok((helps.len() + wrong.len()) as u64)
}

fn main() {
    common::run(
        "text",
        &[
            ("the examples", examples),
            ("files come back from their texts", files_come_back),
            ("statements", statements),
            ("bad texts", bad_texts),
            ("the longest inputs", longest),
            ("arguments", arguments),
        ],
    )
}
