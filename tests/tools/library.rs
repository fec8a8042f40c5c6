// tools/library: its help and its names, and a library or a shared object that is not the one that was made.
use super::{ended, stops, Ended, SHARED};
use crate::common::{expect, output_of, Outcome, Test};
use std::fs;
use std::os::unix::fs::MetadataExt;
use std::process::Command;

const TOOL: &str = "tools/library";
const FOREIGN: &str = "typedef unsigned long long u64;
typedef struct { u64 status, entry, power; } found;
found gobashe_find_entry(char *terms, u64 n, char *work, u64 m)
{ found f = {0, 7, 99}; return f; }";

fn tool(arguments: &[&str]) -> Result<Ended, String> {
    ended(Command::new(TOOL).args(arguments), &[])
}

fn arguments() -> Outcome {
    for option in ["--help", "-h"] {
        let (code, help, said) = tool(&[option])?;
        expect((code, said.as_str()), (Some(0), ""), || option.into())?;
        expect(help.contains("tools/library --shared"), true, || help)?;
    }
    let names = ["expor.s", ".*", "export", "exports:", "rate", "-x", ""];
    let asks = "tools/library --help says how it is called";
    for name in names {
        let begin = format!("library: there is no library '{name}'; ");
        stops(tool(&[name])?, 2, &begin, asks)?;
        stops(tool(&["--shared", "exports", name])?, 2, &begin, asks)?;
    }
    Ok(2 + 2 * names.len() as u64)
}

// A shared object with the calls' names that was not made here.
fn foreign() -> Result<Vec<u8>, String> {
    let path = "target/tests/foreign.so";
    let words = ["-shared", "-fPIC", "-o", path, "-x", "c", "-"];
    let made = output_of(Command::new("cc").args(words), FOREIGN.as_bytes())?;
    expect(made.status.success(), true, || {
        String::from_utf8_lossy(&made.stderr).into_owned()
    })?;
    fs::read(path).map_err(|e| format!("{path}: {e}"))
}

// A shared object that is foreign, empty, broken, cut or gone, and newer than the library, is made anew; the
// right one stays.
fn another_shared_object() -> Outcome {
    let find = || ended(Command::new("tools/find").arg("examples/find.bits"), &[]);
    let right = find()?;
    expect(right.0, Some(0), || right.2.clone())?;
    let failed = |e: std::io::Error| format!("{SHARED}: {e}");
    let made = fs::read(SHARED).map_err(failed)?;
    let others = [
        Some(foreign()?),
        Some(vec![]),
        Some(b"broken\n".to_vec()),
        Some(made[..made.len() / 2].to_vec()),
        None,
    ];
    for (i, other) in others.iter().enumerate() {
        fs::remove_file(SHARED).map_err(failed)?;
        if let Some(bytes) = other {
            fs::write(SHARED, bytes).map_err(failed)?;
        }
        expect(find()?, right.clone(), || format!("another one, {i}"))?;
    }
    let number = || fs::metadata(SHARED).map(|m| m.ino()).map_err(failed);
    let before = number()?;
    expect(find()?, right, || "the right one".into())?;
    expect(number()?, before, || "the file".into())?;
    Ok(others.len() as u64 + 1)
}

// The library that others link is the one that rt built; foreign, cut or gone, it is copied anew.
fn another_copy() -> Outcome {
    const BUILT: &str = "target/staticlib/libexports.a";
    const COPY: &str = "target/staticlib/libgobashe.a";
    let failed = |e: std::io::Error| format!("{COPY}: {e}");
    let built = fs::read(BUILT).map_err(|e| format!("{BUILT}: {e}"))?;
    let others = [Some(b"broken\n".to_vec()), Some(built[..built.len() / 2].to_vec()), None];
    for (i, other) in others.iter().enumerate() {
        fs::remove_file(COPY).map_err(failed)?;
        if let Some(bytes) = other {
            fs::write(COPY, bytes).map_err(failed)?;
        }
        expect(tool(&[])?.0, Some(0), || format!("another copy, {i}"))?;
        expect(fs::read(COPY).map_err(failed)? == built, true, || format!("the copy, {i}"))?;
    }
    Ok(others.len() as u64)
}

pub const TESTS: [(&str, Test); 3] = [
    ("library: arguments", arguments),
    ("library: another copy", another_copy),
    ("library: another shared object", another_shared_object),
];
