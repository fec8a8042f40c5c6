// include/gobashe.h: it declares the functions of the library and no others, its refusals are those of the sources in their
// order, it is C99 and C++11 without a warning, and a program in C gets the right answers through it.
mod common;

use common::{expect, output_of, run, Outcome};
use std::process::Command;

const HEADER: &str = include_str!("../include/gobashe.h");
const MEANING: &str = include_str!("../crates/meaning/src/lib.rt");
const LIBRARY: &str = "target/staticlib/libgobashe.a";

// What a command prints, which has to end well and to write nothing beside.
fn printed(command: &mut Command) -> Result<String, String> {
    let output = output_of(command, &[])?;
    let text = |bytes: &[u8]| String::from_utf8_lossy(bytes).into_owned();
    let (said, lines) = (text(&output.stderr), text(&output.stdout));
    expect((output.status.code(), said.as_str()), (Some(0), ""), || {
        format!("{command:?}: {lines}")
    })?;
    Ok(lines)
}

// The header without its comments.
fn code() -> String {
    let mut parts = HEADER.split("/*");
    let first = parts.next().unwrap().to_string();
    let after = |part: &str| part.split_once("*/").expect("a comment ends").1.to_string();
    parts.fold(first, |code, part| code + &after(part))
}

// The names of the functions that it declares, those that it defines itself apart.
fn declared() -> Vec<String> {
    let code = code();
    let ends = code.split(';').filter(|part| part.trim().ends_with(')'));
    let mut names: Vec<String> = ends
        .filter_map(|part| part.rsplit_once("gobashe_").and(part.split_once('(')))
        .filter_map(|(before, _)| before.split_whitespace().last())
        .map(|name| name.trim_start_matches('*').to_string())
        .filter(|name| name.starts_with("gobashe_"))
        .collect();
    names.sort();
    names
}

fn functions() -> Outcome {
    let mut command = Command::new("nm");
    let output = output_of(command.args(["-g", "--defined-only", LIBRARY]), &[])?;
    expect(output.status.code(), Some(0), || format!("{command:?}"))?;
    let mut found: Vec<String> = String::from_utf8_lossy(&output.stdout)
        .lines()
        .filter_map(|line| line.split_whitespace().last())
        .filter(|name| name.starts_with("gobashe_"))
        .map(String::from)
        .collect();
    found.sort();
    expect(declared(), found.clone(), || "the functions".into())?;
    Ok(found.len() as u64)
}

// A name as C has it: FileTooLong is GOBASHE_FILE_TOO_LONG.
fn in_capitals(variant: &str) -> String {
    let word = |c: char| match c.is_ascii_uppercase() {
        true => format!("_{c}"),
        false => c.to_ascii_uppercase().to_string(),
    };
    format!("GOBASHE{}", variant.chars().map(word).collect::<String>())
}

// The entries of an enum, without comments.
fn entries(text: &str, enumeration: &str) -> Vec<String> {
    let (_, body) = text.split_once(enumeration).expect("an enum");
    let (body, _) = body.split_once('}').expect("its end");
    let lines = body.lines().map(|line| line.split("//").next().unwrap());
    let all = lines.collect::<Vec<_>>().join(" ");
    all.split(',')
        .map(|entry| entry.trim().to_string())
        .filter(|entry| !entry.is_empty())
        .collect()
}

fn refusals() -> Outcome {
    let variants = entries(MEANING, "pub enum Refusal {");
    // the sources say the number beside the name; it has to be the place in the list
    let numbered = (1..).zip(&variants).map(|(n, entry)| {
        let name = entry.strip_suffix(&format!(" = {n}")).unwrap_or(entry);
        format!("{} = {n}", in_capitals(name))
    });
    let mut expected = vec!["GOBASHE_OK = 0".to_string()];
    expected.extend(numbered);
    let found = entries(&code(), "enum gobashe_refusal {");
    expect(found, expected, || "the refusals".into())?;
    Ok(variants.len() as u64)
}

// The program in C, compiled by these words, which have no warning, prints nothing and ends well.
fn compiled(words: &[&str]) -> Result<(), String> {
    let out = "target/tests/header_c";
    let strict = ["-Wall", "-Wextra", "-pedantic", "-Werror", "-Iinclude"];
    let mut compiler = Command::new("cc");
    compiler.args(words).args(strict).arg("tests/header.c");
    compiler.args(["-x", "none", LIBRARY, "-o", out]);
    expect(printed(&mut compiler)?, String::new(), || {
        format!("{words:?}")
    })?;
    expect(printed(&mut Command::new(out))?, String::new(), || {
        format!("{words:?}")
    })
}

fn programs() -> Outcome {
    compiled(&["-std=c99"])?;
    compiled(&["-std=c11", "-O2"])?;
    compiled(&["-x", "c++", "-std=c++11"])?;
    Ok(3)
}

fn main() {
    run(
        "header",
        &[
            ("functions", functions),
            ("refusals", refusals),
            ("programs in C and C++", programs),
        ],
    )
}
