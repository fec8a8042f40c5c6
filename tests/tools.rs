// The tools that call the library as a shared object, tools/profile and tools/find, and tools/library, which
// makes it: one program, since tests take the shared object away.
mod common;
#[path = "tools/find.rs"]
mod find;
#[path = "tools/library.rs"]
mod library;
#[path = "tools/profile.rs"]
mod profile;

use common::{expect, output_of};
use std::process::Command;

pub const SHARED: &str = "target/staticlib/libgobashe.so";

// How a tool ended: its status, and what it wrote to its two outputs.
pub type Ended = (Option<i32>, String, String);

pub fn ended(command: &mut Command, input: &[u8]) -> Result<Ended, String> {
    let output = output_of(command, input)?;
    let text = |bytes: &[u8]| String::from_utf8_lossy(bytes).into_owned();
    Ok((
        output.status.code(),
        text(&output.stdout),
        text(&output.stderr),
    ))
}

// Nothing printed, the status, and one line that begins and ends so.
pub fn stops(found: Ended, status: i32, begin: &str, end: &str) -> Result<(), String> {
    let (code, output, said) = found;
    let one =
        said.lines().count() == 1 && said.starts_with(begin) && said.trim_end().ends_with(end);
    expect(
        (code, output.as_str(), one),
        (Some(status), "", true),
        || format!("{begin}..{end}: {said}"),
    )
}

fn main() {
    let tests = [&profile::TESTS[..], &find::TESTS[..], &library::TESTS[..]];
    common::run("tools", &tests.concat())
}
