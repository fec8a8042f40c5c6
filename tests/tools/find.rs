// tools/find: known periods as bits and as route files, a line if nothing is found or the file has no binary
// period or is neither bits nor a route file, and arguments.
use super::{ended, stops, Ended};
use crate::common::field::Name;
use crate::common::route::{file_with, Contents, Factor};
use crate::common::{expect, Outcome, Test};
use std::process::Command;

const TOOL: &str = "tools/find";
const EXAMPLE: &str = "examples/find.bits";

fn tool(arguments: &[&str], input: &[u8]) -> Result<Ended, String> {
    ended(Command::new(TOOL).args(arguments), input)
}

fn prints(found: Ended, entry: u64, polynomial: &str, power: u64) -> Result<(), String> {
    let lines = format!("entry {entry}\npolynomial {polynomial}\npower {power}\n");
    expect(found, (Some(0), lines, String::new()), || polynomial.into())
}

// A route file with the factor x, which annihilates nothing but zeros.
fn file(p: u64, mode: u8, terms: &[u8]) -> Vec<u8> {
    file_over(Name::Prime(p), mode, terms)
}

fn file_over(field: Name, mode: u8, terms: &[u8]) -> Vec<u8> {
    let factors = match mode {
        1 => vec![Factor::of_polynomial(&[0, 1], 0)],
        2 => vec![Factor::of_polynomial(&[0, 1], 1)],
        _ => vec![],
    };
    let terms = terms.to_vec();
    file_with(&Contents {
        field,
        mode,
        factors,
        terms,
    })
}

fn known_periods() -> Outcome {
    prints(tool(&[EXAMPLE], &[])?, 37, "x^5 + x^2 + 1", 4)?;
    let known: [(&str, u64, &str, u64); 6] = [
        ("00", 2, "x", 0),
        ("0001", 3, "x + 1", 4),
        ("0 1\n1\n", 7, "x^2 + x + 1", 1),
        ("\t0010111\r\n", 11, "x^3 + x + 1", 1),
        ("0011101", 13, "x^3 + x^2 + 1", 1),
        ("00010011010111100010011010111100", 3, "x + 1", 30),
    ];
    for (bits, entry, polynomial, power) in known {
        prints(tool(&[], bits.as_bytes())?, entry, polynomial, power)?;
        let terms: Vec<u8> = bits
            .bytes()
            .filter(u8::is_ascii_digit)
            .map(|b| b - b'0')
            .collect();
        prints(tool(&[], &file(2, 1, &terms))?, entry, polynomial, power)?;
    }
    // every term of the longest period counts
    let mut last = vec![b'0'; 4095];
    last.push(b'1');
    prints(tool(&[], &last)?, 3, "x + 1", 4096)?;
    Ok(2 * known.len() as u64 + 2)
}

fn nothing_found() -> Outcome {
    let refused = |number: u64| format!("find: standard input: refused by {number}, ");
    let no_entry = "no entry of the catalogue has a power that annihilates the period";
    stops(tool(&[], b"000001")?, 4, &refused(19), no_entry)?;
    stops(
        tool(&[], &file(2, 1, &[0, 0, 0, 0, 0, 1]))?,
        4,
        &refused(19),
        no_entry,
    )?;
    let count = "no terms, or more than 4,096";
    stops(tool(&[], b"")?, 4, &refused(7), count)?;
    stops(tool(&[], b" \n")?, 4, &refused(7), count)?;
    stops(tool(&[], &[b'1'; 4097])?, 4, &refused(7), count)?;
    let none = "find: standard input has no ";
    stops(
        tool(&[], &[b' '; 65537])?,
        4,
        none,
        "more than 65,536 bytes",
    )?;
    let texts: [(&[u8], &str); 5] = [
        (b"0012", "'2'"),
        (b"0, 1\n", "','"),
        (b"bits\n", "'b'"),
        ("01\u{e9}".as_bytes(), "'\\xe9'"),
        (b"01\0", "'\\x00'"),
    ];
    for (text, other) in texts {
        let begin = format!("{none}period: it is not bits, since it has {other}, ");
        stops(tool(&[], text)?, 4, &begin, "and not a route file")?;
    }
    stops(
        tool(&[], &[1, 0, 0, 0, 7, b'0'])?,
        4,
        &format!("{none}period: refused by 2, "),
        "1 to 9",
    )?;
    stops(
        tool(&[], &file(2, 1, &[0, 2]))?,
        4,
        &format!("{none}period: refused by 8, "),
        "p or more, or 2^n or more",
    )?;
    stops(
        tool(&[], &file(2, 3, &[0, 1]))?,
        4,
        none,
        "its mode is 3, not 1",
    )?;
    stops(
        tool(&[], &file(3, 1, &[0, 1]))?,
        4,
        none,
        "its field is GF(3), not GF(2)",
    )?;
    let four = Name::Binary { degree: 2, low: 3 };
    stops(
        tool(&[], &file_over(four, 1, &[0, 1]))?,
        4,
        "find: standard input has no binary period: ",
        "its field is GF(2^2) by 3, not GF(2)",
    )?;
    Ok(11 + texts.len() as u64)
}

fn arguments() -> Outcome {
    let (code, help, said) = tool(&["--help"], &[])?;
    expect((code, said.as_str()), (Some(0), ""), || "--help".into())?;
    expect(help.contains("tools/find FILE"), true, || help)?;
    let asks = "tools/find --help says how it is called";
    stops(tool(&["--bits", EXAMPLE], &[])?, 2, "find: ", asks)?;
    stops(tool(&[EXAMPLE, EXAMPLE], &[])?, 2, "find: ", asks)?;
    stops(
        tool(&["examples/none"], &[])?,
        2,
        "find: there is no file examples/none",
        "",
    )?;
    stops(tool(&["examples"], &[])?, 3, "find: examples: ", "")?;
    Ok(5)
}

pub const TESTS: [(&str, Test); 3] = [
    ("find: known periods", known_periods),
    ("find: nothing found", nothing_found),
    ("find: arguments", arguments),
];
