// Route files by the words of the request: how they are made, what they hold, and what is printed for them.
use super::field::Name;

pub const MOST_BYTES: usize = 16384;

#[derive(Clone, Debug, PartialEq)]
pub struct Record {
    pub kind: u8,
    pub body: Vec<u8>,
}

impl Record {
    pub fn of(kind: u8, body: &[u8]) -> Self {
        Record {
            kind,
            body: body.to_vec(),
        }
    }
}

pub fn file_of(records: &[Record]) -> Vec<u8> {
    records
        .iter()
        .flat_map(|r| std::iter::once(r.kind).chain(r.body.iter().copied()))
        .collect()
}

// The number of bytes after a kind byte.
pub fn body_length(kind: u8) -> Option<usize> {
    match kind {
        1 => Some(4),
        2 | 3 | 6 => Some(1),
        4 => Some(35),
        5 => Some(64),
        7 => Some(8),
        8 => Some(0),
        9 => Some(2),
        _ => None,
    }
}

// Whether records of these kinds can begin a route: 1, then 2 or 9, then 3, once each, factors, terms, the end, and stops
// anywhere between the first and the last of them.
fn begins_route(kinds: &[u8]) -> bool {
    if kinds.first() == Some(&7) {
        return false;
    }
    let end = kinds.iter().position(|&k| k == 8);
    if end.is_some_and(|at| at + 1 < kinds.len()) {
        return false;
    }
    let mut rest = kinds.iter().copied().filter(|&k| k != 7).peekable();
    for first in [&[1][..], &[2, 9], &[3]] {
        match rest.next() {
            None => return true,
            Some(k) if first.contains(&k) => {}
            Some(_) => return false,
        }
    }
    while rest.next_if(|&k| k == 4).is_some() {}
    while rest.next_if(|&k| k == 5 || k == 6).is_some() {}
    rest.next_if_eq(&8);
    rest.next().is_none()
}

// The records of a file, or the refusal by 1 to 4.
pub fn walk(file: &[u8]) -> Result<Vec<Record>, u64> {
    if file.len() > MOST_BYTES {
        return Err(1);
    }
    let mut found: Vec<Record> = vec![];
    let mut rest = file;
    while let Some((&kind, after)) = rest.split_first() {
        let length = body_length(kind).ok_or(2u64)?;
        if after.len() < length {
            return Err(3);
        }
        found.push(Record::of(kind, &after[..length]));
        let kinds: Vec<u8> = found.iter().map(|r| r.kind).collect();
        if !begins_route(&kinds) {
            return Err(4);
        }
        rest = &after[length..];
    }
    match found.last() {
        Some(r) if r.kind == 8 => Ok(found),
        _ => Err(3),
    }
}

// A factor as a file writes it.
#[derive(Clone, Debug)]
pub struct Factor {
    pub degree: u8,
    pub upper: u16,
    pub coefficients: [u8; 32],
}

impl Factor {
    pub fn of_body(body: &[u8]) -> Self {
        Factor {
            degree: body[0],
            upper: u16::from_be_bytes([body[1], body[2]]),
            coefficients: body[3..].try_into().unwrap(),
        }
    }

    // The factor with these coefficients, the leading 1 at the end.
    pub fn of_polynomial(f: &[u8], upper: u16) -> Self {
        let mut coefficients = [0; 32];
        coefficients[..f.len() - 1].copy_from_slice(&f[..f.len() - 1]);
        Factor {
            degree: (f.len() - 1) as u8,
            upper,
            coefficients,
        }
    }

    pub fn body(&self) -> Vec<u8> {
        let mut body = vec![self.degree];
        body.extend(self.upper.to_be_bytes());
        body.extend(self.coefficients);
        body
    }

    // The coefficients below the degree, as far as there is room for them, and the leading 1, which is implied.
    pub fn polynomial(&self) -> Vec<u8> {
        let mut f = self.coefficients[..32.min(self.degree as usize)].to_vec();
        f.push(1);
        f
    }
}

// What an accepted walk finds.
#[derive(Clone, Debug)]
pub struct Contents {
    pub field: Name,
    pub mode: u8,
    pub factors: Vec<Factor>,
    pub terms: Vec<u8>,
}

// The record of a field, of a name that has bytes alone.
pub fn field_record(field: Name) -> Record {
    match field {
        Name::Prime(p) => Record::of(2, &[p as u8]),
        Name::Binary { degree, low } => Record::of(9, &[degree as u8, low as u8]),
    }
}

// A file that holds this: the terms in blocks, and those left over one by one.
pub fn file_with(c: &Contents) -> Vec<u8> {
    let mut records = vec![
        Record::of(1, &[0, 0, 0, 7]),
        field_record(c.field),
        Record::of(3, &[c.mode]),
    ];
    records.extend(c.factors.iter().map(|f| Record::of(4, &f.body())));
    let blocks = c.terms.chunks_exact(64);
    let singles = blocks.remainder();
    records.extend(blocks.map(|block| Record::of(5, block)));
    records.extend(singles.iter().map(|&term| Record::of(6, &[term])));
    records.push(Record::of(8, &[]));
    file_of(&records)
}

// What a file holds, or the refusal by 1 to 5.
pub fn contents(file: &[u8]) -> Result<Contents, u64> {
    let records = walk(file)?;
    let first = |kind: u8| records.iter().find(|r| r.kind == kind);
    let field = match first(9) {
        None => Name::Prime(first(2).unwrap().body[0] as u64),
        Some(r) => Name::Binary {
            degree: r.body[0] as u64,
            low: r.body[1] as u64,
        },
    };
    let of_kinds = |kinds: &'static [u8]| records.iter().filter(move |r| kinds.contains(&r.kind));
    let found = Contents {
        field,
        mode: first(3).unwrap().body[0],
        factors: of_kinds(&[4]).map(|r| Factor::of_body(&r.body)).collect(),
        terms: of_kinds(&[5, 6]).flat_map(|r| r.body.clone()).collect(),
    };
    let count = found.factors.len();
    let suits = match found.mode {
        1 => count == 1 && found.factors[0].upper == 0,
        2 => (1..=8).contains(&count),
        3 => count == 0,
        _ => false,
    };
    if suits {
        Ok(found)
    } else {
        Err(5)
    }
}

// The box that is printed for a file.
pub fn box_of(file: &[u8]) -> u32 {
    if file.len() > MOST_BYTES || file.len() < 5 || file[0] != 1 {
        return 0;
    }
    u32::from_be_bytes(file[1..5].try_into().unwrap())
}

pub const HEADER: &str = "box result density powers\n";

pub fn refused_lines(file: &[u8], number: u64) -> String {
    format!("{HEADER}{} refused {number}\n", box_of(file))
}

// The result line of a rating. The label is the powers with commas, or the word of the free way.
pub fn result_line(file: &[u8], degree: usize, denominator: usize, label: &str) -> String {
    format!("{} ok {degree}/{denominator} {label}\n", box_of(file))
}

pub fn poly_line(g: &[u8]) -> String {
    let words: Vec<String> = g.iter().map(|c| c.to_string()).collect();
    format!("poly {}\n", words.join(" "))
}
