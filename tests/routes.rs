// The rating program on route files: the shipped examples, files of all modes, files damaged in every way, and input that
// comes in pieces or not at all. What it prints is compared byte by byte with a rater that goes by the words of the
// request.
mod common;

use common::calls::{self, Found};
use common::field::{all, binary_fields, Field, Name};
use common::inputs::{self, x_minus_1};
use common::poly::{self, Poly};
use common::random::Random;
use common::rater::{self, Input, Rating, Way};
use common::route::{self, Contents, Factor, Record};
use common::sequence;
use common::{expect, largest_degree, list, no_fields, run, Outcome, EXAMPLES};
use std::collections::BTreeMap;
use std::io::{Seek, SeekFrom, Write};
use std::os::unix::fs::FileExt;
use std::process::{Child, Command, Stdio};

const PROGRAM: &str = "target/bin/rate";
const READ_FAILED: &str = "rate: standard input cannot be read, the lines are of what was read\n";
const RANDOM_FILES: u64 = 1500;
const LONG_FILES: u64 = 60;
const CHANGED_FILES: u64 = 1500;

// The program

fn started(input: Stdio) -> Result<Child, String> {
    Command::new(PROGRAM)
        .stdin(input)
        .stdout(Stdio::piped())
        .stderr(Stdio::piped())
        .spawn()
        .map_err(|e| format!("{PROGRAM}: {e}"))
}

// What the program prints; it has to end as usual, and to write this beside its lines and nothing else.
fn ended_saying(child: Child, said: &str) -> Result<String, String> {
    let output = child.wait_with_output().map_err(|e| e.to_string())?;
    if !output.status.success() || output.stderr != said.as_bytes() {
        return Err(format!(
            "the program ended with {} and wrote {:?} beside its lines",
            output.status,
            String::from_utf8_lossy(&output.stderr)
        ));
    }
    String::from_utf8(output.stdout).map_err(|e| e.to_string())
}

fn ended(child: Child) -> Result<String, String> {
    ended_saying(child, "")
}

// What it prints for a file that comes in these pieces, some time apart.
fn printed_for_pieces(pieces: &[&[u8]]) -> Result<String, String> {
    let mut child = started(Stdio::piped())?;
    let mut input = child.stdin.take().unwrap();
    for (i, piece) in pieces.iter().enumerate() {
        if i > 0 {
            std::thread::sleep(std::time::Duration::from_millis(3));
        }
        // a program that has read enough may close its input
        let _ = input.write_all(piece);
    }
    drop(input);
    ended(child)
}

fn printed(file: &[u8]) -> Result<String, String> {
    printed_for_pieces(&[file])
}

// The comparison

// What a file asks for.
fn input_of(c: &Contents) -> Input {
    let way = match c.mode {
        1 => Way::Period,
        2 => Way::Set,
        _ => Way::Free,
    };
    let factor = |f: &Factor| rater::Factor::Record {
        degree: f.degree,
        coefficients: f.coefficients,
    };
    Input::of(
        way,
        c.field,
        c.factors.iter().map(factor).collect(),
        c.factors.iter().map(|f| f.upper as u64).collect(),
        c.terms.clone(),
    )
}

// The number after the stroke of the density: the shortest period in mode 1, else the number of terms.
fn denominator(c: &Contents) -> usize {
    match c.mode {
        1 => sequence::shortest_period(&c.terms),
        _ => c.terms.len(),
    }
}

// What is printed after the density.
fn label(rating: &Rating) -> String {
    match rating.unique {
        Some(true) => "one".into(),
        Some(false) => "some".into(),
        None => {
            let words: Vec<String> = rating.powers.iter().map(|r| r.to_string()).collect();
            words.join(",")
        }
    }
}

fn case(file: &[u8]) -> String {
    let hex: String = file.iter().take(200).map(|b| format!("{b:02x}")).collect();
    format!("a file of {} bytes, {hex}", file.len())
}

// Compares what is printed for a file with the words of the request. Answers the number of the refusal, or 0.
fn compare(file: &[u8], lines: &str) -> Result<u64, String> {
    let rated = route::contents(file).and_then(|c| Ok((rater::rate(&input_of(&c))?, c)));
    let (rating, c) = match rated {
        Err(number) => {
            expect(lines, &route::refused_lines(file, number), || case(file))?;
            return Ok(number);
        }
        Ok(found) => found,
    };
    let degree = rating.polynomial.len() - 1;
    let result = route::result_line(file, degree, denominator(&c), &label(&rating));
    let before = format!("{}{result}", route::HEADER);
    let poly = route::poly_line(&poly::to_bytes(&rating.polynomial));
    expect(lines, &(before + &poly), || case(file))?;
    Ok(0)
}

fn check(file: &[u8]) -> Result<u64, String> {
    compare(file, &printed(file)?)
}

// Making files

fn factor_of(f: &[u64], upper: u64) -> Factor {
    Factor::of_polynomial(&poly::to_bytes(f), upper as u16)
}

// A period of a sequence that a power of f annihilates, repeated as often as there is room for, or, where it has none so
// short, terms of it.
fn period(random: &mut Random, field: Field, f: &[u64], most: usize) -> Vec<u8> {
    let r = random.between(0, 3);
    let d = r as usize * poly::degree(f);
    let terms = poly::to_bytes(&inputs::register(random, field, f, r, most + d));
    match (1..=most).find(|&n| terms[..d] == terms[n..n + d]) {
        Some(n) => terms[..n].repeat(random.between(1, (most / n).min(5) as u64) as usize),
        None => terms[..random.between(1, most as u64) as usize].to_vec(),
    }
}

fn period_contents(random: &mut Random, field: Field, most: usize) -> Contents {
    let f = inputs::factors(random, field, 1, 5).remove(0);
    Contents {
        field: field.name,
        mode: 1,
        factors: vec![factor_of(&f, 0)],
        terms: period(random, field, &f, most),
    }
}

// Factors with upper powers, and terms of a sequence whose minimal polynomial has powers up to these.
fn set_contents(random: &mut Random, field: Field, most: usize) -> Contents {
    let n = random.between(1, 8) as usize;
    let factors: Vec<Poly> = inputs::factors(random, field, n, 4);
    let least: usize = factors.iter().map(|f| poly::degree(f)).sum();
    let uppers = inputs::uppers(random, &factors, least.max(most - most / 4));
    let powers: Vec<u64> = uppers.iter().map(|&v| random.between(0, v)).collect();
    let total = inputs::total_degree(&factors, &uppers);
    let count = random.between(total as u64, most.max(total) as u64) as usize;
    let terms = inputs::registers(random, field, &factors, &powers, count);
    let named = factors.iter().zip(&uppers);
    Contents {
        field: field.name,
        mode: 2,
        factors: named.map(|(f, &v)| factor_of(f, v)).collect(),
        terms: poly::to_bytes(&terms),
    }
}

// Terms without a rule, or of a register.
fn free_contents(random: &mut Random, field: Field, most: usize) -> Contents {
    let n = random.between(1, most as u64) as usize;
    let terms = if random.below(2) == 0 {
        random.elements(field, n)
    } else {
        let d = random.below(n as u64 / 2 + 1) as usize;
        let g = sequence::of_bytes(&random.monic(field, d));
        let start = sequence::of_bytes(&random.elements(field, d));
        poly::to_bytes(&sequence::continued(field, &g, &start, n))
    };
    Contents {
        field: field.name,
        mode: 3,
        factors: vec![],
        terms,
    }
}

// A field of either sort, each as likely as the other.
fn some_field(random: &mut Random) -> Field {
    let prime = random.below(2) == 0;
    let sort: Vec<Field> = all()
        .iter()
        .copied()
        .filter(|field| field.is_prime() == prime)
        .collect();
    random.one_of(&sort)
}

fn some_contents(random: &mut Random, most: usize) -> Contents {
    let field = some_field(random);
    match random.below(3) {
        0 => period_contents(random, field, most),
        1 => set_contents(random, field, most),
        _ => free_contents(random, field, most),
    }
}

// The terms in records of 64 and of one, as it comes.
fn term_records(random: &mut Random, terms: &[u8]) -> Vec<Record> {
    let mut records = vec![];
    let mut rest = terms;
    while !rest.is_empty() {
        let n = if rest.len() >= 64 && random.below(40) > 0 {
            64
        } else {
            1
        };
        records.push(Record::of(if n == 64 { 5 } else { 6 }, &rest[..n]));
        rest = &rest[n..];
    }
    records
}

fn records_of(random: &mut Random, c: &Contents) -> Vec<Record> {
    let mut records = vec![
        Record::of(1, &random.bytes(4)),
        route::field_record(c.field),
        Record::of(3, &[c.mode]),
    ];
    records.extend(c.factors.iter().map(|f| Record::of(4, &f.body())));
    records.extend(term_records(random, &c.terms));
    records.push(Record::of(8, &[]));
    for _ in 0..random.below(3) {
        let at = random.between(1, records.len() as u64 - 1) as usize;
        records.insert(at, Record::of(7, &random.bytes(8)));
    }
    records
}

fn file_of(random: &mut Random, c: &Contents) -> Vec<u8> {
    route::file_of(&records_of(random, c))
}

// Damage

// Changes what a file holds, so that a way refuses it; which change is a matter of chance.
fn spoiled(random: &mut Random, c: &mut Contents) {
    let (n, size) = (c.terms.len(), size_of(c.field));
    match random.below(13) {
        0 => c.field = in_bytes(random.one_of(&no_fields())),
        1 => c.terms.clear(),
        2 => c.terms.resize(random.between(4090, 4100) as usize, 0),
        3 if n > 0 => {
            let beyond = (size + random.below(3)).min(255);
            c.terms[random.below(n as u64) as usize] = beyond as u8
        }
        4 => c.mode = random.one_of(&[0, 1, 2, 3, 4, 255]),
        5 => c.terms.truncate(random.below(n as u64 + 1) as usize),
        6 if n > 0 => {
            let at = n - 1 - random.below(3.min(n as u64)) as usize;
            c.terms[at] = ((c.terms[at] as u64 + 1) % size.max(1)) as u8;
        }
        7 if !c.factors.is_empty() => c.factors.push(c.factors[0].clone()),
        _ if !c.factors.is_empty() => {
            let i = random.below(c.factors.len() as u64) as usize;
            spoil_factor(random, size, &mut c.factors[i]);
        }
        _ => c
            .factors
            .push(Factor::of_polynomial(&[1, 1], random.below(2) as u16)),
    }
}

// The size that a name says, also that of no field.
fn size_of(field: Name) -> u64 {
    match field {
        Name::Prime(p) => p,
        Name::Binary { degree, .. } => 1 << degree.min(8),
    }
}

// A name by what a file has room for.
fn in_bytes(field: Name) -> Name {
    match field {
        Name::Prime(p) => Name::Prime(p & 255),
        Name::Binary { degree, low } => Name::Binary {
            degree: degree & 255,
            low: low & 255,
        },
    }
}

fn spoil_factor(random: &mut Random, size: u64, f: &mut Factor) {
    let at = random.below(32) as usize;
    let last = size.saturating_sub(1) as u8;
    match random.below(5) {
        0 => f.degree = random.one_of(&[0, 31, 32, 33, 34, 255]),
        1 => f.upper = random.one_of(&[0, 1, 1024, 4096, 4097, 65535]),
        2 => f.coefficients[at] = random.one_of(&[1, last, last.saturating_add(1), 255]),
        3 => f.degree = f.degree.wrapping_add(1),
        _ => f.coefficients[0] = 0,
    }
}

fn damaged(random: &mut Random, records: &mut Vec<Record>) {
    let i = random.below(records.len() as u64) as usize;
    match random.below(4) {
        0 => drop(records.remove(i)),
        1 => records.insert(i, records[i].clone()),
        2 => {
            let j = random.below(records.len() as u64) as usize;
            records.swap(i, j);
        }
        _ => records[i].kind = random.below(11) as u8,
    }
}

fn changed(random: &mut Random, file: &mut Vec<u8>) {
    let i = random.below(file.len() as u64) as usize;
    match random.below(4) {
        0 => file[i] = random.next() as u8,
        1 => file.truncate(i),
        2 => file.extend(random.bytes(3)),
        _ => drop(file.remove(i)),
    }
}

// Tests

// Every shipped example, by what it prints, byte for byte.
fn examples() -> Outcome {
    for name in EXAMPLES {
        let read = |suffix: &str| {
            let path = format!("examples/{name}.{suffix}");
            std::fs::read(&path).map_err(|e| format!("{path}: {e}"))
        };
        let file = read("route")?;
        let lines = printed(&file)?;
        let shipped = String::from_utf8(read("lines")?).map_err(|e| e.to_string())?;
        expect(&lines, &shipped, || format!("the lines of {name}"))?;
        compare(&file, &lines)?;
    }
    Ok(EXAMPLES.len() as u64)
}

// Rates files with such contents, and sees to it that at least a quarter of those of each mode are rated.
fn check_all(
    count: u64,
    random: &mut Random,
    mut make: impl FnMut(&mut Random, u64) -> Contents,
) -> Outcome {
    let mut rated = [(0, 0); 4];
    for i in 0..count {
        let c = make(random, i);
        let (all, good) = &mut rated[c.mode as usize];
        *all += 1;
        *good += (check(&file_of(random, &c))? == 0) as u64;
    }
    match rated[1..]
        .iter()
        .all(|(all, good)| *all > 0 && 4 * good >= *all)
    {
        true => Ok(count),
        false => Err(format!(
            "files of the modes, and those of them that were rated: {rated:?}"
        )),
    }
}

fn valid_files() -> Outcome {
    let mut random = Random::of_seed(1);
    check_all(RANDOM_FILES, &mut random, |random, _| {
        some_contents(random, 120)
    })
}

fn long_files() -> Outcome {
    let mut random = Random::of_seed(2);
    check_all(LONG_FILES, &mut random, |random, i| {
        let mut c = some_contents(random, 4096);
        if i % 4 == 0 {
            let field = some_field(random);
            c = free_contents(random, field, 4096);
            c.terms = random.elements(field, 4096);
        }
        c
    })
}

// What is printed for a period with the factor x − 1, which is right and a rating.
fn lines_of_period(field: Field, terms: &[u8]) -> Result<String, String> {
    let mut records = vec![
        Record::of(1, &[0, 0, 0, 7]),
        route::field_record(field.name),
        Record::of(3, &[1]),
        Record::of(4, &factor_of(&x_minus_1(field), 0).body()),
    ];
    records.extend(terms.iter().map(|&t| Record::of(6, &[t])));
    records.push(Record::of(8, &[]));
    let file = route::file_of(&records);
    let lines = printed(&file)?;
    expect(compare(&file, &lines)?, 0, || case(&file))?;
    Ok(lines)
}

// Every period of so many terms, a power of p, alone and two, three and five times over: one endless sequence, and one
// answer. A power of x − 1 annihilates it.
fn repeated_periods() -> Outcome {
    let two = "box result density powers\n7 ok 2/2 2\npoly 1 0 1\n";
    for terms in [&[0, 1, 0, 1][..], &[0, 1, 0, 1, 0, 1, 0, 1]] {
        expect(
            lines_of_period(Field::prime(2), terms)?.as_str(),
            two,
            || list(terms),
        )?;
    }
    let mut cases = 2;
    let primes = [(2, 1), (2, 2), (2, 4), (2, 8), (3, 1), (3, 3)];
    let primes = primes.map(|(p, n)| (Field::prime(p), n));
    let binary = [(Field::binary(2, 3), 2), (Field::binary(3, 5), 1)];
    for (field, n) in primes.into_iter().chain(binary) {
        for terms in sequence::all(field.size, n) {
            let lines = lines_of_period(field, &terms)?;
            for times in [2, 3, 5] {
                let repeated = lines_of_period(field, &terms.repeat(times))?;
                expect(&repeated, &lines, || {
                    format!("{} {times} times", list(&terms))
                })?;
            }
            cases += 4;
        }
    }
    Ok(cases)
}

// Files with one fault or several: each refusal that a file can meet comes up, and every answer is right.
fn refused_files() -> Outcome {
    let mut random = Random::of_seed(3);
    let mut seen: BTreeMap<u64, u64> = BTreeMap::new();
    for i in 0..CHANGED_FILES {
        let mut c = some_contents(&mut random, 60);
        for _ in 0..random.between(1, 2) {
            spoiled(&mut random, &mut c);
        }
        let mut records = records_of(&mut random, &c);
        if i % 4 == 0 {
            damaged(&mut random, &mut records);
        }
        let mut file = route::file_of(&records);
        if i % 5 == 0 {
            changed(&mut random, &mut file);
        }
        *seen.entry(check(&file)?).or_default() += 1;
    }
    for number in [0, 2, 3, 4, 5, 6, 7, 8, 10, 11, 12, 13, 14, 15, 17, 20] {
        if !seen.contains_key(&number) {
            return Err(format!("no file met {number}: {seen:?}"));
        }
    }
    Ok(CHANGED_FILES)
}

// A file of the free mode over a field that need not be one.
fn over(field: Name, terms: &[u8]) -> Contents {
    Contents {
        field,
        mode: 3,
        factors: vec![],
        terms: terms.to_vec(),
    }
}

// The program refuses a file by this number, or rates it for 0, and the second rater does too.
fn is(file: &[u8], number: u64) -> Result<(), String> {
    expect(check(file)?, number, || case(file))
}

// Every name of GF(2^n) that a file has room for, n up to 10 and all others of some: 69 are fields, and 20 refuses the
// others.
fn every_binary_name() -> Outcome {
    let (mut cases, mut rated) = (0, 0);
    let names = (0..=10).flat_map(|degree| (0..256).map(move |low| (degree, low)));
    let names = names.filter(|(degree, low)| *degree > 6 || low % 16 < 4 || *low < 1 << degree);
    for (degree, low) in names.chain([(16, 27), (128, 27), (255, 27), (255, 255)]) {
        let field = Name::Binary { degree, low };
        let number = check(&route::file_with(&over(field, &[0, 1, 3])))?;
        let expected = if Field::of(field).is_some() { 0 } else { 20 };
        expect(number, expected, || field.to_string())?;
        cases += 1;
        rated += (number == 0) as u64;
    }
    expect(rated, 69, || "the fields of 2^n elements".to_string())?;
    Ok(cases)
}

// Where kind 9 may stand: in place of kind 2, and once. Cut, it meets 3; before the box, after the mode, twice or with
// kind 2, it meets 4; and kind 10 meets 2.
fn places_of_a_field() -> Outcome {
    let first = Record::of(1, &[0, 0, 0, 7]);
    let (prime, binary) = (Record::of(2, &[2]), Record::of(9, &[8, 27]));
    let (mode, term, end) = (Record::of(3, &[3]), Record::of(6, &[1]), Record::of(8, &[]));
    let (stop, ten) = (Record::of(7, &[9; 8]), Record::of(10, &[8, 27]));
    let rows: [(&[&Record], u64); 15] = [
        (&[&first, &binary, &mode, &term, &end], 0),
        (
            &[&first, &stop, &binary, &stop, &mode, &term, &stop, &end],
            0,
        ),
        (&[&first, &mode, &term, &end], 4),
        (&[&first, &binary, &binary, &mode, &term, &end], 4),
        (&[&first, &prime, &binary, &mode, &term, &end], 4),
        (&[&first, &binary, &prime, &mode, &term, &end], 4),
        (&[&first, &prime, &mode, &binary, &term, &end], 4),
        (&[&first, &binary, &mode, &binary, &term, &end], 4),
        (&[&first, &mode, &binary, &term, &end], 4),
        (&[&first, &binary, &mode, &term, &binary, &end], 4),
        (&[&first, &binary, &mode, &term, &end, &binary], 4),
        (&[&binary, &first, &mode, &term, &end], 4),
        (&[&binary], 4),
        (&[&first, &ten, &mode, &term, &end], 2),
        (&[&first, &binary, &ten, &mode, &term, &end], 2),
    ];
    for (records, number) in rows {
        let records = Vec::from_iter(records.iter().map(|&r| r.clone()));
        is(&route::file_of(&records), number)?;
    }
    let whole = route::file_of(&[first.clone(), binary.clone()]);
    for n in [5, 6, 7, 8] {
        is(&whole[..n], 3)?;
    }
    Ok(rows.len() as u64 + 4)
}

// 5 before 20 before 7 before 8, as 6 stands between them; and elements at both sides of the size.
fn order_of_20() -> Outcome {
    let no_field = Name::Binary { degree: 8, low: 1 };
    let mut wrong = over(no_field, &[]);
    is(&route::file_with(&wrong), 20)?;
    wrong.mode = 4;
    is(&route::file_with(&wrong), 5)?;
    wrong.mode = 1;
    is(&route::file_with(&wrong), 5)?;
    let mut cases = 3;
    for field in binary_fields() {
        is(&route::file_with(&over(field.name, &[])), 7)?;
        is(&route::file_with(&over(field.name, &[255; 4097])), 7)?;
        is(
            &route::file_with(&over(field.name, &[(field.size - 1) as u8])),
            0,
        )?;
        cases += 3;
        if field.size < 256 {
            is(
                &route::file_with(&over(field.name, &[1, field.size as u8])),
                8,
            )?;
            cases += 1;
        }
    }
    Ok(cases)
}

// 10 and 11 of a file over every field of 2^n: the largest degree is rated, one more refused, and the same of the largest
// coefficient.
fn factors_over_2_to_n() -> Outcome {
    let mut random = Random::of_seed(8);
    let mut cases = 0;
    for field in binary_fields() {
        let last = largest_degree(field);
        let f = inputs::irreducible(&mut random, field, last);
        let file = |f: &[u64]| {
            let mut c = over(field.name, &[0; 40]);
            (c.mode, c.factors) = (2, vec![factor_of(f, 1)]);
            route::file_with(&c)
        };
        is(&file(&f), 0)?;
        is(&file(&[&[0], &f[..]].concat()), 10)?;
        is(&file(&[field.size - 1, 1]), 0)?;
        cases += 3;
        if field.size < 256 {
            is(&file(&[field.size, 1]), 11)?;
            cases += 1;
        }
    }
    Ok(cases)
}

// What the reader finds by the words of the request: record n, and beyond the last the end record; or the refusal by 1
// to 5.
fn record_found(file: &[u8], n: usize) -> Found {
    let records = match route::contents(file) {
        Ok(_) => route::walk(file).unwrap(),
        Err(status) => {
            return Found {
                status,
                kind: 0,
                from: 0,
                length: 0,
            }
        }
    };
    let before = &records[..n.min(records.len() - 1)];
    let found = &records[before.len()];
    Found {
        status: 0,
        kind: found.kind as u64,
        from: 1 + before.iter().map(|r| 1 + r.body.len() as u64).sum::<u64>(),
        length: found.body.len() as u64,
    }
}

// The exported reader on a file, at every record and beyond the last.
fn reads(file: &[u8]) -> Outcome {
    let count = route::walk(file).map_or(0, |records| records.len());
    let beyond = [count, count + 1, 16384, 1 << 32, usize::MAX];
    for n in (0..count).chain(beyond) {
        expect(calls::record(file, n), record_found(file, n), || {
            format!("record {n}, {}", case(file))
        })?;
    }
    Ok(count as u64 + 5)
}

// The exported reader on good files of all modes and both sorts of field, on damaged ones and on random bytes.
fn reader() -> Outcome {
    let mut random = Random::of_seed(9);
    let (mut cases, mut refused) = (0, BTreeMap::<u64, u64>::new());
    for i in 0..1500 {
        let most = random.one_of(&[3, 30, 200]);
        let mut c = some_contents(&mut random, most);
        if i % 3 == 1 {
            spoiled(&mut random, &mut c);
        }
        let mut records = records_of(&mut random, &c);
        if i % 3 == 2 {
            damaged(&mut random, &mut records);
        }
        let mut file = route::file_of(&records);
        if i % 4 == 3 {
            changed(&mut random, &mut file);
        }
        if i % 50 == 0 {
            file.resize(16385, 8);
        }
        cases += reads(&file)?;
        *refused.entry(calls::record(&file, 0).status).or_default() += 1;
        let n = random.below(60) as usize;
        cases += reads(&random.bytes(n))?;
    }
    let met = Vec::from_iter(refused.keys().copied());
    expect(met, vec![0, 1, 2, 3, 4, 5], || "what the reader met".into())?;
    Ok(cases)
}

// A short file of each mode cut at every byte, and with bytes after its end.
fn cut_files() -> Outcome {
    let mut random = Random::of_seed(4);
    let mut cases = 0;
    for name in ["a", "e", "h", "k", "gf4"] {
        let file = std::fs::read(format!("examples/{name}.route")).map_err(|e| e.to_string())?;
        for n in 0..=file.len() {
            check(&file[..n])?;
            cases += 1;
        }
        for kind in 0..=11 {
            for n in [0, 1, 4, 8, 34, 35, 64, 70] {
                let mut longer = file.clone();
                longer.push(kind);
                longer.extend(random.bytes(n));
                check(&longer)?;
                cases += 1;
            }
        }
    }
    Ok(cases)
}

// Files about the limit of 16,384 bytes, and far beyond it.
fn limit_of_bytes() -> Outcome {
    let mut random = Random::of_seed(5);
    let mut cases = 0;
    for n in [16383, 16384, 16385, 16386, 40_000, 1_000_000] {
        // stops of nine bytes fill up a file with terms of one and of 64
        let c = Contents {
            field: Name::Prime(2),
            mode: 3,
            factors: vec![],
            terms: random.numbers(2, 64),
        };
        let mut records = records_of(&mut random, &c);
        records.retain(|r| r.kind != 7);
        let mut left = n - route::file_of(&records).len();
        while left % 9 != 0 {
            let end = records.len() - 1;
            records.insert(end, Record::of(6, &[1]));
            left -= 2;
        }
        for _ in 0..left / 9 {
            records.insert(1, Record::of(7, &random.bytes(8)));
        }
        let file = route::file_of(&records);
        expect(file.len(), n, || "the size of a file".into())?;
        expect(check(&file)?, (n > 16384) as u64, || format!("{n} bytes"))?;
        expect(check(&random.bytes(n))? > 0, true, || {
            format!("{n} random bytes")
        })?;
        cases += 2;
    }
    Ok(cases)
}

// Random bytes of any length.
fn random_bytes() -> Outcome {
    let mut random = Random::of_seed(6);
    for _ in 0..400 {
        let n = random.below(200) as usize;
        let mut file = random.bytes(n);
        if random.below(2) == 0 {
            file = file.iter().map(|b| b % 10).collect();
        }
        check(&file)?;
    }
    Ok(400)
}

// Input in pieces: cut at every place of a short file, and a long file in many pieces.
fn pieces() -> Outcome {
    let mut random = Random::of_seed(7);
    let file = std::fs::read("examples/a.route").map_err(|e| e.to_string())?;
    for n in 0..=file.len() {
        compare(&file, &printed_for_pieces(&[&file[..n], &file[n..]])?)?;
    }
    let c = free_contents(&mut random, Field::prime(251), 4096);
    for file in [file_of(&mut random, &c), random.bytes(20_000)] {
        let parts: Vec<&[u8]> = file.chunks(1000).collect();
        compare(&file, &printed_for_pieces(&parts)?)?;
    }
    Ok(file.len() as u64 + 3)
}

// Input that cannot be read is a file without bytes, and is said: a folder, and a closed input. One that is empty is not.
fn unreadable_input() -> Outcome {
    let folder = std::fs::File::open(".").map_err(|e| e.to_string())?;
    compare(&[], &ended_saying(started(folder.into())?, READ_FAILED)?)?;
    compare(&[], &ended(started(Stdio::null())?)?)?;
    let closed = Command::new("sh")
        .args(["-c", &format!("exec {PROGRAM} <&-")])
        .stdout(Stdio::piped())
        .stderr(Stdio::piped())
        .spawn()
        .map_err(|e| e.to_string())?;
    compare(&[], &ended_saying(closed, READ_FAILED)?)?;
    Ok(3)
}

// Reading that fails midway: the bytes up to the end of this program's stack, as a file of its memory, and then none. What
// was read until then is rated.
fn failing_input() -> Outcome {
    let maps = std::fs::read_to_string("/proc/self/maps").map_err(|e| e.to_string())?;
    let stack = maps
        .lines()
        .find(|l| l.ends_with("[stack]"))
        .ok_or("no stack")?;
    let end = stack
        .split(['-', ' '])
        .nth(1)
        .ok_or("no end of the stack")?;
    let end = u64::from_str_radix(end, 16).map_err(|e| e.to_string())?;
    for n in [1, 30] {
        let mut memory = std::fs::File::open("/proc/self/mem").map_err(|e| e.to_string())?;
        let mut bytes = vec![0; n];
        memory
            .read_exact_at(&mut bytes, end - n as u64)
            .map_err(|e| e.to_string())?;
        expect(memory.read_at(&mut [0], end).is_err(), true, || {
            "reading beyond".into()
        })?;
        memory
            .seek(SeekFrom::Start(end - n as u64))
            .map_err(|e| e.to_string())?;
        compare(&bytes, &ended_saying(started(memory.into())?, READ_FAILED)?)?;
    }
    Ok(2)
}

// The command ./rate: a file by its name, standard input, and what it says where there is none to rate.
fn command() -> Outcome {
    let ran = |arguments: &[&str], input: Stdio| {
        let output = Command::new("./rate").args(arguments).stdin(input).output();
        let output = output.map_err(|e| format!("./rate: {e}"))?;
        let text = |bytes: Vec<u8>| String::from_utf8_lossy(&bytes).into_owned();
        Ok::<_, String>((
            output.status.code(),
            text(output.stdout),
            text(output.stderr),
        ))
    };
    let file = std::fs::read("examples/e.route").map_err(|e| e.to_string())?;
    let opened = || std::fs::File::open("examples/e.route").map_err(|e| e.to_string());
    for (code, lines, errors) in [
        ran(&["examples/e.route"], Stdio::null())?,
        ran(&[], opened()?.into())?,
    ] {
        expect((code, errors.as_str()), (Some(0), ""), || "./rate".into())?;
        compare(&file, &lines)?;
    }
    for arguments in [
        &["examples/none.route"][..],
        &["examples"],
        &["examples/e.route", "examples/a.route"],
    ] {
        let (code, lines, errors) = ran(arguments, Stdio::null())?;
        let said = errors.starts_with("rate: ") && errors.lines().count() == 1;
        expect((code, lines.as_str(), said), (Some(2), "", true), || {
            format!("{arguments:?}")
        })?;
    }
    Ok(5)
}

fn main() {
    run(
        "routes",
        &[
            ("the examples", examples),
            ("valid files of all modes", valid_files),
            ("long files", long_files),
            ("periods several times over", repeated_periods),
            ("refused files", refused_files),
            ("every name of GF(2^n)", every_binary_name),
            ("places of kind 9", places_of_a_field),
            ("5, 20, 7 and 8 in their order", order_of_20),
            ("factors over GF(2^n)", factors_over_2_to_n),
            ("the exported reader", reader),
            ("cut and extended files", cut_files),
            ("the limit of bytes", limit_of_bytes),
            ("random bytes", random_bytes),
            ("input in pieces", pieces),
            ("input that cannot be read", unreadable_input),
            ("input that fails midway", failing_input),
            ("the command ./rate", command),
        ],
    )
}
