// gobashe_profile, by which the meter is called: every entry against the free way on the terms that the meter holds
// then, refused terms in the midst, and lent bytes of any number. The bytes before and after those lent are looked at.
mod common;

use common::calls::{self, Answer};
use common::field::{fields, Field, Name};
use common::inputs::{self, all_terms};
use common::massey;
use common::poly::{degree, to_bytes};
use common::random::Random;
use common::rater::free_rating;
use common::sequence::{continued, of_bytes};
use common::{expect, list, no_fields, run, Outcome};

const FULL: usize = 4096;

// What a meter shows: the degree, and 1 for `one` or 0 for `some`.
type Figures = (u64, u8);

// An entry of a profile.
fn entry(status: u8, (degree, word): Figures) -> [u8; 4] {
    let [low, high, ..] = degree.to_le_bytes();
    [status, low, high, word]
}

// The figures of the free way, by its exported call.
fn by_the_free_way(field: Field, terms: &[u8]) -> Figures {
    let (mut answer, mut work) = (vec![0; 4097], vec![0; 8192]);
    let input = inputs::free(field, &of_bytes(terms));
    let found = calls::rate(&input, &mut answer, &mut work);
    assert_eq!(found.status, 0, "the free way, {field}, {}", list(terms));
    (found.complexity, (found.word == 1) as u8)
}

// The figures of the second rater.
fn by_the_textbook(field: Field, terms: &[u8]) -> Figures {
    let rating = free_rating(field, &of_bytes(terms));
    let unique = rating.unique == Some(true);
    (degree(&rating.polynomial) as u64, unique as u8)
}

// The profile, with these figures for the terms that are held: 8 and then 18 refuse a term, and what is shown stays.
fn expected(field: Field, terms: &[u8], figures: impl Fn(Field, &[u8]) -> Figures) -> Vec<u8> {
    let (mut held, mut shown, mut profile) = (vec![], (0, 1), vec![]);
    for &t in terms {
        let status = if t as u64 >= field.size {
            8
        } else if held.len() == FULL {
            18
        } else {
            held.push(t);
            shown = figures(field, &held);
            0
        };
        profile.extend(entry(status, shown));
    }
    profile
}

// The same for terms of the field, as many as a meter holds at most, by the second rater in one pass.
fn in_one_pass(field: Field, terms: &[u8]) -> Vec<u8> {
    let degrees = massey::degrees(field, &of_bytes(terms));
    let entries = (1..).zip(degrees);
    entries
        .flat_map(|(m, d)| entry(0, (d as u64, (2 * d <= m) as u8)))
        .collect()
}

// The call with the lent bytes in the midst of others: its answer, and the lent bytes afterwards.
fn profiled(field: Name, terms: &[u8], lent: &[u8]) -> Result<(Answer<()>, Vec<u8>), String> {
    const MARGIN: usize = 32;
    let n = lent.len();
    let mut all = vec![0xc3; n + 2 * MARGIN];
    all[MARGIN..MARGIN + n].copy_from_slice(lent);
    let answer = calls::profile(field, terms, &mut all[MARGIN..MARGIN + n]);
    let kept = |bytes: &[u8]| bytes.iter().all(|&b| b == 0xc3);
    if kept(&all[..MARGIN]) && kept(&all[MARGIN + n..]) {
        Ok((answer, all[MARGIN..MARGIN + n].to_vec()))
    } else {
        Err(format!(
            "{}: written beside the lent bytes",
            case(field, terms, n)
        ))
    }
}

fn case(field: Name, terms: &[u8], size: usize) -> String {
    format!("{field}, terms {}, {size} bytes lent", list(terms))
}

// The call writes this profile at the front of the lent bytes, as far as there is room for whole entries, and leaves
// the others as they were.
fn writes(field: Field, terms: &[u8], profile: &[u8], lent: &[u8]) -> Result<(), String> {
    let n = profile.len().min(lent.len() / 4 * 4);
    let mut after = lent.to_vec();
    after[..n].copy_from_slice(&profile[..n]);
    let (answer, found) = profiled(field.name, terms, lent)?;
    expect(answer, Ok(()), || case(field.name, terms, lent.len()))?;
    let wrong = (0..after.len()).find(|&i| found[i] != after[i]);
    expect(wrong, None, || {
        let i = wrong.unwrap();
        let (is, should) = (found[i], after[i]);
        format!(
            "{}: byte {i} is {is} and not {should}",
            case(field.name, terms, lent.len())
        )
    })
}

// The call refuses a name by 6 or 20, and leaves the lent bytes as they were.
fn refuses(name: Name, terms: &[u8], lent: &[u8]) -> Result<(), String> {
    let expected = (Err(name.refusal()), lent.to_vec());
    expect(profiled(name, terms, lent)?, expected, || {
        case(name, terms, lent.len())
    })
}

// The profile is that of the free way, with as many bytes as it takes.
fn agrees(field: Field, terms: &[u8]) -> Result<(), String> {
    let profile = expected(field, terms, by_the_free_way);
    writes(field, terms, &profile, &vec![0xa5; profile.len()])
}

// The same of a long sequence: over a prime field by the free way, over GF(2^n) by the second rater, in less time.
fn agrees_long(field: Field, terms: &[u8]) -> Result<(), String> {
    if field.is_prime() {
        return agrees(field, terms);
    }
    let profile = in_one_pass(field, terms);
    writes(field, terms, &profile, &vec![0xa5; profile.len()])
}

// The entries that the call writes, with as many bytes as they take.
fn entries(field: Field, terms: &[u8]) -> Result<Vec<[u8; 4]>, String> {
    let (answer, profile) = profiled(field.name, terms, &vec![0xa5; 4 * terms.len()])?;
    expect(answer, Ok(()), || case(field.name, terms, profile.len()))?;
    let entry = |bytes: &[u8]| bytes.try_into().unwrap();
    Ok(profile.chunks(4).map(entry).collect())
}

// Row I, and row H beside it: the terms 01 and 10 over GF(2).
fn marked_rows() -> Outcome {
    let after = |terms: &[u8], first: Figures, second: Figures| {
        let profile = [entry(0, first), entry(0, second)].concat();
        writes(Field::prime(2), terms, &profile, &[0xa5; 8])
    };
    after(&[0, 1], (0, 1), (2, 0))?;
    after(&[1, 0], (1, 0), (1, 1))?;
    Ok(2)
}

// All short sequences, against the free way and against the second rater.
fn all_short() -> Outcome {
    let mut cases = 0;
    let primes = [(2, 10), (3, 6), (5, 4), (7, 4), (13, 3), (251, 1)];
    let binary = [(2, 3, 5), (3, 5, 3), (8, 27, 1)];
    let primes = primes.map(|(p, longest)| (Field::prime(p), longest));
    let binary = binary.map(|(n, low, longest)| (Field::binary(n, low), longest));
    for (field, longest) in primes.into_iter().chain(binary) {
        for terms in all_terms(field, longest) {
            let terms = to_bytes(&terms);
            agrees(field, &terms)?;
            let profile = expected(field, &terms, by_the_textbook);
            writes(field, &terms, &profile, &[0x5a; 43])?;
            cases += 2;
        }
    }
    Ok(cases)
}

// Random sequences over every field, of terms without a rule and of registers.
fn every_field() -> Outcome {
    let mut random = Random::of_seed(61);
    let mut cases = 0;
    for field in fields() {
        for _ in 0..8 {
            let n = random.between(1, 120) as usize;
            agrees(field, &random.elements(field, n))?;
            let d = random.between(0, n as u64) as usize;
            let f = of_bytes(&random.monic(field, d));
            let start = inputs::terms(&mut random, field, d);
            agrees(field, &to_bytes(&continued(field, &f, &start, n)))?;
            cases += 2;
        }
    }
    Ok(cases)
}

// GF(2), GF(3), GF(251), GF(4) and GF(256).
fn some_fields() -> [Field; 5] {
    let [two, three, large] = [2, 3, 251].map(Field::prime);
    [two, three, large, Field::binary(2, 3), Field::binary(8, 27)]
}

// As many terms as a meter holds: without a rule, of a register, few that are not 0, and the last alone.
fn longest() -> Outcome {
    let mut random = Random::of_seed(62);
    for field in some_fields() {
        agrees_long(field, &random.elements(field, FULL))?;
        let f = of_bytes(&random.monic(field, 1000));
        let start = inputs::terms(&mut random, field, 1000);
        agrees_long(field, &to_bytes(&continued(field, &f, &start, FULL)))?;
        let mut terms = vec![0; FULL];
        for place in [700, 1900, 1901, 4095] {
            terms[place] = random.unit(field) as u8;
        }
        agrees_long(field, &terms)?;
        terms[..FULL - 1].fill(0);
        agrees_long(field, &terms)?;
    }
    Ok(20)
}

// A term that 8 refuses, anywhere and any number of times, changes nothing: without its entries the profile is that
// of the others, and its entry shows what was shown before it, 0 and `one` at first.
fn refused_in_the_midst() -> Outcome {
    const EACH: u64 = 20;
    let mut random = Random::of_seed(63);
    for field in fields().into_iter().filter(|f| f.size < 256) {
        for _ in 0..EACH {
            let n = random.between(1, 60) as usize;
            let good = random.elements(field, n);
            let mut all = good.clone();
            for _ in 0..random.between(1, 20) {
                let place = random.below(all.len() as u64 + 1) as usize;
                all.insert(place, random.between(field.size, 255) as u8);
            }
            agrees(field, &all)?;
            let mut taken = entries(field, &all)?;
            taken.retain(|e| e[0] == 0);
            expect(taken, entries(field, &good)?, || {
                case(field.name, &all, 4 * all.len())
            })?;
        }
    }
    Ok(EACH * fields().len() as u64)
}

// Beyond 4,096 terms: 18 for one of the field, 8 for another, and the figures stay. What 8 refuses before is not held.
fn full() -> Outcome {
    let mut random = Random::of_seed(64);
    for field in some_fields().into_iter().filter(|f| f.size < 256) {
        let (mut terms, beyond) = (random.elements(field, FULL), field.size as u8);
        terms.extend([beyond, 0, beyond - 1, 255, 0]);
        if field.is_prime() {
            agrees(field, &terms)?;
        }
        let before = entries(field, &terms)?;
        let held = in_one_pass(field, &terms[..FULL]);
        expect(before[..FULL].concat() == held, true, || {
            case(field.name, &terms, 0)
        })?;
        let last = &before[FULL - 1][1..];
        let stays = before[FULL..].iter().all(|e| &e[1..] == last);
        expect(stays, true, || case(field.name, &terms, 0))?;
        let statuses = Vec::from_iter(before[FULL..].iter().map(|e| e[0]));
        expect(statuses, vec![8, 18, 18, 8, 18], || {
            case(field.name, &terms, 0)
        })?;
        terms.insert(1000, 255);
        let mut after = entries(field, &terms)?;
        let refused = after.remove(1000);
        expect(refused[0], 8, || case(field.name, &terms, 0))?;
        expect(&refused[1..], &before[999][1..], || {
            case(field.name, &terms, 0)
        })?;
        expect(after == before, true, || case(field.name, &terms, 0))?;
    }
    Ok(16)
}

// 6 and 20, whatever the terms and the lent bytes are
fn no_field() -> Outcome {
    let mut random = Random::of_seed(65);
    let mut cases = 0;
    for name in no_fields() {
        for (n, size) in [
            (0, 0),
            (0, 9),
            (5, 0),
            (5, 3),
            (5, 20),
            (5, 90),
            (5000, 20000),
        ] {
            refuses(name, &random.bytes(n), &random.bytes(size))?;
            cases += 1;
        }
    }
    Ok(cases)
}

// Lent bytes shorter than the profile, of any remainder modulo 4, and longer.
fn any_room() -> Outcome {
    let mut random = Random::of_seed(66);
    let mut cases = 0;
    for field in some_fields() {
        for n in 0..12 {
            let terms = random.bytes(n);
            let profile = expected(field, &terms, by_the_free_way);
            for size in 0..4 * n + 14 {
                writes(field, &terms, &profile, &random.bytes(size))?;
                cases += 1;
            }
        }
        let terms = random.elements(field, FULL + 9);
        let profile = entries(field, &terms)?.concat();
        for size in [
            4 * FULL - 1,
            4 * FULL,
            4 * FULL + 1,
            4 * FULL + 35,
            4 * FULL + 36,
            20000,
        ] {
            writes(field, &terms, &profile, &random.bytes(size))?;
            cases += 1;
        }
    }
    Ok(cases)
}

fn main() {
    run(
        "meter",
        &[
            ("rows H and I", marked_rows),
            ("all short sequences", all_short),
            ("every field", every_field),
            ("the longest sequences", longest),
            ("refused terms in the midst", refused_in_the_midst),
            ("a full meter", full),
            ("refused by 6 and 20", no_field),
            ("lent bytes of any number", any_room),
        ],
    )
}
