// gobashe_catalogue_entry and gobashe_find_entry: the table against a sieve by products, and the search against the minimal
// polynomial of the period by the Berlekamp-Massey algorithm, divided by the entries of the sieve. The bytes before and
// after those lent are looked at.
mod common;

use common::calls::{self, Answer};
use common::field::Field;
use common::inputs::all_terms;
use common::massey;
use common::poly::{self, to_bytes, Poly};
use common::random::Random;
use common::sequence::{added, continued, of_bytes, repeated};
use common::{expect, list, run, Outcome};

const LONGEST: usize = 4096;
const WORK: usize = 8192;
const NO_ENTRY: u64 = 19;

fn two() -> Field {
    Field::prime(2)
}

// The product of two binary polynomials, by their numbers.
fn product(f: u64, g: u64) -> u64 {
    (0..11)
        .filter(|i| f >> i & 1 == 1)
        .fold(0, |h, i| h ^ g << i)
}

// The numbers from 2 to 2,047 that are no product of two of them.
fn sieve() -> Vec<u64> {
    let mut irreducible = vec![true; 2048];
    for f in 2..2048 {
        for g in f..2048 {
            if let Some(mark) = irreducible.get_mut(product(f, g) as usize) {
                *mark = false;
            }
        }
    }
    (2..2048).filter(|n| irreducible[*n as usize]).collect()
}

// The coefficients of the polynomial of a number.
fn coefficients(n: u64) -> Poly {
    (0..64 - n.leading_zeros()).map(|i| n >> i & 1).collect()
}

// What the search has to find: the minimal polynomial of the period is a power of one entry, or of none.
fn expected(entries: &[u64], terms: &[u8]) -> Answer<(u64, u64)> {
    let known = repeated(&of_bytes(terms), 2 * terms.len());
    let mut rest = massey::shortest(two(), &known);
    if poly::degree(&rest) == 0 {
        return Ok((2, 0));
    }
    for &entry in entries {
        let f = coefficients(entry);
        let mut power = 0;
        while poly::degree(&rest) >= poly::degree(&f) {
            let (quotient, remainder) = poly::divided(two(), rest.clone(), &f);
            if !remainder.is_empty() {
                break;
            }
            (rest, power) = (quotient, power + 1);
        }
        if power > 0 {
            return if poly::degree(&rest) == 0 {
                Ok((entry, power))
            } else {
                Err(NO_ENTRY)
            };
        }
    }
    Err(NO_ENTRY)
}

// The search with work bytes in the midst of others: its answer, and the work bytes afterwards.
fn searched(terms: &[u8], work: &[u8]) -> Result<(Answer<(u64, u64)>, Vec<u8>), String> {
    const MARGIN: usize = 32;
    let n = work.len();
    let mut all = vec![0xc3; n + 2 * MARGIN];
    all[MARGIN..MARGIN + n].copy_from_slice(work);
    let answer = calls::find_entry(terms, &mut all[MARGIN..MARGIN + n]);
    let kept = |bytes: &[u8]| bytes.iter().all(|&b| b == 0xc3);
    if kept(&all[..MARGIN]) && kept(&all[MARGIN + n..]) {
        Ok((answer, all[MARGIN..MARGIN + n].to_vec()))
    } else {
        Err(format!("{}: written beside the lent bytes", list(terms)))
    }
}

// The search answers so, and leaves the work bytes as an answer and 19 do, or as they were.
fn answers(terms: &[u8], expected: Answer<(u64, u64)>, work: &[u8]) -> Result<(), String> {
    let mut after = work.to_vec();
    if expected.is_ok() || expected == Err(NO_ENTRY) {
        after[..WORK].fill(0);
    }
    let (answer, left) = searched(terms, work)?;
    expect(answer, expected, || format!("terms {}", list(terms)))?;
    expect(left == after, true, || {
        format!("work bytes, terms {}", list(terms))
    })
}

fn agrees(entries: &[u64], terms: &[u8]) -> Result<(), String> {
    answers(terms, expected(entries, terms), &[0xa5; WORK + 7])
}

fn the_table_is_the_sieve() -> Outcome {
    let sieve = sieve();
    let table: Vec<u64> = (0..sieve.len()).map(calls::catalogue_entry).collect();
    expect(sieve.len(), 226, || "the sieve".to_string())?;
    expect(table, sieve, || "the table".to_string())?;
    let beyond = [
        226,
        227,
        255,
        256,
        4096,
        1 << 32,
        usize::MAX - 1,
        usize::MAX,
    ];
    for i in beyond {
        expect(calls::catalogue_entry(i), 0, || format!("entry {i}"))?;
    }
    Ok(226 + beyond.len() as u64)
}

fn short_periods() -> Outcome {
    let (entries, mut cases) = (sieve(), 0);
    for terms in all_terms(two(), 12) {
        agrees(&entries, &to_bytes(&terms))?;
        cases += 1;
    }
    Ok(cases)
}

// The least period of the sequences that f, other than x, annihilates.
fn order(f: u64) -> usize {
    let top = 63 - f.leading_zeros();
    let (mut power, mut n) = (if top == 1 { 1 } else { 2 }, 1);
    while power != 1 {
        power <<= 1;
        if power >> top & 1 == 1 {
            power ^= f;
        }
        n += 1;
    }
    n
}

// A period that the polynomial of an entry to the power r annihilates, random and not all 0, repeated as often as says
// `times`, or none where it has more terms than a period may.
fn made(random: &mut Random, entry: u64, r: u64, times: usize) -> Option<Vec<u8>> {
    let n = order(entry) * (r as usize).next_power_of_two() * times;
    if n > LONGEST {
        return None;
    }
    let g = poly::power(two(), &coefficients(entry), r);
    let mut start = vec![0; poly::degree(&g)];
    while start.iter().all(|&t| t == 0) {
        start = of_bytes(&random.elements(two(), start.len()));
    }
    Some(to_bytes(
        &continued(two(), &g, &start, n.max(start.len()))[..n],
    ))
}

fn periods_of_an_entry_and_a_power() -> Outcome {
    let (entries, mut random, mut cases) = (sieve(), Random::of_seed(5), 0);
    for &entry in &entries[1..] {
        for _ in 0..2 {
            let most = 1 << random.below(9);
            let (r, times) = (random.between(1, most), random.between(1, 3) as usize);
            let Some(terms) = made(&mut random, entry, r, times) else {
                continue;
            };
            agrees(&entries, &terms)?;
            cases += 1;
        }
    }
    Ok(cases)
}

fn two_factors() -> Outcome {
    let (entries, mut random, mut cases) = (sieve(), Random::of_seed(50), 0);
    while cases < 60 {
        let (f, g) = (random.below(60), random.below(60));
        if f == g || f == 0 || g == 0 {
            continue;
        }
        let (f, g) = (entries[f as usize], entries[g as usize]);
        let (a, b) = (order(f), order(g));
        let n = (1..).map(|k| k * a).find(|n| n % b == 0).unwrap();
        if n > LONGEST {
            continue;
        }
        let (s, t) = (
            made(&mut random, f, 1, n / a),
            made(&mut random, g, 1, n / b),
        );
        let sum = added(two(), &of_bytes(&s.unwrap()), &of_bytes(&t.unwrap()));
        let terms = to_bytes(&sum);
        expect(expected(&entries, &terms), Err(NO_ENTRY), || {
            format!("{f} and {g}")
        })?;
        answers(&terms, Err(NO_ENTRY), &[0xa5; WORK])?;
        cases += 1;
    }
    Ok(cases)
}

// The longest periods: random ones, few terms other than 0 in different places, and 4,096 terms, which a power of x + 1
// annihilates always.
fn long_periods() -> Outcome {
    let (entries, mut random, mut cases) = (sieve(), Random::of_seed(500), 0);
    for n in [4096, 4095, 4094, 4092, 3584, 4093, 2048, 65, 64, 63] {
        let mut single = vec![0; n];
        single[random.below(n as u64) as usize] = 1;
        let mut last = vec![0; n];
        last[n - 1] = 1;
        for terms in [
            random.elements(two(), n),
            single,
            last,
            vec![0; n],
            vec![1; n],
        ] {
            agrees(&entries, &terms)?;
            cases += 1;
        }
    }
    Ok(cases)
}

fn refusals_in_order() -> Outcome {
    let (short, enough) = (vec![0xa5; WORK - 1], vec![0xa5; WORK]);
    let (few, many) = (vec![], vec![2; LONGEST + 1]);
    let cases: [(&[u8], &[u8], u64); 9] = [
        (&few, &enough, 7),
        (&few, &short, 7),
        (&many, &enough, 7),
        (&many, &short, 7),
        (&[2], &enough, 8),
        (&[0, 1, 255], &short, 8),
        (&many[1..], &short, 8),
        (&[0, 1], &short, 16),
        (&[1], &[], 16),
    ];
    for (terms, work, number) in cases {
        answers(terms, Err(number), work)?;
    }
    Ok(cases.len() as u64)
}

fn main() {
    run(
        "catalogue",
        &[
            ("the table is the sieve", the_table_is_the_sieve),
            ("short periods", short_periods),
            (
                "periods of an entry and a power",
                periods_of_an_entry_and_a_power,
            ),
            ("two factors", two_factors),
            ("long periods", long_periods),
            ("refusals in order", refusals_in_order),
        ],
    )
}
