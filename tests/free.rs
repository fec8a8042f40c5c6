// rate_free: known answers, all short portions against all polynomials, longer ones against Gaussian elimination, the
// longest against the Berlekamp-Massey algorithm in its textbook form, and every refusal.
mod common;

use common::field::{binary_fields, fields, Field};
use common::inputs::{self, all_terms, factors, registers, uppers};
use common::lent::{agrees, answers};
use common::massey::first_by_elimination;
use common::poly::{self, degree, Poly};
use common::random::Random;
use common::rater::{free_rating, Input, Rating, Way};
use common::sequence::{self, annihilates, continued, Terms};
use common::{expect, faults, run, table, Outcome};

fn known_answers() -> Outcome {
    let rows = table::rows(include_str!("data/free.txt"));
    for row in &rows {
        let (name, terms) = (table::name(row[0]), table::bytes(row[1]));
        let input = Input::of(Way::Free, name, vec![], vec![], terms);
        answers(&input, &table::free_rating(&row[2..]))?;
    }
    Ok(rows.len() as u64)
}

// All monic polynomials of the least degree that annihilate the terms, by trying all of each degree.
fn fitting(field: Field, terms: &[u64]) -> Vec<Poly> {
    let of_degree = |d| {
        poly::monics(field, d)
            .filter(|f| annihilates(field, f, terms))
            .collect()
    };
    let mut all = (0..=terms.len()).map(of_degree);
    all.find(|fitting: &Vec<Poly>| !fitting.is_empty()).unwrap()
}

// All portions up to a length. Under `one` the polynomial is the only one, under `some` there are others, and it is the
// first of them: `monics` has them in the order of the request.
fn all_short() -> Outcome {
    let mut cases = 0;
    let primes = [(2, 13), (3, 8), (5, 6), (7, 5), (13, 4), (251, 1)];
    let binary = [(2, 3, 6), (3, 3, 4), (3, 5, 4), (4, 15, 3), (8, 27, 1)];
    let primes = primes.map(|(p, longest)| (Field::prime(p), longest));
    let binary = binary.map(|(n, low, longest)| (Field::binary(n, low), longest));
    for (field, longest) in primes.into_iter().chain(binary) {
        for terms in all_terms(field, longest) {
            by_all_polynomials(field, &terms)?;
            cases += 1;
        }
    }
    Ok(cases)
}

// The call and the second rater against all polynomials of rising degree.
fn by_all_polynomials(field: Field, terms: &[u64]) -> Result<(), String> {
    let fitting = fitting(field, terms);
    let unique = 2 * degree(&fitting[0]) <= terms.len();
    expect(fitting.len() == 1, unique, || format!("{field}, {terms:?}"))?;
    let rating = Rating {
        powers: vec![],
        polynomial: fitting[0].clone(),
        repeat: None,
        unique: Some(unique),
    };
    expect(&free_rating(field, terms).polynomial, &fitting[0], || {
        format!("the second rater, {field}, {terms:?}")
    })?;
    answers(&inputs::free(field, terms), &Ok(rating))
}

// Portions of registers of degree up to 2 over GF(256), of which there are too many to take all.
fn short_over_256() -> Outcome {
    const CASES: u64 = 400;
    let mut random = Random::of_seed(41);
    let field = Field::binary(8, 27);
    for _ in 0..CASES {
        let d = random.below(3) as usize;
        let f = sequence::of_bytes(&random.monic(field, d));
        let start = inputs::terms(&mut random, field, d);
        let m = random.between(1, 6) as usize;
        by_all_polynomials(field, &continued(field, &f, &start, m))?;
    }
    Ok(CASES)
}

// The second rater against Gaussian elimination, and with it the call.
fn eliminated(field: Field, terms: &[u64]) -> Result<(), String> {
    let polynomial = free_rating(field, terms).polynomial;
    let found = first_by_elimination(field, terms, degree(&polynomial));
    expect(&polynomial, &found, || {
        format!("the second rater, {field}, {} terms", terms.len())
    })?;
    agrees(&inputs::free(field, terms))
}

// The same where several polynomials fit.
fn several(field: Field, terms: &[u64]) -> Result<(), String> {
    expect(free_rating(field, terms).unique, Some(false), || {
        format!("{field}, {} terms", terms.len())
    })?;
    eliminated(field, terms)
}

// Portions of a register of less than half as large a degree, with a changed last term, which several polynomials fit: of
// many lengths and degrees, and long ones.
fn first_of_several() -> Outcome {
    const EACH: u64 = 20;
    let mut random = Random::of_seed(38);
    let mut cases = 0;
    for field in fields() {
        for _ in 0..EACH {
            let n = random.between(2, 200) as usize;
            let d = random.below(n.div_ceil(2) as u64) as usize;
            several(field, &changed_register(&mut random, field, d, n))?;
            eliminated(field, &inputs::terms(&mut random, field, n))?;
            cases += 2;
        }
    }
    let primes = [2, 3, 61, 251].map(Field::prime);
    for field in primes.into_iter().chain([Field::binary(8, 27)]) {
        for (d, n) in [(0, 1500), (20, 1500), (300, 1200), (400, 900)] {
            several(field, &changed_register(&mut random, field, d, n))?;
            cases += 1;
        }
    }
    for field in fields() {
        let terms = changed_register(&mut random, field, 1024, 4096);
        agrees(&inputs::free(field, &terms))?;
        cases += 1;
    }
    Ok(cases)
}

// n terms of a register of degree d, the last of them changed.
fn changed_register(random: &mut Random, field: Field, d: usize, n: usize) -> Terms {
    let f = inputs::terms(random, field, d).into_iter().chain([1]);
    let start = inputs::terms(random, field, d);
    let mut terms = continued(field, &Vec::from_iter(f), &start, n);
    terms[n - 1] = field.add(terms[n - 1], random.unit(field));
    terms
}

// A random length up to `longest`, often a short one.
fn length(random: &mut Random, longest: u64) -> usize {
    let last = longest >> random.below(6);
    random.between(1, last) as usize
}

// Portions of registers of any polynomial, whose constant coefficient may be 0, with enough terms and with too few;
// and the same with one term changed.
fn any_register() -> Outcome {
    const EACH: u64 = 30;
    let mut random = Random::of_seed(31);
    for field in fields() {
        for _ in 0..EACH {
            let n = length(&mut random, 1500);
            let d = random.between(0, n as u64) as usize;
            let f = inputs::terms(&mut random, field, d).into_iter().chain([1]);
            let start = inputs::terms(&mut random, field, d);
            let mut terms = continued(field, &Vec::from_iter(f), &start, n);
            agrees(&inputs::free(field, &terms))?;
            let place = random.below(n as u64) as usize;
            terms[place] = field.add(terms[place], random.unit(field));
            agrees(&inputs::free(field, &terms))?;
        }
    }
    Ok(2 * EACH * fields().len() as u64)
}

// Portions of at least twice as many terms as the degree of a known minimal polynomial, x among its factors.
fn known_polynomials() -> Outcome {
    const EACH: u64 = 20;
    let mut random = Random::of_seed(32);
    for field in fields() {
        for _ in 0..EACH {
            let n = random.between(1, 8) as usize;
            let factors = factors(&mut random, field, n, 3);
            let total = random.one_of(&[40, 100, 300, 800]);
            let powers = uppers(&mut random, &factors, total);
            let polynomial = common::rater::set_rating(field, &factors, &powers).polynomial;
            let least = 2 * degree(&polynomial);
            let n = random.between(least as u64, least as u64 + 40);
            let terms = registers(&mut random, field, &factors, &powers, n as usize);
            let rating = Rating {
                powers: vec![],
                polynomial,
                repeat: None,
                unique: Some(true),
            };
            answers(&inputs::free(field, &terms), &Ok(rating))?;
        }
    }
    Ok(EACH * fields().len() as u64)
}

// Terms without a rule: their shortest recurrence has half as many terms, or about.
fn noise() -> Outcome {
    const EACH: u64 = 30;
    let mut random = Random::of_seed(33);
    for field in fields() {
        for _ in 0..EACH {
            let n = length(&mut random, 1500);
            agrees(&inputs::free(field, &inputs::terms(&mut random, field, n)))?;
        }
    }
    Ok(EACH * fields().len() as u64)
}

// Few terms that are not 0: the degree stays for long and then changes by much.
fn sparse() -> Outcome {
    const EACH: u64 = 30;
    let mut random = Random::of_seed(34);
    for field in fields() {
        for _ in 0..EACH {
            let n = length(&mut random, 1500);
            let mut terms: Terms = vec![0; n];
            for _ in 0..random.between(1, 6) {
                terms[random.below(n as u64) as usize] = random.unit(field);
            }
            agrees(&inputs::free(field, &terms))?;
        }
    }
    Ok(EACH * fields().len() as u64)
}

// The largest degree: zeros, and a last term that is not 0.
fn last_term_alone() -> Outcome {
    let mut random = Random::of_seed(35);
    let mut cases = 0;
    for field in fields() {
        for n in [1, 2, 3, 100, 4095, 4096] {
            let mut terms = vec![0; n];
            terms[n - 1] = random.unit(field);
            let rating = free_rating(field, &terms);
            assert_eq!(
                (degree(&rating.polynomial), rating.unique),
                (n, Some(false))
            );
            answers(&inputs::free(field, &terms), &Ok(rating))?;
            cases += 1;
        }
    }
    Ok(cases)
}

// The longest portions: without a rule, of registers of half the length or about, and of the largest numbers, also with a
// last term that is not what it was.
fn longest() -> Outcome {
    let mut random = Random::of_seed(36);
    let mut cases = 0;
    for field in fields() {
        agrees(&inputs::free(
            field,
            &inputs::terms(&mut random, field, 4096),
        ))?;
        let d = random.between(2046, 2050) as usize;
        let f = inputs::terms(&mut random, field, d).into_iter().chain([1]);
        let start = inputs::terms(&mut random, field, d);
        let terms = continued(field, &Vec::from_iter(f), &start, 4096);
        agrees(&inputs::free(field, &terms))?;
        let mut terms = vec![field.size - 1; 4096];
        agrees(&inputs::free(field, &terms))?;
        terms[4095] = 0;
        agrees(&inputs::free(field, &terms))?;
        cases += 4;
    }
    Ok(cases)
}

// Long portions over every field of 2^n elements, without a rule and of registers, against the second rater: at least
// 2,000 for each n, one of them for each field of up to 4,096 terms.
fn every_reducing_polynomial() -> Outcome {
    const LEAST: usize = 2000;
    let mut random = Random::of_seed(40);
    let mut cases = 0;
    for n in 2..=8 {
        let all = Vec::from_iter(binary_fields().into_iter().filter(|f| f.size == 1 << n));
        for &field in &all {
            for i in 0..LEAST.div_ceil(all.len()) {
                let longest = if i == 0 { 4096 } else { 400 };
                let m = random.between(longest / 2, longest) as usize;
                agrees(&inputs::free(field, &long_terms(&mut random, field, m, i % 2 == 0)))?;
                cases += 1;
            }
        }
    }
    Ok(cases)
}

// So many terms: without a rule, or of a register of less than half their number.
fn long_terms(random: &mut Random, field: Field, m: usize, without_rule: bool) -> Terms {
    if without_rule {
        return inputs::terms(random, field, m);
    }
    let d = random.below(m as u64 / 2) as usize;
    let f = sequence::of_bytes(&random.monic(field, d));
    let start = inputs::terms(random, field, d);
    continued(field, &f, &start, m)
}

// Every length up to the longest of one portion.
fn every_length() -> Outcome {
    let mut random = Random::of_seed(37);
    let mut cases = 0;
    for field in [Field::prime(2), Field::prime(251), Field::binary(8, 27)] {
        let terms = inputs::terms(&mut random, field, 300);
        for n in 1..=terms.len() {
            agrees(&inputs::free(field, &terms[..n]))?;
            cases += 1;
        }
    }
    Ok(cases)
}

// Degrees and numbers of terms on both sides of whole words of 64 bits, and of whole rows of sixteen: registers with the
// last term changed, the same without that term, and zeros up to a last term.
fn word_boundaries() -> Outcome {
    let mut random = Random::of_seed(39);
    let mut cases = 0;
    let primes = [2, 3, 251].map(Field::prime);
    for field in primes.into_iter().chain([Field::binary(8, 27)]) {
        for whole in [16, 32, 64, 128, 192, 512, 576, 1024] {
            for d in whole - 1..=whole + 1 {
                for n in [
                    d,
                    d + 1,
                    d + 63,
                    d + 64,
                    d + 65,
                    2 * d - 1,
                    2 * d,
                    2 * d + 1,
                    2 * d + 64,
                ] {
                    let mut alone = vec![0; n];
                    alone[n - 1] = 1;
                    let changed = changed_register(&mut random, field, d, n);
                    let mut kept = changed.clone();
                    kept.truncate((n - 1).max(1));
                    for terms in [changed, kept, alone] {
                        agrees(&inputs::free(field, &terms))?;
                        cases += 1;
                    }
                }
            }
        }
    }
    Ok(cases)
}

fn main() {
    run(
        "free",
        &[
            ("known answers", known_answers),
            ("all short portions", all_short),
            ("short portions over GF(256)", short_over_256),
            ("the first of several", first_of_several),
            ("known polynomials", known_polynomials),
            ("registers", any_register),
            ("noise", noise),
            ("few terms that are not 0", sparse),
            ("the last term alone", last_term_alone),
            ("the longest portions", longest),
            ("every reducing polynomial", every_reducing_polynomial),
            ("every length", every_length),
            ("whole words and rows", word_boundaries),
            ("refused by 6 and 20", || faults::no_field(Way::Free)),
            ("refused by 7", || faults::counts(Way::Free)),
            ("refused by 8", || faults::terms(Way::Free)),
            ("refused by 16", || faults::lent(Way::Free)),
            ("the first condition refuses", || faults::orders(Way::Free)),
        ],
    )
}
