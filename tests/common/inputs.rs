// Inputs that are made for the rating calls: irreducible factors, and sequences whose minimal polynomials are known
// from how they are made.
use super::field::Field;
use super::largest_degree;
use super::massey;
use super::poly::{self, degree, Poly};
use super::random::Random;
use super::rater::{Factor, Input, Way};
use super::sequence::{added, annihilates, continued, of_bytes, Terms};
use std::collections::BTreeSet;

pub fn list(f: &[u64]) -> Factor {
    Factor::List(poly::to_bytes(f))
}

// Bytes that are no elements: none where the field has 256.
pub fn no_elements(field: Field) -> Vec<u8> {
    match field.size {
        256 => vec![],
        size => vec![size as u8, 255],
    }
}

// x − 1
pub fn x_minus_1(field: Field) -> Poly {
    vec![field.negative(1), 1]
}

// An irreducible polynomial of degree d.
pub fn irreducible(random: &mut Random, field: Field, d: usize) -> Poly {
    loop {
        let f = of_bytes(&random.monic(field, d));
        if poly::is_irreducible(field, &f) {
            return f;
        }
    }
}

// n different irreducible polynomials of degree at most d, or of larger degrees where there are too few.
pub fn factors(random: &mut Random, field: Field, n: usize, d: usize) -> Vec<Poly> {
    more_factors(random, field, n, d, vec![])
}

// Such polynomials other than x.
pub fn factors_but_x(random: &mut Random, field: Field, n: usize, d: usize) -> Vec<Poly> {
    more_factors(random, field, n + 1, d, vec![vec![0, 1]])[1..].to_vec()
}

// More polynomials, up to n in all. With each that is there already the largest degree grows by one, as there may
// not be as many of degree at most d.
fn more_factors(
    random: &mut Random,
    field: Field,
    n: usize,
    mut d: usize,
    mut factors: Vec<Poly>,
) -> Vec<Poly> {
    while factors.len() < n {
        let degree = random.between(1, d.min(largest_degree(field)) as u64);
        let f = irreducible(random, field, degree as usize);
        if factors.contains(&f) {
            d += 1;
        } else {
            factors.push(f);
        }
    }
    factors
}

// Multiples of the polynomials by elements other than 0, which stand for them.
pub fn multiples(random: &mut Random, field: Field, factors: &[Poly]) -> Vec<Poly> {
    let given = |f: &Poly| poly::multiple(field, random.unit(field), f);
    factors.iter().map(given).collect()
}

// D, the sum of upper power × degree.
pub fn total_degree(factors: &[Poly], uppers: &[u64]) -> usize {
    let named = factors.iter().zip(uppers);
    named.map(|(f, &v)| v as usize * degree(f)).sum()
}

// Positive upper powers of the factors with a total degree of at most `total`, or all 1; the last takes what the
// others leave.
pub fn uppers(random: &mut Random, factors: &[Poly], total: usize) -> Vec<u64> {
    let mut left = total.saturating_sub(total_degree(factors, &vec![1; factors.len()]));
    let last = factors.len() - 1;
    let mut uppers = vec![];
    for (i, f) in factors.iter().enumerate() {
        let most = (left / degree(f)) as u64;
        let more = if i == last {
            most
        } else {
            random.between(0, most)
        };
        left -= more as usize * degree(f);
        uppers.push(1 + more);
    }
    uppers
}

// n terms without a rule.
pub fn terms(random: &mut Random, field: Field, n: usize) -> Terms {
    of_bytes(&random.elements(field, n))
}

// A power from 0 to `most`, often at its ends or beside a power of the characteristic.
pub fn power(random: &mut Random, field: Field, most: u64) -> u64 {
    let mut beside = 1;
    while beside * field.characteristic <= most && random.below(3) > 0 {
        beside *= field.characteristic;
    }
    let any = random.between(0, most);
    let choice = [any, any, 0, most, beside - 1, beside, beside + 1];
    random.one_of(&choice).min(most)
}

// n terms of a sequence whose minimal polynomial is f^r, for an irreducible f.
pub fn register(random: &mut Random, field: Field, f: &[u64], r: u64, n: usize) -> Terms {
    if r == 0 {
        return vec![0; n];
    }
    let less = poly::power(field, f, r - 1);
    let whole = poly::product(field, &less, f);
    loop {
        let start = terms(random, field, degree(&whole));
        if !annihilates(field, &less, &start) {
            return continued(field, &whole, &start, n);
        }
    }
}

// n terms of a sequence whose minimal polynomial is the product of the powers: a sum of one register for each factor.
pub fn registers(
    random: &mut Random,
    field: Field,
    factors: &[Poly],
    powers: &[u64],
    n: usize,
) -> Terms {
    let mut terms = vec![0; n];
    for (f, r) in factors.iter().zip(powers) {
        terms = added(field, &terms, &register(random, field, f, *r, n));
    }
    terms
}

pub fn period(field: Field, f: &[u64], terms: &[u64]) -> Input {
    let terms = poly::to_bytes(terms);
    Input::of(Way::Period, field.name, vec![list(f)], vec![], terms)
}

pub fn set(field: Field, factors: &[Poly], uppers: &[u64], terms: &[u64]) -> Input {
    let factors = factors.iter().map(|f| list(f)).collect();
    let terms = poly::to_bytes(terms);
    Input::of(Way::Set, field.name, factors, uppers.to_vec(), terms)
}

pub fn free(field: Field, terms: &[u64]) -> Input {
    let terms = poly::to_bytes(terms);
    Input::of(Way::Free, field.name, vec![], vec![], terms)
}

// The least d of at least 1 with q^d ≡ 1 modulo e, for q coprime to e.
fn order(q: u64, e: u64) -> usize {
    let mut d = 1;
    let mut power = q % e;
    while power != 1 % e {
        power = power * q % e;
        d += 1;
    }
    d
}

// The numbers e up to `last`, coprime to the size, whose primitive e-th roots of 1 have minimal polynomials of an
// accepted degree d: pairs (d, e).
fn roots_of_one(field: Field, last: u64) -> Vec<(usize, u64)> {
    (1..=last)
        .filter(|e| e % field.characteristic != 0)
        .map(|e| (order(field.size, e), e))
        .filter(|(d, _)| *d <= largest_degree(field))
        .collect()
}

// An irreducible polynomial of degree d that divides x^e − 1, for such a pair: the minimal polynomial of an e-th
// root of 1 in an extension of degree d, which is that of the constant coefficients of its powers.
pub fn divisor(random: &mut Random, field: Field, d: usize, e: u64) -> Poly {
    let modulus = irreducible(random, field, d);
    let exponent = (field.size.pow(d as u32) - 1) / e;
    loop {
        let any = terms(random, field, d);
        let root = poly::power_modulo(field, &any, exponent, &modulus);
        let powers = (0..2 * d as u64).map(|k| poly::power_modulo(field, &root, k, &modulus));
        let constants = powers.map(|h| h.first().copied().unwrap_or(0));
        let f = massey::shortest(field, &constants.collect::<Vec<_>>());
        if degree(&f) == d && f[0] != 0 {
            return f;
        }
    }
}

// A factor f that divides some x^e − 1 with e up to `last`, such an e, and a power p^w of the characteristic for which
// e·p^w is at most `longest`. Each degree that such a factor can have is as likely as the others.
pub fn dividing(random: &mut Random, field: Field, last: u64, longest: u64) -> (Poly, u64, u64) {
    let pairs = roots_of_one(field, last);
    let degrees: BTreeSet<usize> = pairs.iter().map(|(d, _)| *d).collect();
    let d = random.one_of(&Vec::from_iter(degrees));
    let orders = pairs.iter().filter(|(c, _)| *c == d).map(|(_, e)| *e);
    let e = random.one_of(&Vec::from_iter(orders));
    let mut q = 1;
    while e * q * field.characteristic <= longest && random.below(3) > 0 {
        q *= field.characteristic;
    }
    (divisor(random, field, d, e), e, q)
}

// All lists of 1 to `longest` terms.
pub fn all_terms(field: Field, longest: usize) -> impl Iterator<Item = Terms> {
    let all = (1..=longest).flat_map(move |n| poly::monics(field, n));
    all.map(|mut f| {
        f.pop();
        f
    })
}
