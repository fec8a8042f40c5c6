// The orders of crates/repeat, by the leaves: the order of x modulo an irreducible polynomial against the sequence that
// the polynomial continues 0…01 to, run until it comes again, and the least common multiple against a table of multiples.
mod common;

use common::field::Field;
use common::inputs::{divisor, irreducible};
use common::poly::{is_irreducible, monics, of_bytes, product, to_bytes};
use common::random::Random;
use common::{expect, largest_degree, list, primes, run, Outcome, NO_PRIMES};

mod exported {
    extern "C" {
        pub fn leaf_order(p: u64, f: *const u8, n: usize, limit: usize) -> usize;
        pub fn leaf_common(m: usize, n: usize, limit: usize) -> usize;
    }
}

const LONGEST: usize = 65536;

fn order(p: u64, f: &[u8], limit: usize) -> usize {
    unsafe { exported::leaf_order(p, f.as_ptr(), f.len(), limit) }
}

fn common(m: usize, n: usize, limit: usize) -> usize {
    unsafe { exported::leaf_common(m, n, limit) }
}

// The number of terms after which the sequence that f continues 0…01 to comes again, or 0 where there are more than the
// limit. The constant term is not 0, so that it does come again.
fn returns(p: u64, f: &[u8], limit: usize) -> usize {
    let d = f.len() - 1;
    let mut start = vec![0; d];
    start[d - 1] = 1;
    let mut window = start.clone();
    for n in 1..=limit {
        let sum: u64 = f[..d]
            .iter()
            .zip(&window)
            .map(|(&c, &t)| c as u64 * t)
            .sum();
        window.remove(0);
        window.push((p - sum % p) % p);
        if window == start {
            return n;
        }
    }
    0
}

// The sum of the powers of x with these exponents, of which the last is the largest.
fn sum_of_powers(exponents: &[usize]) -> Vec<u8> {
    let mut f = vec![0; exponents[exponents.len() - 1] + 1];
    for &i in exponents {
        f[i] = 1;
    }
    f
}

fn order_is(p: u64, f: &[u8], limit: usize, expected: usize) -> Result<(), String> {
    expect(order(p, f, limit), expected, || {
        format!("p {p}, {}, limit {limit}", list(f))
    })
}

// The order of x modulo an irreducible f, and 0 for a reducible f and for x, with limits at the order, one below it, and
// beside it.
fn order_agrees(p: u64, f: &[u8]) -> Result<usize, String> {
    let counted = f[0] != 0 && is_irreducible(Field::prime(p), &of_bytes(f));
    let n = if counted { returns(p, f, LONGEST) } else { 0 };
    order_is(p, f, LONGEST, n)?;
    order_is(p, f, 0, 0)?;
    if n > 0 {
        order_is(p, f, n, n)?;
        order_is(p, f, n - 1, 0)?;
        order_is(p, f, (n + 1).min(LONGEST), n)?;
        order_is(p, f, n / 2, 0)?;
    }
    Ok(n)
}

// Every monic polynomial of a small degree, irreducible and reducible
fn all_small() -> Outcome {
    let mut cases = 0;
    for (p, last) in [(2, 10), (3, 6), (5, 4), (7, 3), (11, 2), (251, 1)] {
        for d in 1..=last {
            for f in monics(Field::prime(p), d) {
                order_agrees(p, &to_bytes(&f))?;
                cases += 1;
            }
        }
    }
    Ok(cases)
}

// Random irreducible polynomials over each prime and at each degree of a list that fits, to the largest
fn all_fields() -> Outcome {
    let mut random = Random::of_seed(81);
    let mut cases = 0;
    for p in primes() {
        let largest = largest_degree(Field::prime(p));
        for d in [1, 2, 3, 4, 5, 7, 8, 11, 13, 16, 21, 24, 31, 32] {
            if d <= largest {
                order_agrees(p, &to_bytes(&irreducible(&mut random, Field::prime(p), d)))?;
                cases += 1;
            }
        }
    }
    Ok(cases)
}

// Irreducible polynomials with two or three terms
fn sparse() -> Outcome {
    let mut random = Random::of_seed(84);
    let mut cases = 0;
    for p in [2, 3, 5, 7, 13, 31, 61, 127, 193, 229, 251] {
        for d in 2..=largest_degree(Field::prime(p)) {
            for _ in 0..8 {
                let mut f = vec![0; d + 1];
                f[random.below(d as u64) as usize] = random.below(p) as u8;
                f[0] = random.between(1, p - 1) as u8;
                f[d] = 1;
                cases += (order_agrees(p, &f)? > 0) as u64;
            }
        }
    }
    Ok(cases)
}

// The pairs (d, e), e up to the longest and not divisible by p, for which d is the least number with p^d ≡ 1 modulo e, and
// an accepted degree over GF(p).
fn roots_of_one(p: u64) -> Vec<(usize, u64)> {
    let degree = |e: u64| {
        let mut power = 1;
        (1..=largest_degree(Field::prime(p))).find(|_| {
            power = power * p % e;
            power == 1 % e
        })
    };
    (1..=LONGEST as u64)
        .filter(|e| e % p != 0)
        .filter_map(|e| degree(e).map(|d| (d, e)))
        .collect()
}

// Irreducible polynomials with orders within the longest: divisors of x^e − 1
fn within() -> Outcome {
    let mut random = Random::of_seed(85);
    let mut cases = 0;
    for p in [2, 3, 5, 7, 13, 31, 61, 127, 193, 251] {
        let pairs = roots_of_one(p);
        for _ in 0..40 {
            let (d, e) = random.one_of(&pairs);
            let f = to_bytes(&divisor(&mut random, Field::prime(p), d, e));
            let n = order_agrees(p, &f)?;
            expect(e as usize % n, 0, || {
                format!("p {p}, {}, x^{e} is 1", list(&f))
            })?;
            cases += 1;
        }
    }
    Ok(cases)
}

// Known orders: 2^k + 1 in degree 2k, the last of them beyond the longest, 2^16 − 1 and 2^17 − 1, and some over other
// fields
fn known() -> Outcome {
    let binary: [(usize, &[usize]); 7] = [
        (1025, &[0, 1, 3, 8, 9, 10, 11, 12, 17, 19, 20]),
        (2049, &[0, 2, 4, 11, 18, 20, 22]),
        (
            4097,
            &[
                0, 1, 2, 3, 5, 6, 8, 9, 10, 11, 12, 13, 14, 15, 16, 18, 19, 21, 22, 23, 24,
            ],
        ),
        (
            32769,
            &[
                0, 1, 2, 4, 6, 7, 11, 12, 13, 15, 17, 18, 19, 23, 24, 26, 28, 29, 30,
            ],
        ),
        (
            65537,
            &[
                0, 6, 7, 8, 10, 11, 14, 15, 16, 17, 18, 21, 22, 24, 25, 26, 32,
            ],
        ),
        (65535, &[0, 2, 3, 5, 16]),
        (131071, &[0, 3, 17]),
    ];
    let mut all = vec![
        (19, vec![18, 0, 12, 1], 127),
        (127, vec![1, 18, 1], 128),
        (7, vec![1, 6, 3, 0, 6, 3, 1], 129),
        (127, vec![126, 0, 98, 0, 1], 512),
        (7, vec![3, 0, 0, 0, 0, 0, 2, 0, 0, 1], 513),
    ];
    for (n, places) in binary {
        all.push((2, sum_of_powers(places), n));
    }
    for (p, f, n) in &all {
        let told = if *n > LONGEST { 0 } else { *n };
        expect(order_agrees(*p, f)?, told, || list(f))?;
        order_is(*p, f, LONGEST + 1, 0)?;
    }
    Ok(all.len() as u64)
}

// What is no prime, no monic polynomial of an accepted degree, or reducible has no order
fn no_orders() -> Outcome {
    let mut random = Random::of_seed(82);
    let mut cases = 0;
    let mut none = |p: u64, f: &[u8]| {
        cases += 1;
        order_is(p, f, LONGEST, 0)
    };
    for n in NO_PRIMES {
        none(n, &[1, 1])?;
    }
    for p in primes() {
        none(p, &[])?;
        none(p, &[1])?;
        // degree 33, no leading 1, a coefficient that is no element, x, and a multiple of x
        let mut f = random.monic(Field::prime(p), 33);
        f[0] = 1;
        none(p, &f)?;
        none(p, &[1, 0])?;
        if p > 2 {
            none(p, &[1, 2])?;
        }
        none(p, &[p as u8, 1])?;
        none(p, &[255, 1])?;
        none(p, &[0, 1])?;
        none(p, &[0, 1, 1])?;
        // x^n − 1, and the square of an irreducible polynomial
        for n in 2..=largest_degree(Field::prime(p)) {
            let mut f = vec![0; n + 1];
            f[0] = (p - 1) as u8;
            f[n] = 1;
            none(p, &f)?;
        }
        for d in 1..=largest_degree(Field::prime(p)) / 2 {
            let f = irreducible(&mut random, Field::prime(p), d);
            none(p, &to_bytes(&product(Field::prime(p), &f, &f)))?;
        }
    }
    Ok(cases)
}

// The least multiple of m that is in the table of the multiples of n
fn common_agrees(m: usize, n: usize, limit: usize) -> Result<(), String> {
    let expected = if m == 0 || n == 0 {
        0
    } else {
        (1..=limit / m)
            .map(|k| k * m)
            .find(|k| k % n == 0)
            .unwrap_or(0)
    };
    expect(common(m, n, limit), expected, || {
        format!("{m} and {n}, limit {limit}")
    })
}

fn multiples() -> Outcome {
    let mut random = Random::of_seed(83);
    let mut cases = 0;
    for m in 0..60 {
        for n in 0..60 {
            for limit in [0, 1, 59, 100, 1000, LONGEST] {
                common_agrees(m, n, limit)?;
                cases += 1;
            }
        }
    }
    for _ in 0..20000 {
        let m = random.between(1, 65536) as usize;
        let most = random.one_of(&[300, 65536]);
        let n = random.between(1, most) as usize;
        common_agrees(m, n, random.below(65537) as usize)?;
        cases += 1;
    }
    for (m, n, expected) in [
        (255, 257, 65535),
        (256, 256, 256),
        (1, 65536, 65536),
        (65536, 1, 65536),
        (256, 257, 0),
        (65535, 65536, 0),
    ] {
        expect(common(m, n, LONGEST), expected, || format!("{m} and {n}"))?;
        cases += 1;
    }
    for (m, n, limit) in [(65537, 1, 9), (1, 65537, 9), (1, 1, 65537)] {
        expect(common(m, n, limit), 0, || format!("{m}, {n}, {limit}"))?;
        cases += 1;
    }
    Ok(cases)
}

fn main() {
    run(
        "orders",
        &[
            ("all small polynomials", all_small),
            ("polynomials over all fields", all_fields),
            ("sparse polynomials", sparse),
            ("orders within the longest", within),
            ("known orders", known),
            ("where no order is told", no_orders),
            ("common multiples", multiples),
        ],
    )
}
