// The leaves of crates/leaves: sums of products, updates and remainders against direct loops, and at both sides of each
// condition; shortest periods against every shift. A buffer that is lent stands between marks, and all of it is compared.
mod common;

use common::field::Field;
use common::marked::left;
use common::poly::{divided, monics, multiple, of_bytes, product, to_bytes};
use common::random::Random;
use common::sequence;
use common::{expect, list, primes, run, Outcome, NO_PRIMES};

mod exported {
    extern "C" {
        pub fn leaf_dot(p: u64, c: *const u8, m: usize, s: *const u8, n: usize) -> u8;
        pub fn leaf_update(p: u64, a: *mut u8, n: usize, c: u8, b: *const u8, m: usize);
        pub fn leaf_remainder(p: u64, f: *mut u8, n: usize, g: *const u8, m: usize);
        pub fn leaf_shortest_period(terms: *const u8, n: usize) -> usize;
    }
}

const LENGTHS: [usize; 12] = [0, 1, 2, 3, 15, 16, 17, 31, 33, 255, 256, 1000];

fn dot(p: u64, c: &[u8], s: &[u8]) -> u8 {
    unsafe { exported::leaf_dot(p, c.as_ptr(), c.len(), s.as_ptr(), s.len()) }
}

fn updated(p: u64, a: &[u8], c: u8, b: &[u8]) -> Result<Vec<u8>, String> {
    left(a, |a| unsafe {
        exported::leaf_update(p, a.as_mut_ptr(), a.len(), c, b.as_ptr(), b.len())
    })
}

fn divided_in_place(p: u64, f: &[u8], g: &[u8]) -> Result<Vec<u8>, String> {
    left(f, |f| unsafe {
        exported::leaf_remainder(p, f.as_mut_ptr(), f.len(), g.as_ptr(), g.len())
    })
}

// ---- sums of products

fn sum(p: u64, c: &[u8], s: &[u8]) -> u8 {
    let mut total = 0;
    for (a, b) in c.iter().zip(s) {
        total = (total + *a as u64 * *b as u64) % p;
    }
    total as u8
}

fn dot_agrees(p: u64, c: &[u8], s: &[u8]) -> Result<(), String> {
    expect(dot(p, c, s), sum(p, c, s), || {
        format!("p {p}, {} · {}", list(c), list(s))
    })
}

// Any bytes, elements of the field or not, the second slice as long as the first or longer
fn sums() -> Outcome {
    let mut random = Random::of_seed(21);
    let mut cases = 0;
    for p in primes() {
        for m in LENGTHS {
            for more in [0, 1, 40] {
                dot_agrees(p, &random.numbers(p, m), &random.numbers(p, m + more))?;
                dot_agrees(p, &random.bytes(m), &random.bytes(m + more))?;
                dot_agrees(p, &vec![255; m], &vec![255; m + more])?;
                cases += 3;
            }
        }
    }
    Ok(cases)
}

fn no_sums() -> Outcome {
    let mut random = Random::of_seed(22);
    let mut cases = 0;
    for p in primes() {
        for m in LENGTHS {
            let (c, s) = (vec![1; m + 1], random.bytes(m));
            expect(dot(p, &c, &s), 0, || format!("p {p}, {} to {m}", m + 1))?;
            cases += 1;
        }
    }
    for n in NO_PRIMES {
        expect(dot(n, &[1], &[1, 1]), 0, || format!("p {n}"))?;
        cases += 1;
    }
    // 65,536 products are summed, and no more of them; the sum of one more is no multiple of p here
    for (p, byte) in [(2, 255), (3, 254), (251, 255)] {
        let (c, s) = (vec![byte; 65537], vec![byte; 65540]);
        dot_agrees(p, &c[1..], &s)?;
        dot_agrees(p, &c[1..], &s[..65536])?;
        expect(dot(p, &c, &s), 0, || format!("p {p}, 65,537 products"))?;
        cases += 3;
    }
    Ok(cases)
}

// ---- updates

fn update_agrees(p: u64, a: &[u8], c: u8, b: &[u8]) -> Result<(), String> {
    let mut expected = a.to_vec();
    for (x, y) in expected.iter_mut().zip(b) {
        *x = ((*x as u64 + c as u64 * *y as u64) % p) as u8;
    }
    expect(updated(p, a, c, b)?, expected, || {
        format!("p {p}, {} + {c}·{}", list(a), list(b))
    })
}

fn updates() -> Outcome {
    let mut random = Random::of_seed(23);
    let mut cases = 0;
    for p in primes() {
        for m in LENGTHS {
            for more in [0, 1, 40] {
                let c = random.below(p) as u8;
                update_agrees(p, &random.numbers(p, m + more), c, &random.numbers(p, m))?;
                let c = random.next() as u8;
                update_agrees(p, &random.bytes(m + more), c, &random.bytes(m))?;
                update_agrees(p, &vec![255; m + more], 255, &vec![255; m])?;
                cases += 3;
            }
        }
    }
    Ok(cases)
}

fn no_updates() -> Outcome {
    let mut random = Random::of_seed(24);
    let mut cases = 0;
    for p in primes() {
        for m in LENGTHS {
            let (a, b) = (random.bytes(m), vec![1; m + 1]);
            expect(updated(p, &a, 1, &b)?, a, || format!("p {p}, {m}"))?;
            cases += 1;
        }
    }
    for n in NO_PRIMES {
        let a = random.bytes(40);
        expect(updated(n, &a, 1, &[1; 30])?, a, || format!("p {n}"))?;
        cases += 1;
    }
    for p in [2, 3, 251] {
        let (a, b) = (random.bytes(65540), random.bytes(65537));
        update_agrees(p, &a, 255, &b[1..])?;
        update_agrees(p, &a[..65536], 255, &b[1..])?;
        expect(updated(p, &a, 1, &b)?, a, || format!("p {p}, 65,537 bytes"))?;
        cases += 3;
    }
    Ok(cases)
}

// ---- remainders

fn padded(mut l: Vec<u8>, n: usize) -> Vec<u8> {
    l.resize(n, 0);
    l
}

// The remainder by long division in as many bytes as the degree of g, and after them the quotient by the monic multiple
// of g, which is that by g times its leading coefficient
fn remainder_agrees(p: u64, f: &[u8], g: &[u8]) -> Result<(), String> {
    let degree = g.len() - 1;
    let expected = if f.len() <= degree {
        f.to_vec()
    } else {
        let (quotient, rest) = divided(Field::prime(p), of_bytes(f), &of_bytes(g));
        let mut both = padded(to_bytes(&rest), degree);
        let quotient = to_bytes(&multiple(Field::prime(p), g[degree] as u64, &quotient));
        both.extend(padded(quotient, f.len() - degree));
        both
    };
    expect(divided_in_place(p, f, g)?, expected, || {
        format!("p {p}, {} by {}", list(f), list(g))
    })
}

fn all_small() -> Outcome {
    let mut cases = 0;
    for (p, longest, last) in [(2, 8, 5), (3, 5, 3), (5, 3, 2)] {
        for n in 0..=longest {
            // a list of n coefficients is a monic polynomial of degree n without its leading 1
            for f in monics(Field::prime(p), n) {
                for e in 0..=last {
                    for g in monics(Field::prime(p), e) {
                        for c in 1..p {
                            let g = multiple(Field::prime(p), c, &g);
                            remainder_agrees(p, &to_bytes(&f[..n]), &to_bytes(&g))?;
                            cases += 1;
                        }
                    }
                }
            }
        }
    }
    Ok(cases)
}

fn remainders() -> Outcome {
    let mut random = Random::of_seed(25);
    let mut cases = 0;
    for p in primes() {
        for degree in 0..=48 {
            let mut g = random.monic(Field::prime(p), degree);
            g[degree] = random.between(1, p - 1) as u8;
            for n in [0, 1, degree, degree + 1, degree + 2, 2 * degree + 1, 100] {
                remainder_agrees(p, &random.numbers(p, n), &g)?;
                remainder_agrees(p, &vec![p as u8 - 1; n], &g)?;
                cases += 2;
            }
        }
    }
    Ok(cases)
}

// f is made as q·g + r, so that no division is needed to know what is left
fn made() -> Outcome {
    let mut random = Random::of_seed(26);
    let mut cases = 0;
    for p in primes() {
        for degree in 0..=40 {
            for count in [1, 2, 17, 60] {
                let (mut g, q) = (
                    random.monic(Field::prime(p), degree),
                    random.numbers(p, count),
                );
                g[degree] = random.between(1, p - 1) as u8;
                let r = random.numbers(p, degree);
                let whole = padded(
                    to_bytes(&product(Field::prime(p), &of_bytes(&q), &of_bytes(&g))),
                    degree + count,
                );
                let mut f = whole;
                for (a, b) in f.iter_mut().zip(&r) {
                    *a = ((*a as u64 + *b as u64) % p) as u8;
                }
                let q = to_bytes(&multiple(Field::prime(p), g[degree] as u64, &of_bytes(&q)));
                let q = padded(q, count);
                expect(divided_in_place(p, &f, &g)?, [r, q].concat(), || {
                    format!("p {p}, {} by {}", list(&f), list(&g))
                })?;
                cases += 1;
            }
        }
    }
    Ok(cases)
}

fn kept(p: u64, f: &[u8], g: &[u8]) -> Result<(), String> {
    expect(divided_in_place(p, f, g)?, f.to_vec(), || {
        format!("p {p}, {} by {}", list(f), list(g))
    })
}

fn no_remainders() -> Outcome {
    let mut random = Random::of_seed(27);
    let mut cases = 0;
    for n in NO_PRIMES {
        kept(n, &[1, 1, 1, 1], &[1, 1])?;
        cases += 1;
    }
    for p in primes() {
        kept(p, &random.numbers(p, 9), &[])?;
        for degree in [0, 1, 2, 5, 20] {
            let (f, g) = (random.numbers(p, 30), random.monic(Field::prime(p), degree));
            for place in 0..=degree {
                let mut g = g.clone();
                for c in [0, p as u8 - 1, p as u8, 255] {
                    g[place] = c;
                    if (c as u64) < p && (place < degree || c != 0) {
                        remainder_agrees(p, &f, &g)?;
                    } else {
                        kept(p, &f, &g)?;
                    }
                    cases += 1;
                }
            }
            for place in 0..f.len() {
                let mut f = f.clone();
                for c in [p as u8 - 1, p as u8, 255] {
                    f[place] = c;
                    if (c as u64) < p {
                        remainder_agrees(p, &f, &g)?;
                    } else {
                        kept(p, &f, &g)?;
                    }
                    cases += 1;
                }
            }
        }
    }
    Ok(cases)
}

// ---- shortest periods

fn shortest(terms: &[u8]) -> usize {
    unsafe { exported::leaf_shortest_period(terms.as_ptr(), terms.len()) }
}

fn shortest_agrees(terms: &[u8]) -> Result<(), String> {
    expect(shortest(terms), sequence::shortest_period(terms), || {
        list(terms)
    })
}

// All binary periods of at most 12 terms and all ternary ones of at most 7, alone and several times over
fn all_short_periods() -> Outcome {
    let mut cases = 0;
    for (p, most) in [(2, 12), (3, 7)] {
        for terms in (1..=most).flat_map(|n| sequence::all(p, n)) {
            for times in [1, 2, 3, 5] {
                shortest_agrees(&terms.repeat(times))?;
                cases += 1;
            }
        }
    }
    Ok(cases)
}

// Zeros and a one at the end, which nearly repeat after every divisor of their number; any bytes, several times over, and
// then one of them changed
fn long_periods() -> Outcome {
    let mut random = Random::of_seed(28);
    let mut cases = 0;
    for n in [4096, 3360, 4093, 3990, 2310, 1024, 961, 257, 256] {
        let mut terms = vec![0; n];
        expect(shortest(&terms), 1, || format!("{n} zeros"))?;
        terms[n - 1] = 1;
        shortest_agrees(&terms)?;
        cases += 2;
    }
    for _ in 0..300 {
        let n = random.between(1, 400) as usize;
        let times = random.between(1, 4096 / n as u64) as usize;
        let mut terms = random.bytes(n).repeat(times);
        shortest_agrees(&terms)?;
        terms[random.below((n * times) as u64) as usize] ^= 1;
        shortest_agrees(&terms)?;
        cases += 2;
    }
    expect(shortest(&[]), 0, || "no terms".into())?;
    Ok(cases + 1)
}

fn main() {
    run(
        "leaves",
        &[
            ("sums of products", sums),
            ("where no sum is made", no_sums),
            ("updates", updates),
            ("where no update is made", no_updates),
            ("all small divisions", all_small),
            ("remainders", remainders),
            ("remainders of polynomials that are made", made),
            ("where no remainder is taken", no_remainders),
            ("all short periods", all_short_periods),
            ("long periods", long_periods),
        ],
    )
}
