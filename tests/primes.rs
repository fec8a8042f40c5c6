// prime_in_range against a sieve, and on numbers that are primes in range only in their lower bits; the names of fields
// that the calls accept; and the version.
mod common;

use common::calls::{self, prime_in_range};
use common::field::{Field, Name};
use common::random::Random;
use common::{expect, no_fields, primes, run, sieve, Outcome, NO_PRIMES};

const RANDOM_CASES: u64 = 100_000;

fn against_a_sieve() -> Outcome {
    let last = 100_000;
    let prime = sieve(last);
    for n in 0..=last {
        expect(prime_in_range(n as u64), n <= 251 && prime[n], || {
            n.to_string()
        })?;
    }
    Ok(last as u64 + 1)
}

fn all_in_range() -> Outcome {
    let found = (0..=u16::MAX as u64)
        .filter(|&n| prime_in_range(n))
        .collect::<Vec<_>>();
    expect(&found, &primes(), || "primes in range".to_string())?;
    expect(found.len(), 54, || "their number".to_string())?;
    Ok(1 << 16)
}

fn none_of_these() -> Outcome {
    for n in NO_PRIMES {
        expect(prime_in_range(n), false, || n.to_string())?;
    }
    Ok(NO_PRIMES.len() as u64)
}

fn lower_bits() -> Outcome {
    for q in primes() {
        for bit in 8..64 {
            let n = q + (1 << bit);
            expect(prime_in_range(n), false, || n.to_string())?;
        }
    }
    Ok(primes().len() as u64 * 56)
}

fn large() -> Outcome {
    let mut random = Random::of_seed(1);
    for _ in 0..RANDOM_CASES {
        let n = random.next() >> random.below(56);
        expect(prime_in_range(n), primes().contains(&n), || n.to_string())?;
    }
    Ok(RANDOM_CASES)
}

// The call takes a name where it is that of a field, and else refuses it by 6 or 20. The polynomial is x + 1.
fn named(name: Name) -> Result<bool, String> {
    let field = Field::of(name).is_some();
    let expected = if field { Ok(true) } else { Err(name.refusal()) };
    expect(calls::is_irreducible(name, &[1, 1]), expected, || {
        name.to_string()
    })?;
    Ok(field)
}

// Every degree up to 10 with all low bits up to 511, of which 69 name a field; and names far out of range.
fn names_of_2_to_n() -> Outcome {
    let (mut cases, mut fields) = (0, [0; 11]);
    for degree in 0..=10 {
        for low in 0..512 {
            fields[degree as usize] += named(Name::Binary { degree, low })? as u64;
            cases += 1;
        }
    }
    let expected = [0, 0, 1, 2, 3, 6, 9, 18, 30, 0, 0];
    expect(fields, expected, || "fields of 2^n elements".to_string())?;
    for name in no_fields() {
        expect(named(name)?, false, || name.to_string())?;
        cases += 1;
    }
    for p in 0..600 {
        named(Name::Prime(p))?;
        cases += 1;
    }
    Ok(cases)
}

fn version() -> Outcome {
    expect(calls::version(), 4, || "the version".to_string())?;
    Ok(1)
}

fn main() {
    run(
        "primes",
        &[
            ("numbers up to 100,000", against_a_sieve),
            ("all primes in range", all_in_range),
            ("no primes", none_of_these),
            ("primes in the lower bits", lower_bits),
            ("large numbers", large),
            ("names of GF(2^n)", names_of_2_to_n),
            ("the version", version),
        ],
    )
}
