// Tests of the set way: stretches of sequences with known powers of the named factors, and the refusals 14, 15 and
// 17. Each takes the largest number of factors that it tests with: 1 for a single one, 8 for any number.
use super::field::{fields, Field};
use super::inputs::{
    self, all_terms, factors, factors_but_x, power, registers, total_degree, uppers, x_minus_1,
};
use super::lent::{agrees, answers, refuses};
use super::poly::{self, degree, Poly};
use super::random::Random;
use super::rater::{set_rating, Input};
use super::sequence::{self, Terms};
use super::Outcome;

// Named factors with their upper powers, and true powers up to these.
struct Named {
    field: Field,
    factors: Vec<Poly>,
    uppers: Vec<u64>,
    powers: Vec<u64>,
}

impl Named {
    // At most so many random ones of degree at most d, with a total degree of at most `total`.
    fn of(random: &mut Random, most: u64, field: Field, d: usize, total: usize) -> Self {
        let n = random.between(1, most) as usize;
        let mut factors = factors(random, field, n, d);
        while total_degree(&factors, &[1; 8]) > total {
            factors.pop();
        }
        if factors.is_empty() {
            factors.push(x_minus_1(field));
        }
        Named::with(random, field, factors, total)
    }

    // The same with just this total degree: the last factor is x − 1.
    fn exactly(random: &mut Random, most: u64, field: Field, d: usize, total: usize) -> Self {
        let mut factors = Named::of(random, most, field, d, total).factors;
        let last = x_minus_1(field);
        factors.retain(|f| *f != last);
        factors.truncate(most as usize - 1);
        factors.push(last);
        Named::with(random, field, factors, total)
    }

    fn with(random: &mut Random, field: Field, factors: Vec<Poly>, total: usize) -> Self {
        let uppers = uppers(random, &factors, total);
        let powers = uppers.iter().map(|&v| power(random, field, v)).collect();
        Named {
            field,
            factors,
            uppers,
            powers,
        }
    }

    fn total_degree(&self) -> usize {
        total_degree(&self.factors, &self.uppers)
    }

    fn terms(&self, random: &mut Random, n: usize) -> Terms {
        registers(random, self.field, &self.factors, &self.powers, n)
    }

    fn input(&self, terms: &[u64]) -> Input {
        inputs::set(self.field, &self.factors, &self.uppers, terms)
    }

    // The call finds the true powers in n terms.
    fn found(&self, random: &mut Random, n: usize) -> Result<(), String> {
        let rating = set_rating(self.field, &self.factors, &self.powers);
        let terms = self.terms(random, n);
        answers(&self.input(&terms), &Ok(rating))
    }
}

// All terms up to a length, with one to three of all factors up to a degree and all upper powers that leave enough
// terms.
pub fn all_short() -> Outcome {
    let mut cases = 0;
    for (field, largest, longest) in [
        (Field::prime(2), 3, 8),
        (Field::prime(3), 2, 5),
        (Field::prime(5), 1, 4),
        (Field::prime(7), 1, 3),
        (Field::binary(2, 3), 1, 5),
        (Field::binary(3, 3), 1, 3),
    ] {
        let all = (1..=largest).flat_map(|d| poly::monics(field, d));
        let all: Vec<Poly> = all.filter(|f| poly::is_irreducible(field, f)).collect();
        for factors in choices(&all).filter(|factors| factors.len() <= 3) {
            for uppers in small_uppers(factors.len(), longest) {
                let total = total_degree(&factors, &uppers);
                for terms in all_terms(field, longest).filter(|terms| terms.len() >= total) {
                    agrees(&inputs::set(field, &factors, &uppers, &terms))?;
                    cases += 1;
                }
            }
        }
    }
    Ok(cases)
}

// All choices of one or more.
fn choices(all: &[Poly]) -> impl Iterator<Item = Vec<Poly>> + '_ {
    (1..1u32 << all.len()).map(|chosen| {
        let indices = (0..all.len()).filter(|i| chosen >> i & 1 == 1);
        indices.map(|i| all[i].clone()).collect()
    })
}

// All lists of n numbers from 1 to `last`.
fn small_uppers(n: usize, last: usize) -> impl Iterator<Item = Vec<u64>> {
    let digits = sequence::all(last as u64, n as u32);
    digits.map(move |digits| digits.iter().map(|&c| c as u64 + 1).collect())
}

// Stretches of sequences with known powers, of total degrees up to 2,000, over all fields.
pub fn made(most: u64) -> Outcome {
    const EACH: u64 = 40;
    let mut random = Random::of_seed(110);
    for field in fields() {
        for _ in 0..EACH {
            let d = random.one_of(&[1, 2, 4, 32]);
            let total = random.one_of(&[40, 100, 300, 1000, 2000]);
            let named = Named::of(&mut random, most, field, d, total);
            let last = random.one_of(&[named.total_degree() as u64 + 10, 4096]);
            let n = random.between(named.total_degree() as u64, last);
            named.found(&mut random, n as usize)?;
        }
    }
    Ok(EACH * fields().len() as u64)
}

// Short stretches against the second rater, and the same with any one term changed.
pub fn against_the_second_rater(most: u64) -> Outcome {
    const EACH: u64 = 30;
    let mut random = Random::of_seed(111);
    for field in fields() {
        for _ in 0..EACH {
            let d = random.one_of(&[1, 2, 4, 32]);
            let named = Named::of(&mut random, most, field, d, 60);
            let n = named.total_degree() + random.between(0, 60) as usize;
            let mut terms = named.terms(&mut random, n);
            agrees(&named.input(&terms))?;
            let place = random.below(n as u64) as usize;
            terms[place] = field.add(terms[place], random.unit(field));
            agrees(&named.input(&terms))?;
        }
    }
    Ok(2 * EACH * fields().len() as u64)
}

// The factor x to a positive power, alone or among others.
pub fn factor_x(most: u64) -> Outcome {
    const EACH: u64 = 10;
    let mut random = Random::of_seed(116);
    for field in fields() {
        for _ in 0..EACH {
            let n = random.between(1, most) as usize;
            let mut factors = factors_but_x(&mut random, field, n, 4);
            let place = random.below(n as u64) as usize;
            factors[place] = vec![0, 1];
            let total = random.one_of(&[50, 300, 1000]);
            let mut named = Named::with(&mut random, field, factors, total);
            named.powers[place] = random.between(1, named.uppers[place]);
            let n = named.total_degree() + random.between(0, 40) as usize;
            named.found(&mut random, n)?;
        }
    }
    Ok(EACH * fields().len() as u64)
}

// The largest total degree, with as many terms.
pub fn largest(most: u64) -> Outcome {
    let mut random = Random::of_seed(112);
    for field in fields() {
        let named = Named::exactly(&mut random, most, field, 8, 4096);
        assert_eq!(named.total_degree(), 4096);
        named.found(&mut random, 4096)?;
        let named = Named::of(&mut random, most, field, 32, 4096);
        named.found(&mut random, 4096)?;
    }
    Ok(2 * fields().len() as u64)
}

// The largest numbers: all terms are one less than the size, of a continuation by polynomials with many large
// coefficients.
pub fn largest_numbers() -> Outcome {
    for field in [Field::prime(251), Field::binary(8, 27)] {
        let factors = [vec![field.size - 2, 1], vec![1, 1]];
        for total in [1000, 4096] {
            for n in [1, 2] {
                let uppers = vec![total / n as u64; n];
                let terms = vec![field.size - 1; total as usize];
                agrees(&inputs::set(field, &factors[..n], &uppers, &terms))?;
            }
        }
    }
    Ok(8)
}

// 14: upper powers of any size, at each place. D is 4,096 at most, and no sum wraps.
pub fn upper_powers(most: u64) -> Outcome {
    let mut random = Random::of_seed(113);
    let mut cases = 0;
    for field in fields() {
        let n = most.min(4) as usize;
        let factors = factors(&mut random, field, n, 5);
        for (place, f) in factors.iter().enumerate() {
            let with = |v: u64| {
                let mut uppers = vec![1; n];
                uppers[place] = v;
                uppers
            };
            let d = degree(f);
            let last = ((4096 - total_degree(&factors, &with(0))) / d) as u64;
            for v in beyond(d as u64, last) {
                let terms = inputs::terms(&mut random, field, 4096);
                refuses(&inputs::set(field, &factors, &with(v), &terms), 14)?;
                cases += 1;
            }
            for v in [1, last] {
                let powers = with(v.min(2));
                let terms = registers(&mut random, field, &factors, &powers, 4096);
                let rating = set_rating(field, &factors, &powers);
                answers(&inputs::set(field, &factors, &with(v), &terms), &Ok(rating))?;
                cases += 1;
            }
        }
    }
    Ok(cases)
}

// Upper powers of a factor of degree d that 14 refuses where `last` is the largest that it does not; for some of them
// d times the power is small in 64 bits.
fn beyond(d: u64, last: u64) -> Vec<u64> {
    let wraps = u64::MAX / d + 1;
    let large = [
        1 << 32,
        (1 << 32) + 1,
        1 << 63,
        (1 << 63) + 1,
        u64::MAX - 1,
        u64::MAX,
    ];
    let near = [0, last + 1, last + 2, 4097, 65536, 65537];
    let all = near.into_iter().chain(large);
    match d {
        1 => all.collect(),
        _ => all.chain([wraps, wraps + 1]).collect(),
    }
}

// 15: D − 1 terms are too few, D are enough.
pub fn too_few(most: u64) -> Outcome {
    let mut random = Random::of_seed(114);
    let mut cases = 0;
    for field in fields() {
        for total in [2, 3, 5, 10, 33, 300, 4096] {
            let named = Named::of(&mut random, most, field, 4, total);
            let n = named.total_degree();
            named.found(&mut random, n)?;
            let terms = named.terms(&mut random, n);
            let fewer = random.between(1, n as u64 - 1) as usize;
            for few in [n - 1, fewer, 1] {
                refuses(&named.input(&terms[..few]), 15)?;
            }
            cases += 4;
        }
    }
    Ok(cases)
}

// 17: one term beyond the first D is not what the continuation has there, the last of all among them, and the only one
// where there are D + 1.
pub fn one_term_changed(most: u64) -> Outcome {
    let mut random = Random::of_seed(115);
    let mut cases = 0;
    for field in fields() {
        for total in [1, 5, 50, 400, 4000] {
            let d = random.one_of(&[1, 4]);
            let named = Named::of(&mut random, most, field, d, total);
            let first = named.total_degree() as u64;
            let n = first + random.between(1, 96);
            let terms = named.terms(&mut random, n as usize);
            let between = random.between(first, n - 1);
            for (place, n) in [(first, n), (between, n), (n - 1, n), (first, first + 1)] {
                let mut changed = terms[..n as usize].to_vec();
                let term = &mut changed[place as usize];
                *term = field.add(*term, random.unit(field));
                refuses(&named.input(&changed), 17)?;
                cases += 1;
            }
        }
    }
    Ok(cases)
}
