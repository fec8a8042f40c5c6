// The rating does not depend on where a sequence was cut, how long the stretch is, and which way rated it: endless
// sequences that named factors other than x annihilate, cut at random places into stretches of all accepted
// lengths. The polynomial is known from how the sequence is made.
mod common;

use common::field::{binary_fields, fields, Field};
use common::inputs::{self, dividing, factors_but_x, power, register, registers, total_degree};
use common::lent::answers;
use common::poly::{degree, Poly};
use common::random::Random;
use common::rater::{power_rating, set_rating, Rating};
use common::sequence::{continued, Terms};
use common::{run, Outcome};

// A sequence by many of its first terms, with the powers of the factors in its minimal polynomial.
struct Sequence {
    field: Field,
    factors: Vec<Poly>,
    powers: Vec<u64>,
    terms: Terms,
}

impl Sequence {
    // 6,000 terms of a register with the minimal polynomial f^r.
    fn of_power(random: &mut Random, field: Field, f: Poly, r: u64) -> Self {
        Sequence {
            field,
            terms: register(random, field, &f, r, 6000),
            factors: vec![f],
            powers: vec![r],
        }
    }

    // Up to `most` factors, some of them perhaps to the power 0.
    fn of(random: &mut Random, field: Field, most: u64, total: usize, known: usize) -> Self {
        let n = random.between(1, most) as usize;
        let factors = factors_but_x(random, field, n, 4);
        let uppers = inputs::uppers(random, &factors, total);
        let powers: Vec<u64> = uppers.iter().map(|&v| power(random, field, v)).collect();
        let terms = registers(random, field, &factors, &powers, known);
        Sequence {
            field,
            factors,
            powers,
            terms,
        }
    }

    // `least` to 4,096 terms from any place on, often just the fewest or the most.
    fn cut(&self, random: &mut Random, least: usize) -> &[u64] {
        let any = random.between(least as u64, 4096) as usize;
        let n = random.one_of(&[least, any, any, 4096]);
        let place = random.between(0, (self.terms.len() - n) as u64) as usize;
        &self.terms[place..place + n]
    }

    // Upper powers for a rating, none below the true powers.
    fn uppers(&self, random: &mut Random) -> Vec<u64> {
        let mut uppers: Vec<u64> = self.powers.iter().map(|&r| r.max(1)).collect();
        for (i, f) in self.factors.iter().enumerate() {
            let left = 4096 - total_degree(&self.factors, &uppers);
            let most = random.one_of(&[0, 5, 100, 4096]).min(left / degree(f));
            uppers[i] += random.between(0, most as u64);
        }
        uppers
    }

    // The set way finds the minimal polynomial in a stretch.
    fn named(&self, random: &mut Random) -> Outcome {
        let uppers = self.uppers(random);
        let terms = self.cut(random, total_degree(&self.factors, &uppers));
        let rating = set_rating(self.field, &self.factors, &self.powers);
        let given = inputs::multiples(random, self.field, &self.factors);
        let input = inputs::set(self.field, &given, &uppers, terms);
        answers(&input, &Ok(rating))?;
        Ok(1)
    }

    // The free way finds it in a stretch of at least twice its degree.
    fn free(&self, random: &mut Random) -> Outcome {
        let polynomial = set_rating(self.field, &self.factors, &self.powers).polynomial;
        let least = (2 * degree(&polynomial)).max(1);
        if least > 4096 {
            return Ok(0);
        }
        let terms = self.cut(random, least);
        let rating = Rating {
            powers: vec![],
            polynomial,
            repeat: None,
            unique: Some(true),
        };
        answers(&inputs::free(self.field, terms), &Ok(rating))?;
        Ok(1)
    }
}

// Sequences over all fields, each cut several times, for each way.
fn stretches() -> Outcome {
    const EACH: u64 = 12;
    let mut random = Random::of_seed(41);
    let mut cases = 0;
    for field in fields() {
        for _ in 0..EACH {
            let most = random.one_of(&[1, 3, 8]);
            let total = random.one_of(&[40, 60, 150, 500]);
            let sequence = Sequence::of(&mut random, field, most, total, 6000);
            for _ in 0..4 {
                cases += sequence.named(&mut random)?;
                cases += sequence.free(&mut random)?;
            }
        }
    }
    Ok(cases)
}

// Large total degrees.
fn large() -> Outcome {
    let mut random = Random::of_seed(42);
    let mut cases = 0;
    for field in fields() {
        let total = random.one_of(&[1500, 2048, 4096]);
        let sequence = Sequence::of(&mut random, field, 8, total, 5000);
        for _ in 0..3 {
            cases += sequence.named(&mut random)?;
            cases += sequence.free(&mut random)?;
        }
    }
    Ok(cases)
}

// Cuts far from the beginning.
fn far() -> Outcome {
    let mut random = Random::of_seed(43);
    let mut cases = 0;
    for field in fields() {
        let mut sequence = Sequence::of(&mut random, field, 3, 16, 64);
        let whole = set_rating(field, &sequence.factors, &sequence.powers).polynomial;
        let n = random.between(100_000, 200_000) as usize;
        let terms = continued(field, &whole, &sequence.terms[..degree(&whole)], n);
        sequence.terms = terms[n - 5000..].to_vec();
        for _ in 0..4 {
            cases += sequence.named(&mut random)?;
            cases += sequence.free(&mut random)?;
        }
    }
    Ok(cases)
}

// Factors over GF(2^n) with coefficients outside GF(2), to powers beside each power of 2: a factor to the power 2^w has
// its coefficients raised, and they are others than before where n does not divide w.
fn raised() -> Outcome {
    let mut random = Random::of_seed(45);
    let mut cases = 0;
    for field in binary_fields() {
        let w = random.between(1, 10);
        let near = [(1 << w) - 1, 1 << w, (1 << w) + 1];
        for r in near {
            let d = random.between(1, if w > 7 { 2 } else { 3 }) as usize;
            let f = loop {
                let f = inputs::irreducible(&mut random, field, d);
                if f.iter().any(|&c| c > 1) {
                    break f;
                }
            };
            let sequence = Sequence::of_power(&mut random, field, f, r);
            cases += sequence.named(&mut random)?;
            cases += sequence.free(&mut random)?;
        }
    }
    Ok(cases)
}

// Periods with one factor: all three ways on one sequence.
fn periods() -> Outcome {
    const EACH: u64 = 8;
    let mut random = Random::of_seed(44);
    let mut cases = 0;
    for field in fields() {
        for _ in 0..EACH {
            let longest = random.one_of(&[300, 1000, 4096]);
            let (f, e, q) = dividing(&mut random, field, 200, longest);
            let r = power(&mut random, field, q);
            let sequence = Sequence::of_power(&mut random, field, f, r);
            cases += sequence.named(&mut random)?;
            cases += sequence.free(&mut random)?;
            for _ in 0..3 {
                let n = (e * q * random.between(1, 4096 / (e * q))) as usize;
                let place = random.between(0, 6000 - n as u64) as usize;
                let period = &sequence.terms[place..place + n];
                let rating = power_rating(field, &sequence.factors[0], r);
                let given = inputs::multiples(&mut random, field, &sequence.factors);
                let input = inputs::period(field, &given[0], period);
                answers(&input, &Ok(rating))?;
                cases += 1;
            }
        }
    }
    Ok(cases)
}

fn main() {
    run(
        "cuts",
        &[
            ("stretches", stretches),
            ("large total degrees", large),
            ("far from the beginning", far),
            ("raised coefficients", raised),
            ("periods", periods),
        ],
    )
}
