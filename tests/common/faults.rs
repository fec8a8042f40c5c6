// Tests that the ways share: the refusals 6 or 20, 7, 8, 10 to 12 and 16 at both sides of their limits, and the order of
// all.
use super::field::{fields, Field, Name};
use super::inputs::{self, factors_but_x, irreducible, list, no_elements, registers, x_minus_1};
use super::lent::{agrees, answers, refuses};
use super::poly;
use super::random::Random;
use super::rater::{rate, Factor, Input, Way};
use super::{largest_degree, no_fields, Outcome};

// An accepted input: of the period way a constant period with the factor x − 1; else terms of a sequence that has one
// to three factors to their upper powers, ten more than the total degree.
pub fn accepted(random: &mut Random, way: Way, field: Field) -> Input {
    let n = random.between(1, 3) as usize;
    let factors = factors_but_x(random, field, n, 3);
    let uppers: Vec<u64> = (0..n).map(|_| random.between(2, 3)).collect();
    let total = inputs::total_degree(&factors, &uppers);
    let terms = registers(random, field, &factors, &uppers, total + 10);
    match way {
        Way::Period => inputs::period(field, &x_minus_1(field), &[random.unit(field); 6]),
        Way::Set => inputs::set(field, &factors, &uppers, &terms),
        Way::Free => inputs::free(field, &terms),
    }
}

// 6 and 20
pub fn no_field(way: Way) -> Outcome {
    let mut random = Random::of_seed(101);
    let mut cases = 0;
    for name in no_fields() {
        for field in [Field::prime(2), Field::prime(251), Field::binary(8, 27)] {
            let mut input = accepted(&mut random, way, field);
            input.field = name;
            refuses(&input, name.refusal())?;
            cases += 1;
        }
    }
    Ok(cases)
}

// 7: constant terms, with the factor x − 1
pub fn counts(way: Way) -> Outcome {
    let mut cases = 0;
    for field in fields() {
        for n in [1, 2, 4095, 4096, 0, 4097, 4098, 65536, 65537, 70000] {
            let (f, terms) = (x_minus_1(field), vec![field.size - 1; n]);
            let input = match way {
                Way::Period => inputs::period(field, &f, &terms),
                Way::Set => inputs::set(field, &[f], &[1], &terms),
                Way::Free => inputs::free(field, &terms),
            };
            if (1..=4096).contains(&n) {
                rates(&input)?;
            } else {
                refuses(&input, 7)?;
            }
            cases += 1;
        }
    }
    Ok(cases)
}

// The call rates an input, as the second rater does.
pub fn rates(input: &Input) -> Result<(), String> {
    match rate(input) {
        Err(number) => Err(format!("the second rater refuses by {number}")),
        rating => answers(input, &rating),
    }
}

// 8, at each place of the terms
pub fn terms(way: Way) -> Outcome {
    let mut random = Random::of_seed(102);
    let mut cases = 0;
    for field in fields() {
        let input = accepted(&mut random, way, field);
        for place in 0..input.terms.len() {
            for wrong in no_elements(field) {
                refuses(&with_term(&input, place, wrong), 8)?;
            }
            agrees(&with_term(&input, place, (field.size - 1) as u8))?;
            cases += 3;
        }
        let mut input = input;
        input.terms.resize(4096, 0);
        for wrong in no_elements(field) {
            refuses(&with_term(&input, 4095, wrong), 8)?;
        }
        cases += 1;
    }
    Ok(cases)
}

fn with_term(input: &Input, place: usize, term: u8) -> Input {
    let mut input = input.clone();
    input.terms[place] = term;
    input
}

fn with_factor(input: &Input, place: usize, factor: Vec<u8>) -> Input {
    let mut input = input.clone();
    input.factors[place] = Factor::List(factor);
    input
}

// 10, at both sides of the limit for every field, and far beyond it; in the set way at each place
pub fn degrees(way: Way) -> Outcome {
    let mut random = Random::of_seed(103);
    let mut cases = 0;
    for field in fields() {
        let input = accepted(&mut random, way, field);
        let last = largest_degree(field);
        for place in 0..input.factors.len() {
            for d in [
                0,
                last + 1,
                last + 2,
                32.max(last) + 1,
                255,
                256,
                258,
                4096,
                65537,
            ] {
                for f in [random.monic(field, d), vec![255; d + 1], vec![0; d + 1]] {
                    refuses(&with_factor(&input, place, f), 10)?;
                    cases += 1;
                }
            }
            for d in [1, last] {
                let f = irreducible(&mut random, field, d);
                agrees(&with_factor(&input, place, poly::to_bytes(&f)))?;
                cases += 1;
            }
        }
    }
    Ok(cases)
}

// 11, at each place of a factor; in the set way of each factor
pub fn coefficients(way: Way) -> Outcome {
    let mut random = Random::of_seed(104);
    let mut cases = 0;
    for field in fields() {
        let input = accepted(&mut random, way, field);
        for i in 0..input.factors.len() {
            refuses(&with_factor(&input, i, vec![]), 11)?;
            for d in 1..=largest_degree(field) {
                let f = random.monic(field, d);
                let wrong = no_elements(field);
                let places = (0..=d).flat_map(|k| wrong.iter().map(move |&c| (k, c)));
                for (k, c) in places.chain([(d, 0)]) {
                    let mut f = f.clone();
                    f[k] = c;
                    refuses(&with_factor(&input, i, f), 11)?;
                    cases += 1;
                }
            }
        }
    }
    Ok(cases)
}

// Every leading coefficient of every field: a multiple of the factor is rated as the factor is, and in the set way
// the multiples of several factors by different numbers; a reducible factor is refused whatever its multiple is.
pub fn multiples(way: Way) -> Outcome {
    let mut random = Random::of_seed(107);
    let mut cases = 0;
    for field in fields() {
        let input = accepted(&mut random, way, field);
        let rating = rate(&input);
        let (f, g) = (
            irreducible(&mut random, field, 1),
            irreducible(&mut random, field, 1),
        );
        for c in 1..field.size {
            let mut given = input.clone();
            for (i, factor) in given.factors.iter_mut().enumerate() {
                let by = (c + i as u64 * random.below(field.size) - 1) % (field.size - 1) + 1;
                *factor = list(&poly::multiple(field, by, &factor.polynomial(field)));
            }
            answers(&given, &rating)?;
            agrees(&given)?;
            let product = poly::multiple(field, c, &poly::product(field, &f, &g));
            let place = random.below(input.factors.len() as u64) as usize;
            refuses(&with_factor(&given, place, poly::to_bytes(&product)), 12)?;
            let x = with_factor(&given, place, vec![0, c as u8]);
            agrees(&x)?;
            cases += 4;
        }
    }
    Ok(cases)
}

// 12: products of two irreducible polynomials of all degrees, equal ones among them; and irreducible ones
pub fn reducible(way: Way) -> Outcome {
    let mut random = Random::of_seed(105);
    let mut cases = 0;
    for field in fields() {
        let input = accepted(&mut random, way, field);
        for d in 2..=largest_degree(field) {
            let place = random.below(input.factors.len() as u64) as usize;
            let least = random.between(1, d as u64 - 1) as usize;
            let f = irreducible(&mut random, field, least);
            let g = irreducible(&mut random, field, d - least);
            let half = irreducible(&mut random, field, d / 2);
            for product in [
                poly::product(field, &f, &g),
                poly::product(field, &half, &half),
            ] {
                refuses(&with_factor(&input, place, poly::to_bytes(&product)), 12)?;
            }
            let f = irreducible(&mut random, field, d);
            agrees(&with_factor(&input, place, poly::to_bytes(&f)))?;
            cases += 3;
        }
    }
    Ok(cases)
}

// 16, at both sides of both limits
pub fn lent(way: Way) -> Outcome {
    let mut random = Random::of_seed(106);
    let mut cases = 0;
    for answer in [0, 1, 2048, 4096, 4097, 4098, 8192, 70000] {
        for work in [0, 1, 4097, 8191, 8192, 8193, 16384, 70000] {
            let field = random.one_of(&fields());
            let mut input = accepted(&mut random, way, field);
            (input.answer, input.work) = (answer, work);
            if answer >= 4097 && work >= 8192 {
                rates(&input)?;
            } else {
                refuses(&input, 16)?;
            }
            cases += 1;
        }
    }
    Ok(cases)
}

// An input that breaks any choice of the way's conditions is refused by the first of them.
pub fn orders(way: Way) -> Outcome {
    let mut random = Random::of_seed(107);
    let mut cases = 0;
    for (field, times) in [(Field::prime(251), 2), (Field::binary(7, 3), 1)] {
        let conditions = way.conditions(field.name);
        let choices = 1u32 << conditions.len();
        let rounds = times * 4096 / choices;
        for _ in 0..rounds {
            rates(&accepted(&mut random, way, field))?;
            for broken in 1..choices {
                let mut input = accepted(&mut random, way, field);
                for i in (0..conditions.len()).rev().filter(|i| broken >> i & 1 == 1) {
                    break_by(&mut random, field, conditions[i], &mut input);
                }
                refuses(&input, conditions[broken.trailing_zeros() as usize])?;
            }
        }
        cases += (rounds * choices) as u64;
    }
    Ok(cases)
}

// Makes a condition hold of an input over GF(251) or GF(2^7), which have the same largest degree. Conditions are broken
// from the last to the first, and breaking one makes none before it hold.
fn break_by(random: &mut Random, field: Field, number: u64, input: &mut Input) {
    let place = random.below(input.factors.len().max(1) as u64) as usize;
    match number {
        6 | 20 => input.field = other_name(random, number),
        7 => input.terms.resize(random.one_of(&[0, 4097, 5000]), 1),
        8 => {
            let place = random.below(input.terms.len() as u64) as usize;
            input.terms[place] = random.one_of(&no_elements(field));
        }
        9 if random.below(2) == 0 => input.factors.clear(),
        9 => {
            while input.factors.len() < 9 {
                let f = random.monic(field, 2);
                input.factors.push(Factor::List(f));
            }
        }
        10 => *coefficients_of(input, place) = random_list(random, &[1, 7, 34, 300]),
        11 => {
            let (f, beyond) = (coefficients_of(input, place), field.size as u8);
            let last = f.len() - 1;
            let (k, c) = random.one_of(&[(0, beyond), (0, 255), (last, 0), (last, beyond)]);
            f[k] = c;
        }
        12 => {
            let f = irreducible(random, field, 1);
            let d = random.between(1, 4) as usize;
            let g = irreducible(random, field, d);
            input.factors[place] = list(&poly::product(field, &f, &g));
        }
        13 => {
            input.factors.push(input.factors[place].clone());
            input.uppers.push(1);
        }
        14 => input.uppers[place] = random.one_of(&[0, 4097, 1 << 32, 1 << 63, u64::MAX]),
        15 => input.terms.truncate(1),
        16 if random.below(2) == 0 => input.answer = random.one_of(&[0, 4096]),
        16 => input.work = random.one_of(&[0, 8191]),
        17 => {
            let last = input.terms.last_mut().unwrap();
            *last = field.add(*last as u64, random.unit(field)) as u8;
        }
        _ => panic!("no condition {number}"),
    }
}

// A name that 6 or 20 refuses.
fn other_name(random: &mut Random, number: u64) -> Name {
    let primes = [0, 1, 252, 253, 507, (1 << 32) + 251, u64::MAX].map(Name::Prime);
    let binary = [
        (1, 1),
        (7, 1),
        (7, 131),
        (7, 2),
        (9, 3),
        (128, 3),
        (u64::MAX, 3),
    ];
    let binary = binary.map(|(degree, low)| Name::Binary { degree, low });
    random.one_of(if number == 6 { &primes } else { &binary })
}

fn coefficients_of(input: &mut Input, place: usize) -> &mut Vec<u8> {
    match &mut input.factors[place] {
        Factor::List(list) => list,
        Factor::Record { .. } => panic!("a factor of a file"),
    }
}

// As many bytes as one of the sizes says.
fn random_list(random: &mut Random, sizes: &[usize]) -> Vec<u8> {
    let size = random.one_of(sizes);
    random.bytes(size)
}
