// rate_period: known answers, all short periods, periods of sequences with a known power of the factor, and every
// refusal.
mod common;

use common::field::{fields, Field};
use common::inputs::{self, dividing, divisor, factors, irreducible, power, register, x_minus_1};
use common::lent::{agrees, answers, refuses};
use common::poly;
use common::random::Random;
use common::rater::{power_rating, Factor, Input, Way};
use common::sequence::added;
use common::{faults, largest_degree, run, table, Outcome};

fn known_answers() -> Outcome {
    let rows = table::rows(include_str!("data/period.txt"));
    for row in &rows {
        let (name, f) = (table::name(row[0]), Factor::List(table::bytes(row[1])));
        let input = Input::of(Way::Period, name, vec![f], vec![], table::bytes(row[2]));
        answers(&input, &table::powers_rating(&row[3..]))?;
    }
    Ok(rows.len() as u64)
}

// For some fields all periods up to a length, with all factors up to a degree.
fn all_short() -> Outcome {
    let mut cases = 0;
    let primes = [(2, 10, 4), (3, 6, 2), (5, 4, 2), (7, 3, 2), (251, 1, 1)];
    let binary = [(2, 3, 5, 2), (3, 3, 3, 2), (4, 15, 2, 1), (8, 27, 1, 1)];
    let primes = primes.map(|(p, longest, largest)| (Field::prime(p), longest, largest));
    let binary = binary.map(|(n, low, longest, largest)| (Field::binary(n, low), longest, largest));
    for (field, longest, largest) in primes.into_iter().chain(binary) {
        let all = (1..=largest).flat_map(|d| poly::monics(field, d));
        for f in all.filter(|f| poly::is_irreducible(field, f)) {
            for terms in inputs::all_terms(field, longest) {
                agrees(&inputs::period(field, &f, &terms))?;
                cases += 1;
            }
        }
    }
    Ok(cases)
}

// Periods of sequences with the minimal polynomial f^r, where f^r divides (x^e − 1)^(p^w): they have the period
// e·p^w and its multiples.
fn made() -> Outcome {
    const EACH: u64 = 60;
    let mut random = Random::of_seed(20);
    for field in fields() {
        for _ in 0..EACH {
            let longest = random.one_of(&[400, 1000, 4096]);
            let (f, e, q) = dividing(&mut random, field, 400, longest);
            let n = e * q * random.between(1, longest / (e * q));
            let r = power(&mut random, field, q);
            let terms = register(&mut random, field, &f, r, n as usize);
            let input = inputs::period(field, &f, &terms);
            answers(&input, &Ok(power_rating(field, &f, r)))?;
        }
    }
    Ok(EACH * fields().len() as u64)
}

// The same by the second rater, also with one term changed.
fn against_the_second_rater() -> Outcome {
    const EACH: u64 = 40;
    let mut random = Random::of_seed(21);
    for field in fields() {
        for _ in 0..EACH {
            let (f, e, q) = dividing(&mut random, field, 60, 300);
            let n = e * q * random.between(1, 300 / (e * q));
            let r = power(&mut random, field, q);
            let mut terms = register(&mut random, field, &f, r, n as usize);
            agrees(&inputs::period(field, &f, &terms))?;
            let place = random.below(n) as usize;
            terms[place] = field.add(terms[place], random.unit(field));
            agrees(&inputs::period(field, &f, &terms))?;
        }
    }
    Ok(2 * EACH * fields().len() as u64)
}

fn noise() -> Outcome {
    const EACH: u64 = 40;
    let mut random = Random::of_seed(22);
    for field in fields() {
        for _ in 0..EACH {
            let n = random.between(1, 100) as usize;
            let terms = inputs::terms(&mut random, field, n);
            let f = &factors(&mut random, field, 1, 32)[0];
            agrees(&inputs::period(field, f, &terms))?;
        }
    }
    Ok(EACH * fields().len() as u64)
}

// The longest periods that p^w divides for the largest w, p being the characteristic, with the factor x − 1 to powers up
// to p^w.
fn longest() -> Outcome {
    let mut random = Random::of_seed(23);
    let mut cases = 0;
    for field in fields() {
        let p = field.characteristic;
        let mut q = p;
        while q * p <= 4096 {
            q *= p;
        }
        let (n, f) = (4096 / q * q, x_minus_1(field));
        let any = random.between(1, q);
        for r in [q, q - 1, q / p, q / p + 1, any] {
            let terms = register(&mut random, field, &f, r, n as usize);
            answers(
                &inputs::period(field, &f, &terms),
                &Ok(power_rating(field, &f, r)),
            )?;
            cases += 1;
        }
    }
    Ok(cases)
}

// Long binary periods with factors of other degrees.
fn long_binary() -> Outcome {
    let (mut random, field) = (Random::of_seed(24), Field::prime(2));
    let orders = [
        (2, 3, 1024),
        (3, 7, 512),
        (4, 15, 256),
        (10, 1023, 4),
        (12, 4095, 1),
        (12, 13, 256),
    ];
    let mut cases = 0;
    for (d, e, q) in orders {
        let f = divisor(&mut random, field, d, e);
        let any = random.between(1, q);
        for r in [1, q / 2 + 1, q, any].map(|r| r.min(q)) {
            let terms = register(&mut random, field, &f, r, (e * q) as usize);
            let rating = power_rating(field, &f, r);
            answers(&inputs::period(field, &f, &terms), &Ok(rating))?;
            cases += 1;
        }
    }
    Ok(cases)
}

// One sequence by its least period and by multiples of it, up to the longest.
fn multiples() -> Outcome {
    let mut random = Random::of_seed(25);
    let mut cases = 0;
    for field in fields() {
        let (f, e, q) = dividing(&mut random, field, 100, 4096);
        let p = field.characteristic;
        let r = random.between(q / p + 1, q);
        let terms = register(&mut random, field, &f, r, 4096);
        let rating = Ok(power_rating(field, &f, r));
        let last = 4096 / (e * q);
        let any = random.between(1, last);
        for k in [1, 2, 3, p, any, last].into_iter().filter(|k| *k <= last) {
            let n = (e * q * k) as usize;
            answers(&inputs::period(field, &f, &terms[..n]), &rating)?;
            cases += 1;
        }
    }
    Ok(cases)
}

// Row D: zeros have the power 0 with every factor, x among them.
fn zeros() -> Outcome {
    let mut random = Random::of_seed(26);
    let mut cases = 0;
    for field in fields() {
        for d in 0..=largest_degree(field) {
            let f = match d {
                0 => vec![0, 1],
                _ => irreducible(&mut random, field, d),
            };
            let n = random.between(1, 4096) as usize;
            answers(
                &inputs::period(field, &f, &vec![0; n]),
                &Ok(power_rating(field, &f, 0)),
            )?;
            cases += 1;
        }
    }
    Ok(cases)
}

// 17: the factor x with one term that is not 0, at each end.
fn no_power_of_x() -> Outcome {
    let mut random = Random::of_seed(27);
    let mut cases = 0;
    for field in fields() {
        for n in [1, 2, field.size as usize, 300] {
            for place in [0, n / 2, n - 1] {
                let mut terms = vec![0; n];
                terms[place] = random.unit(field);
                refuses(&inputs::period(field, &[0, 1], &terms), 17)?;
                cases += 1;
            }
        }
    }
    Ok(cases)
}

// 17: the sum of two sequences with different factors, asked for either factor.
fn two_factors() -> Outcome {
    const EACH: u64 = 10;
    let mut random = Random::of_seed(28);
    let mut cases = 0;
    for field in fields() {
        for _ in 0..EACH {
            let (f, e, q) = dividing(&mut random, field, 60, 300);
            let (g, c, _) = dividing(&mut random, field, 10, 10);
            let n = (e * c * q) as usize;
            if f == g || n > 600 {
                continue;
            }
            let first = register(&mut random, field, &f, q, n);
            let second = register(&mut random, field, &g, 1, n);
            for factor in [f, g] {
                refuses(
                    &inputs::period(field, &factor, &added(field, &first, &second)),
                    17,
                )?;
                cases += 1;
            }
        }
    }
    Ok(cases)
}

// 17: long periods, where one term is not what it was. A single term that is
// not 0 needs all factors of x^N − 1, and there are others than x − 1.
fn one_term_changed() -> Outcome {
    let mut random = Random::of_seed(29);
    let mut cases = 0;
    let primes = [2, 3, 5, 61, 251].map(Field::prime);
    let binary = [Field::binary(2, 3), Field::binary(8, 27)];
    for field in primes.into_iter().chain(binary) {
        let p = field.characteristic;
        let n = if p == 2 { 4094 } else { 4096 / (2 * p) * 2 * p };
        let f = x_minus_1(field);
        let terms = register(&mut random, field, &f, p, n as usize);
        for place in [0, n as usize / 2, n as usize - 1] {
            let mut changed = terms.clone();
            changed[place] = field.add(terms[place], 1);
            refuses(&inputs::period(field, &f, &changed), 17)?;
            cases += 1;
        }
    }
    Ok(cases)
}

// One term that is not 0, beside the borders of blocks of 256 places, in periods on both sides of whole blocks. 17 refuses all
// but those of 256 and 512 terms in characteristic 2, and of each the power p^w of x − 1 leaves two terms that are not 0.
fn one_term_in_a_block() -> Outcome {
    let mut cases = 0;
    let primes = [2, 3, 5, 251].map(Field::prime);
    for field in primes.into_iter().chain([Field::binary(8, 27)]) {
        for n in (255..=258).chain(511..=514) {
            for place in [0, 254, 255, 256, 257, n - 2, n - 1] {
                let mut terms = vec![0; n];
                let Some(term) = terms.get_mut(place) else {
                    continue;
                };
                *term = field.size - 1;
                agrees(&inputs::period(field, &x_minus_1(field), &terms))?;
                cases += 1;
            }
        }
    }
    Ok(cases)
}

fn main() {
    run(
        "period",
        &[
            ("known answers", known_answers),
            ("all short periods", all_short),
            ("periods with a known power", made),
            ("against the second rater", against_the_second_rater),
            ("noise", noise),
            ("the longest periods", longest),
            ("long binary periods", long_binary),
            ("multiples of the least period", multiples),
            ("zeros", zeros),
            ("no power of x", no_power_of_x),
            ("two factors", two_factors),
            ("one term changed", one_term_changed),
            ("one term in a block", one_term_in_a_block),
            ("every leading coefficient", || {
                faults::multiples(Way::Period)
            }),
            ("refused by 6 and 20", || faults::no_field(Way::Period)),
            ("refused by 7", || faults::counts(Way::Period)),
            ("refused by 8", || faults::terms(Way::Period)),
            ("refused by 10", || faults::degrees(Way::Period)),
            ("refused by 11", || faults::coefficients(Way::Period)),
            ("refused by 12", || faults::reducible(Way::Period)),
            ("refused by 16", || faults::lent(Way::Period)),
            ("the first condition refuses", || {
                faults::orders(Way::Period)
            }),
        ],
    )
}
