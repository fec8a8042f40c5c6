// rate_set: known answers and repeat lengths, all short portions with up to three factors, stretches of sequences with
// known powers of one factor and of up to eight, and every refusal.
mod common;

use common::field::{fields, Field};
use common::inputs::{self, factors, registers, x_minus_1};
use common::lent::{answers, refuses};
use common::poly::Poly;
use common::random::Random;
use common::rater::{set_rating, Factor, Input, Way};
use common::{expect, faults, named, run, table, Outcome};

fn known_answers() -> Outcome {
    let rows = table::rows(include_str!("data/set.txt"));
    for row in &rows {
        let name = table::name(row[0]);
        let factors = table::lists(row[1]).into_iter().map(Factor::List);
        let (uppers, terms) = (table::numbers(row[2]), table::bytes(row[3]));
        let input = Input::of(Way::Set, name, factors.collect(), uppers, terms);
        answers(&input, &table::powers_rating(&row[4..]))?;
    }
    Ok(rows.len() as u64)
}

// Repeat lengths that are known: the longest of a binary register that is told, and one that is longer; orders with common
// factors; the largest power, which need not be that of the first factor; a power of p beyond the longest; x, with which
// only zeros repeat; and powers over GF(4) and GF(256), whose characteristic is 2.
fn repeat_lengths() -> Outcome {
    let mut random = Random::of_seed(57);
    let (x, x1, three) = (vec![0, 1], vec![1, 1], vec![1, 1, 1]);
    let (five, fifteen) = (vec![1, 1, 1, 1, 1], vec![1, 1, 0, 0, 1]);
    let (seven, other) = (vec![1, 1, 0, 1], vec![1, 0, 1, 1]);
    let sixteen = vec![1, 1, 0, 1, 0, 0, 0, 0, 0, 0, 0, 0, 1, 0, 0, 0, 1];
    let seventeen = vec![1, 0, 0, 1, 0, 0, 0, 0, 0, 0, 0, 0, 0, 0, 0, 0, 0, 1];
    let (two, large) = (Field::prime(2), Field::prime(61));
    let (four, aes) = (Field::binary(2, 3), Field::binary(8, 27));
    let rows: &[(Field, &[&Poly], &[u64], u64)] = &[
        (two, &[&sixteen], &[1], 65535),
        (two, &[&seventeen], &[1], 0),
        (two, &[&sixteen, &x1], &[1, 1], 65535),
        (two, &[&sixteen, &x1], &[1, 2], 0),
        (two, &[&three, &five], &[1, 1], 15),
        (two, &[&five, &fifteen], &[1, 1], 15),
        (two, &[&seven, &other], &[1, 1], 7),
        (two, &[&seven, &other, &three], &[1, 2, 0], 14),
        (two, &[&three, &seven], &[1, 5], 168),
        (two, &[&x1], &[4096], 4096),
        (two, &[&x1], &[2049], 4096),
        (large, &[&vec![60, 1]], &[4096], 0),
        (large, &[&vec![60, 1]], &[3721], 3721),
        (large, &[&vec![60, 1]], &[3722], 0),
        (two, &[&x], &[3], 0),
        (two, &[&three, &x], &[1, 1], 0),
        (two, &[&three, &x], &[1, 0], 3),
        (two, &[&x, &x1], &[0, 0], 1),
        (four, &[&vec![2, 1]], &[1], 3),
        (four, &[&vec![2, 1]], &[2], 6),
        (four, &[&vec![2, 1], &vec![3, 1], &x1], &[1, 1, 5], 24),
        (four, &[&vec![2, 1, 1]], &[1], 15),
        (four, &[&vec![2, 1, 1]], &[3], 60),
        (four, &[&vec![2, 1]], &[4096], 12288),
        (aes, &[&vec![3, 1]], &[1], 255),
        (aes, &[&vec![3, 1]], &[257], 0),
        (aes, &[&vec![3, 1]], &[256], 65280),
        (aes, &[&vec![2, 1]], &[1], 51),
        (aes, &[&x1, &vec![2, 1]], &[1000, 3], 52224),
        (aes, &[&x1], &[4096], 4096),
        (aes, &[&x], &[1], 0),
    ];
    for (field, factors, powers, repeat) in rows {
        let factors: Vec<Poly> = factors.iter().map(|&f| f.clone()).collect();
        let uppers: Vec<u64> = powers.iter().map(|&r| r.max(1)).collect();
        let terms = registers(&mut random, *field, &factors, powers, 4096);
        let rating = set_rating(*field, &factors, powers);
        expect(rating.repeat, Some(*repeat), || {
            format!("{factors:?} {powers:?}")
        })?;
        answers(&inputs::set(*field, &factors, &uppers, &terms), &Ok(rating))?;
    }
    Ok(rows.len() as u64)
}

// Upper powers whose higher bytes count: those that a byte, two or four of them would take for 1.
fn large_uppers() -> Outcome {
    let (two, mut cases) = (Field::prime(2), 0);
    for shift in (8..64).step_by(8) {
        for upper in [1 << shift, (1 << shift) + 1, u64::MAX] {
            let number = if upper <= 4096 { 15 } else { 14 };
            refuses(
                &inputs::set(two, &[vec![1, 1]], &[upper], &[0; 100]),
                number,
            )?;
            cases += 1;
        }
    }
    Ok(cases)
}

// 9, at both sides of both limits
fn factor_counts() -> Outcome {
    let mut random = Random::of_seed(50);
    let mut cases = 0;
    for field in fields() {
        for n in [1, 8] {
            let factors = factors(&mut random, field, n, 3);
            let terms = registers(&mut random, field, &factors, &vec![1; n], 100);
            faults::rates(&inputs::set(field, &factors, &vec![1; n], &terms))?;
        }
        for n in [0, 9, 10, 16, 17, 256, 257, 1000] {
            let factors = vec![x_minus_1(field); n];
            refuses(&inputs::set(field, &factors, &vec![1; n], &[0; 100]), 9)?;
        }
        cases += 10;
    }
    Ok(cases)
}

// 13, at each pair of places, with equal and with other upper powers, and of multiples of one polynomial
fn equal_factors() -> Outcome {
    let mut random = Random::of_seed(51);
    let mut cases = 0;
    for field in fields() {
        let n = random.between(2, 8) as usize;
        let all = factors(&mut random, field, n, 32);
        let uppers: Vec<u64> = (0..n).map(|_| random.between(1, 2)).collect();
        for i in 0..n {
            for j in (0..n).filter(|j| *j != i) {
                let mut equal = all.clone();
                equal[i] = all[j].clone();
                refuses(&inputs::set(field, &equal, &uppers, &[0; 600]), 13)?;
                let given = inputs::multiples(&mut random, field, &equal);
                refuses(&inputs::set(field, &given, &uppers, &[0; 600]), 13)?;
                cases += 2;
            }
        }
        faults::rates(&inputs::set(field, &all, &uppers, &[0; 600]))?;
        cases += 1;
    }
    Ok(cases)
}

// 14: a factor without an upper power has 0; upper powers without a factor are not looked at
fn upper_counts() -> Outcome {
    let mut random = Random::of_seed(52);
    let mut cases = 0;
    for field in fields() {
        let n = random.between(1, 8) as usize;
        let factors = factors(&mut random, field, n, 3);
        let terms = registers(&mut random, field, &factors, &vec![1; n], 100);
        for given in 0..n {
            refuses(&inputs::set(field, &factors, &vec![1; given], &terms), 14)?;
            cases += 1;
        }
        for more in [0, 1, 5000, u64::MAX] {
            let mut uppers = vec![1; n];
            uppers.resize(n + random.between(1, 10) as usize, more);
            faults::rates(&inputs::set(field, &factors, &uppers, &terms))?;
            cases += 1;
        }
    }
    Ok(cases)
}

fn main() {
    run(
        "set",
        &[
            ("known answers", known_answers),
            ("all short portions", named::all_short),
            ("repeat lengths", repeat_lengths),
            ("upper powers of many bytes", large_uppers),
            ("a known power", || named::made(1)),
            ("known powers", || named::made(8)),
            ("one factor against the second rater", || {
                named::against_the_second_rater(1)
            }),
            ("against the second rater", || {
                named::against_the_second_rater(8)
            }),
            ("the factor x alone", || named::factor_x(1)),
            ("the factor x", || named::factor_x(8)),
            ("the largest total degree of one", || named::largest(1)),
            ("the largest total degree", || named::largest(8)),
            ("the largest numbers", named::largest_numbers),
            ("every leading coefficient", || faults::multiples(Way::Set)),
            ("refused by 6 and 20", || faults::no_field(Way::Set)),
            ("refused by 7", || faults::counts(Way::Set)),
            ("refused by 8", || faults::terms(Way::Set)),
            ("refused by 9", factor_counts),
            ("refused by 10", || faults::degrees(Way::Set)),
            ("refused by 11", || faults::coefficients(Way::Set)),
            ("refused by 12", || faults::reducible(Way::Set)),
            ("refused by 13", equal_factors),
            ("the number of upper powers", upper_counts),
            ("one factor refused by 14", || named::upper_powers(1)),
            ("refused by 14", || named::upper_powers(8)),
            ("one factor refused by 15", || named::too_few(1)),
            ("refused by 15", || named::too_few(8)),
            ("refused by 16", || faults::lent(Way::Set)),
            ("one factor refused by 17", || named::one_term_changed(1)),
            ("refused by 17", || named::one_term_changed(8)),
            ("the first condition refuses", || faults::orders(Way::Set)),
        ],
    )
}
