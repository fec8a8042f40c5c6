// Rating calls on lent bytes that hold marks: every byte of the answer and of the work is looked at afterwards, and
// so are the bytes before and after them.
use super::calls::{self, Figures};
use super::poly;
use super::random::Random;
use super::rater::{self, Factor, Input, Rating};
use super::{expect, list};
use std::sync::LazyLock;

const MARGIN: usize = 32;

// Lent bytes in the midst of others, all of them marks.
#[derive(PartialEq)]
struct Lent {
    all: Vec<u8>,
    size: usize,
}

impl Lent {
    fn of(size: usize) -> Self {
        static MARKS: LazyLock<Vec<u8>> = LazyLock::new(|| Random::of_seed(100).bytes(1 << 17));
        Lent {
            all: MARKS[..size + 2 * MARGIN].to_vec(),
            size,
        }
    }

    fn bytes(&mut self) -> &mut [u8] {
        &mut self.all[MARGIN..MARGIN + self.size]
    }

    // Where two differ, counted from the start of the lent bytes.
    fn difference(&self, other: &Lent) -> Option<isize> {
        let place = (0..self.all.len()).find(|&i| self.all[i] != other.all[i])?;
        Some(place as isize - MARGIN as isize)
    }
}

// The call answers an input as the second rater does.
pub fn agrees(input: &Input) -> Result<(), String> {
    answers(input, &rater::rate(input))
}

// The call refuses an input by this number, and so does the second rater.
pub fn refuses(input: &Input, number: u64) -> Result<(), String> {
    expect(rater::rate(input).err(), Some(number), || {
        format!("the second rater: {}", case(input))
    })?;
    answers(input, &Err(number))
}

// The call answers an input as it is expected to, and leaves the lent bytes so.
pub fn answers(input: &Input, expected: &Result<Rating, u64>) -> Result<(), String> {
    answers_by(calls::rate, input, expected)
}

// The same of a call that is made otherwise.
pub fn answers_by(
    call: impl Fn(&Input, &mut [u8], &mut [u8]) -> Figures,
    input: &Input,
    expected: &Result<Rating, u64>,
) -> Result<(), String> {
    let (mut answer, mut work) = (Lent::of(input.answer), Lent::of(input.work));
    let found = call(input, answer.bytes(), work.bytes());
    expect(found, figures(expected), || case(input))?;
    let (mut answer_after, mut work_after) = (Lent::of(input.answer), Lent::of(input.work));
    if let Ok(rating) = expected {
        let size = rating.polynomial.len();
        let polynomial = poly::to_bytes(&rating.polynomial);
        expect(&answer.bytes()[..size], &polynomial[..], || case(input))?;
        answer_after.bytes()[..size].copy_from_slice(&polynomial);
    }
    if matches!(expected, Ok(_) | Err(17)) {
        work_after.bytes()[..8192].fill(0);
    }
    let differences = [
        answer.difference(&answer_after),
        work.difference(&work_after),
    ];
    expect(differences, [None, None], || {
        format!("{}: wrong bytes in the answer and the work", case(input))
    })
}

// What the call has to return.
fn figures(expected: &Result<Rating, u64>) -> Figures {
    let mut figures = Figures::default();
    match expected {
        Err(number) => figures.status = *number,
        Ok(rating) => {
            figures.complexity = poly::degree(&rating.polynomial) as u64;
            figures.powers[..rating.powers.len()].copy_from_slice(&rating.powers);
            figures.repeat = rating.repeat.unwrap_or(0);
            figures.word = rating.unique.map_or(0, |one| if one { 1 } else { 2 });
        }
    }
    figures
}

fn case(input: &Input) -> String {
    let factor = |f: &Factor| match f {
        Factor::List(coefficients) => list(coefficients),
        Factor::Record { .. } => format!("{f:?}"),
    };
    format!(
        "{:?}, {}, factors {:?}, upper powers {:?}, terms {}, {} and {} bytes lent",
        input.way,
        input.field,
        input.factors.iter().map(factor).collect::<Vec<_>>(),
        input.uppers,
        list(&input.terms),
        input.answer,
        input.work
    )
}
