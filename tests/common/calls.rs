// The exported calls of crates/exports, as include/gobashe.h declares them. A slice passes as its start and its length,
// a struct by value.
use super::field::Name;
use super::rater::{Factor, Input, Way};

// An answer, or the number of the refusal.
pub type Answer<T> = Result<T, u64>;

#[repr(C)]
#[derive(Clone, Copy)]
struct FieldNumbers {
    degree: u64,
    number: u64,
}

#[repr(C)]
struct Bytes {
    data: *const u8,
    length: usize,
}

// What a rating call returns: its status, 0 or the number of the refusal, and its figures, zeros where it is refused.
#[repr(C)]
#[derive(Clone, Copy, Debug, Default, PartialEq)]
pub struct Figures {
    pub status: u64,
    pub complexity: u64,
    pub repeat: u64,
    pub word: u64,
    pub powers: [u64; 8],
}

#[repr(C)]
struct YesOrNo {
    status: u64,
    yes: u64,
}

#[repr(C)]
struct Entry {
    status: u64,
    entry: u64,
    power: u64,
}

// A record of a file: its kind, and where its body is.
#[repr(C)]
#[derive(Clone, Copy, Debug, PartialEq)]
pub struct Found {
    pub status: u64,
    pub kind: u64,
    pub from: u64,
    pub length: u64,
}

mod exported {
    use super::{Bytes, Entry, FieldNumbers, Figures, Found, YesOrNo};

    extern "C" {
        pub fn gobashe_version() -> u64;
        pub fn gobashe_prime_in_range(number: u64) -> bool;
        pub fn gobashe_is_irreducible(
            field: FieldNumbers,
            polynomial: *const u8,
            length: usize,
        ) -> YesOrNo;
        pub fn gobashe_rate_period(
            field: FieldNumbers,
            factor: *const u8,
            factor_length: usize,
            terms: *const u8,
            count: usize,
            answer: *mut u8,
            answer_length: usize,
            work: *mut u8,
            work_length: usize,
        ) -> Figures;
        pub fn gobashe_rate_set(
            field: FieldNumbers,
            factors: *const Bytes,
            factor_count: usize,
            uppers: *const u64,
            upper_count: usize,
            terms: *const u8,
            count: usize,
            answer: *mut u8,
            answer_length: usize,
            work: *mut u8,
            work_length: usize,
        ) -> Figures;
        pub fn gobashe_rate_free(
            field: FieldNumbers,
            terms: *const u8,
            count: usize,
            answer: *mut u8,
            answer_length: usize,
            work: *mut u8,
            work_length: usize,
        ) -> Figures;
        pub fn gobashe_profile(
            field: FieldNumbers,
            terms: *const u8,
            count: usize,
            profile: *mut u8,
            profile_length: usize,
        ) -> u64;
        pub fn gobashe_catalogue_entry(i: usize) -> u64;
        pub fn gobashe_find_entry(
            terms: *const u8,
            count: usize,
            work: *mut u8,
            work_length: usize,
        ) -> Entry;
        pub fn gobashe_continue_sequence(
            field: FieldNumbers,
            polynomial: *const u8,
            length: usize,
            start: *const u8,
            start_length: usize,
            buffer: *mut u8,
            buffer_length: usize,
            place: usize,
        ) -> u64;
        pub fn gobashe_record(file: *const u8, length: usize, n: usize) -> Found;
    }
}

// The numbers that a call takes for a name. Those of GF(2^0) would be a prime's, so that it is passed as GF(2^1), as
// `gobashe_binary` does.
fn numbers(name: Name) -> FieldNumbers {
    match name {
        Name::Prime(number) => FieldNumbers { degree: 0, number },
        Name::Binary { degree, low } => FieldNumbers {
            degree: degree.max(1),
            number: low,
        },
    }
}

fn answer(status: u64) -> Answer<()> {
    if status == 0 {
        Ok(())
    } else {
        Err(status)
    }
}

pub fn version() -> u64 {
    unsafe { exported::gobashe_version() }
}

pub fn prime_in_range(n: u64) -> bool {
    unsafe { exported::gobashe_prime_in_range(n) }
}

// Whether the polynomial is irreducible.
pub fn is_irreducible(field: Name, f: &[u8]) -> Answer<bool> {
    let YesOrNo { status, yes } =
        unsafe { exported::gobashe_is_irreducible(numbers(field), f.as_ptr(), f.len()) };
    match (answer(status), yes) {
        (Ok(()), 0) => Ok(false),
        (Ok(()), 1) => Ok(true),
        (Err(n), 0) => Err(n),
        _ => panic!("status {status} with the answer {yes}"),
    }
}

// Fills the buffer from the place on with the continuation of the starting terms.
pub fn continue_sequence(
    field: Name,
    g: &[u8],
    start: &[u8],
    buffer: &mut [u8],
    place: usize,
) -> Answer<()> {
    answer(unsafe {
        exported::gobashe_continue_sequence(
            numbers(field),
            g.as_ptr(),
            g.len(),
            start.as_ptr(),
            start.len(),
            buffer.as_mut_ptr(),
            buffer.len(),
            place,
        )
    })
}

// Writes the profile of the terms, four bytes for each.
pub fn profile(field: Name, terms: &[u8], profile: &mut [u8]) -> Answer<()> {
    answer(unsafe {
        exported::gobashe_profile(
            numbers(field),
            terms.as_ptr(),
            terms.len(),
            profile.as_mut_ptr(),
            profile.len(),
        )
    })
}

// Entry i of the catalogue.
pub fn catalogue_entry(i: usize) -> u64 {
    unsafe { exported::gobashe_catalogue_entry(i) }
}

// The entry and the power that the search of the catalogue finds.
pub fn find_entry(terms: &[u8], work: &mut [u8]) -> Answer<(u64, u64)> {
    let Entry {
        status,
        entry,
        power,
    } = unsafe {
        let (to, size) = (work.as_mut_ptr(), work.len());
        exported::gobashe_find_entry(terms.as_ptr(), terms.len(), to, size)
    };
    match answer(status) {
        Ok(()) => Ok((entry, power)),
        Err(n) if (entry, power) == (0, 0) => Err(n),
        Err(n) => panic!("refused by {n} with the figures {entry} and {power}"),
    }
}

// Record n of a file.
pub fn record(file: &[u8], n: usize) -> Found {
    unsafe { exported::gobashe_record(file.as_ptr(), file.len(), n) }
}

fn coefficients(factor: &Factor) -> &[u8] {
    match factor {
        Factor::List(list) => list,
        Factor::Record { .. } => panic!("a factor of a file"),
    }
}

// The rating call of the input's way; `answer` and `work` have the sizes that the input names.
pub fn rate(input: &Input, answer: &mut [u8], work: &mut [u8]) -> Figures {
    match input.way {
        Way::Period => rate_period(input, answer, work),
        Way::Set => rate_set(input, answer, work),
        Way::Free => rate_free(input, answer, work),
    }
}

fn rate_period(input: &Input, answer: &mut [u8], work: &mut [u8]) -> Figures {
    let factor = coefficients(&input.factors[0]);
    unsafe {
        exported::gobashe_rate_period(
            numbers(input.field),
            factor.as_ptr(),
            factor.len(),
            input.terms.as_ptr(),
            input.terms.len(),
            answer.as_mut_ptr(),
            answer.len(),
            work.as_mut_ptr(),
            work.len(),
        )
    }
}

fn rate_set(input: &Input, answer: &mut [u8], work: &mut [u8]) -> Figures {
    let bytes = |list: &[u8]| Bytes {
        data: list.as_ptr(),
        length: list.len(),
    };
    let factors = Vec::from_iter(input.factors.iter().map(|f| bytes(coefficients(f))));
    unsafe {
        exported::gobashe_rate_set(
            numbers(input.field),
            factors.as_ptr(),
            factors.len(),
            input.uppers.as_ptr(),
            input.uppers.len(),
            input.terms.as_ptr(),
            input.terms.len(),
            answer.as_mut_ptr(),
            answer.len(),
            work.as_mut_ptr(),
            work.len(),
        )
    }
}

fn rate_free(input: &Input, answer: &mut [u8], work: &mut [u8]) -> Figures {
    unsafe {
        exported::gobashe_rate_free(
            numbers(input.field),
            input.terms.as_ptr(),
            input.terms.len(),
            answer.as_mut_ptr(),
            answer.len(),
            work.as_mut_ptr(),
            work.len(),
        )
    }
}
