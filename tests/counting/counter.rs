// What the counting copy calls at each store (tests/counting/copy): the stores of one call, by the addresses that they go
// to. A store of a single term is one of a byte of the lent work bytes.
use std::cell::RefCell;
use std::collections::{BTreeMap, BTreeSet};
use std::mem::size_of;
use std::ops::Range;
use std::panic::Location;

#[derive(Clone, Default)]
pub struct Counts {
    // the stores into the work bytes in their order: the place there, and the value
    pub work: Vec<(usize, u8)>,
    // of single bytes into the answer bytes
    pub answer: usize,
    // of single bytes into the sums of a block in characteristic 2
    pub sums: usize,
    // of single bytes anywhere else
    pub elsewhere: usize,
    // of wider numbers: sums of products, powers
    pub wider: usize,
    // the arrays that were made: the file of the place, and the bytes
    pub rooms: BTreeSet<(String, usize)>,
}

#[derive(Default)]
struct Counting {
    work: Range<usize>,
    answer: Range<usize>,
    counts: Counts,
}

thread_local! {
    static COUNTING: RefCell<Counting> = RefCell::default();
}

fn addresses(bytes: &[u8]) -> Range<usize> {
    let start = bytes.as_ptr() as usize;
    start..start + bytes.len()
}

// The functions whose stores outside of the lent bytes are sums of a block, or raised coefficients, by source and name, or
// all of a source: in characteristic 2 sums are bytes, and added up by `add_multiple`. Over odd primes they are wider
// numbers, and these stores are none.
const SUMS: [(&str, Option<&str>); 2] = [
    ("/arith/vectors.rs", Some("add_multiple")),
    ("/arith/extension.rs", None),
];

thread_local! {
    static ARE_SUMS: RefCell<BTreeMap<(&'static str, u32), bool>> = RefCell::default();
}

// The name of the function that a place stands in.
fn function_at(place: &Location) -> String {
    let text = std::fs::read_to_string(place.file()).expect("the counting copy");
    let before: Vec<&str> = text.lines().take(place.line() as usize).collect();
    let heads = before
        .iter()
        .rev()
        .filter_map(|line| line.split_once("fn "));
    let name = |(_, head): (&str, &str)| {
        head.chars()
            .take_while(|c| c.is_alphanumeric() || *c == '_')
            .collect()
    };
    heads.map(name).next().unwrap_or_default()
}

// Whether the stores of a place are of sums.
fn is_of_sums(place: &'static Location<'static>) -> bool {
    ARE_SUMS.with_borrow_mut(|known| {
        *known
            .entry((place.file(), place.line()))
            .or_insert_with(|| {
                SUMS.iter().any(|(file, function)| {
                    place.file().ends_with(file)
                        && function.is_none_or(|name| function_at(place) == name)
                })
            })
    })
}

// A value was stored at the place, by the source that calls this.
#[track_caller]
pub fn stored<T: Copy>(place: &T) {
    let address = place as *const T as usize;
    let caller = Location::caller();
    COUNTING.with_borrow_mut(|counting| {
        let counts = &mut counting.counts;
        if size_of::<T>() != 1 {
            counts.wider += 1;
        } else if counting.work.contains(&address) {
            let value = unsafe { *(place as *const T as *const u8) };
            counts.work.push((address - counting.work.start, value));
        } else if counting.answer.contains(&address) {
            counts.answer += 1;
        } else if is_of_sums(caller) {
            counts.sums += 1;
        } else {
            counts.elsewhere += 1;
        }
    })
}

// The methods of slices that store each element, in place of the library's.
pub trait Stores<T> {
    fn counted_fill(&mut self, value: T);

    fn counted_copy_from_slice(&mut self, from: &[T]);
}

impl<T: Copy> Stores<T> for [T] {
    #[track_caller]
    fn counted_fill(&mut self, value: T) {
        for place in self {
            *place = value;
            stored(place);
        }
    }

    #[track_caller]
    fn counted_copy_from_slice(&mut self, from: &[T]) {
        assert_eq!(self.len(), from.len());
        for (place, value) in self.iter_mut().zip(from) {
            *place = *value;
            stored(place);
        }
    }
}

// An array was made, at the place that calls this.
#[track_caller]
pub fn room<T, const N: usize>(array: [T; N]) -> [T; N] {
    let file = Location::caller().file().to_string();
    COUNTING.with_borrow_mut(|counting| counting.counts.rooms.insert((file, size_of::<[T; N]>())));
    array
}

// What a call on lent bytes answers, and what it stored.
pub fn count<T>(
    answer: &mut [u8],
    work: &mut [u8],
    call: impl FnOnce(&mut [u8], &mut [u8]) -> T,
) -> (T, Counts) {
    COUNTING.set(Counting {
        work: addresses(work),
        answer: addresses(answer),
        counts: Counts::default(),
    });
    let told = call(answer, work);
    (told, COUNTING.take().counts)
}
