// Tables of expected answers: lines of words, with blanks between them; # begins a comment.
use super::field::Name;
use super::poly;
use super::rater::Rating;
use super::sequence;

pub fn rows(text: &str) -> Vec<Vec<&str>> {
    text.lines()
        .map(|line| line.split('#').next().unwrap().split_whitespace().collect())
        .filter(|row: &Vec<&str>| !row.is_empty())
        .collect()
}

// A list of numbers with commas, or - for none; a*n stands for n times the number a.
pub fn bytes(word: &str) -> Vec<u8> {
    if word == "-" {
        return vec![];
    }
    word.split(',').flat_map(repeated).collect()
}

fn repeated(item: &str) -> Vec<u8> {
    match item.split_once('*') {
        Some((a, n)) => vec![a.parse().unwrap(); n.parse().unwrap()],
        None => vec![item.parse().unwrap()],
    }
}

// A field: p, or as 2^8:27 the degree and the low bits of a reducing polynomial. It need not be one.
pub fn name(word: &str) -> Name {
    match word
        .strip_prefix("2^")
        .and_then(|rest| rest.split_once(':'))
    {
        Some((degree, low)) => Name::Binary {
            degree: degree.parse().unwrap(),
            low: low.parse().unwrap(),
        },
        None => Name::Prime(word.parse().unwrap()),
    }
}

// Lists with ; between them, or - for none.
pub fn lists(word: &str) -> Vec<Vec<u8>> {
    if word == "-" {
        return vec![];
    }
    word.split(';').map(bytes).collect()
}

// A list of numbers with commas, or - for none.
pub fn numbers(word: &str) -> Vec<u64> {
    if word == "-" {
        return vec![];
    }
    word.split(',').map(|n| n.parse().unwrap()).collect()
}

// The last words of a row for the period or the set way: powers, polynomial and repeat length, or the number of
// the refusal.
pub fn powers_rating(words: &[&str]) -> Result<Rating, u64> {
    let [powers, polynomial, repeat] = words else {
        return Err(refusal(words));
    };
    Ok(Rating {
        powers: numbers(powers),
        polynomial: sequence::of_bytes(&bytes(polynomial)),
        repeat: Some(repeat.parse().unwrap()),
        unique: None,
    })
}

// The same for the free way: degree, word and polynomial.
pub fn free_rating(words: &[&str]) -> Result<Rating, u64> {
    let [degree, word @ ("one" | "some"), polynomial] = words else {
        return Err(refusal(words));
    };
    let polynomial = sequence::of_bytes(&bytes(polynomial));
    assert_eq!(poly::degree(&polynomial), degree.parse().unwrap());
    Ok(Rating {
        powers: vec![],
        polynomial,
        repeat: None,
        unique: Some(*word == "one"),
    })
}

fn refusal(words: &[&str]) -> u64 {
    let [number] = words else {
        panic!("a bad row: {words:?}");
    };
    number.parse().unwrap()
}
