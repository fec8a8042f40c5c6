// The stores of the search for a period's power, counted by running. The counting copy of the sources, which
// tests/counting/copy makes anew for each run, rates periods of N = p^w·N' terms as the call does, and stores single terms
// at most N·(2 + w·(p − 1)) times, the final zeros apart, and no more than the search needs; it prints stores and bounds,
// which docs/READING.md shows. Four wrong copies, with right answers, are caught.
mod common;

use arith::GaloisField;
use common::calls::Figures;
use common::field::{fields, Field, Name};
use common::inputs::{self, dividing, divisor, power, register, x_minus_1};
use common::lent::{answers, answers_by};
use common::poly::{self, Poly};
use common::random::Random;
use common::rater::{self, power_rating, Input, Rating};
use common::route::{field_record, file_of, Factor, Record};
use common::sequence::Terms;
use common::{expect, run, Outcome};
use counting::Counts;
use meaning::{FieldName, FileOutcome, PowerRating, Refusal};

const ANSWER: usize = 4097 + 13;
const HALVES: usize = 8192;
const WORK: usize = HALVES + 13;
// the only arrays of the search: the 256 sums of a block, of 16 bits each, in characteristic 2 of 8, and over GF(2^n) the
// raised coefficients of a factor; and the files in which they are made
const ARRAYS: [(&str, usize); 3] = [
    ("/lent/blocks.rs", 512),
    ("/lent/blocks.rs", 256),
    ("/action/lib.rs", 33),
];

// A period with one factor, and how it is to be rated.
struct Period {
    field: Field,
    f: Poly,
    terms: Terms,
    rating: Result<Rating, u64>,
}

impl Period {
    // A period whose rating is found by the second rater.
    fn of(field: Field, f: &[u64], terms: &[u64]) -> Self {
        Period {
            field,
            f: f.to_vec(),
            terms: terms.to_vec(),
            rating: rater::rate(&inputs::period(field, f, terms)),
        }
    }

    // n terms, rated with the power r of f.
    fn with_power(random: &mut Random, field: Field, f: &[u64], r: u64, n: usize) -> Self {
        Period {
            field,
            f: f.to_vec(),
            terms: register(random, field, f, r, n),
            rating: Ok(power_rating(field, f, r)),
        }
    }

    fn input(&self) -> Input {
        inputs::period(self.field, &self.f, &self.terms)
    }

    // The characteristic.
    fn p(&self) -> usize {
        self.field.characteristic as usize
    }

    // The exponent w of N = p^w·N'.
    fn exponent(&self) -> usize {
        let (p, mut n, mut w) = (self.p(), self.terms.len(), 0);
        while n % p == 0 {
            n /= p;
            w += 1;
        }
        w
    }

    // The bound of request 2026-04, over GF(2^n) with p as 2.
    fn bound(&self) -> usize {
        self.terms.len() * (2 + self.exponent() * (self.p() - 1))
    }

    // The stores that the search needs at most: it loads the first p^w·deg f terms, and each further power tried leaves
    // no more; where 17 refuses the period, it stores none.
    fn needed(&self) -> usize {
        if self.rating.is_err() {
            return 0;
        }
        let (p, w) = (self.p(), self.exponent());
        let loaded = self.terms.len().min(p.pow(w as u32) * (self.f.len() - 1));
        loaded * (1 + w * (p - 1))
    }

    fn name(&self) -> String {
        let (field, n, f) = (self.field, self.terms.len(), &self.f);
        let rated = self.rating.as_ref().map(|rating| rating.powers[0]);
        format!("{field}, {n} terms, factor {f:?}, rated {rated:?}")
    }
}

// A copy's call, as `rate_period`.
type Call = fn(FieldName, &[u8], &[u8], &mut [u8], &mut [u8]) -> Result<PowerRating, Refusal>;

// The name of a field, as a copy's call takes it.
fn named(name: Name) -> FieldName {
    match name {
        Name::Prime(p) => FieldName::Prime(p),
        Name::Binary { degree, low } => FieldName::Binary { degree, low },
    }
}

// What a copy's call returns, in the form in which the exported one does.
fn returned(rating: Result<PowerRating, Refusal>) -> Figures {
    let mut figures = Figures::default();
    match rating {
        Err(r) => figures.status = u64::from(r),
        Ok(PowerRating {
            power,
            degree,
            repeat,
        }) => (figures.powers[0], figures.complexity, figures.repeat) = (power, degree, repeat),
    }
    figures
}

// The exported call and the copy's answer as expected, in what they return and in every lent byte.
fn same_answers(call: Call, period: &Period) -> Result<(), String> {
    let (input, f) = (period.input(), poly::to_bytes(&period.f));
    answers(&input, &period.rating)?;
    let copy = |input: &Input, answer: &mut [u8], work: &mut [u8]| {
        returned(call(named(input.field), &f, &input.terms, answer, work))
    };
    answers_by(copy, &input, &period.rating)
}

// What is stored while a copy's call rates a period.
fn counts(call: Call, period: &Period) -> Counts {
    let (f, terms) = (poly::to_bytes(&period.f), poly::to_bytes(&period.terms));
    let (mut answer, mut work) = ([0xa5; ANSWER], [0xa5; WORK]);
    let name = named(period.field.name);
    let rate = |answer: &mut [u8], work: &mut [u8]| call(name, &f, &terms, answer, work);
    counting::count(&mut answer, &mut work, rate).1
}

// The number of single terms stored: the stores into the work bytes, which are all in the two halves, without the last
// 8,192, which are the final zeros, one for each byte.
fn stores(counts: &Counts, period: &Period) -> Result<usize, String> {
    let name = || period.name();
    let beyond = counts.work.iter().find(|(place, _)| *place >= HALVES);
    expect(beyond, None, || format!("{}: beyond the halves", name()))?;
    let Some(stores) = counts.work.len().checked_sub(HALVES) else {
        return Err(format!("{}: without the final zeros", name()));
    };
    let mut last = counts.work[stores..].to_vec();
    last.sort();
    let zeros: Vec<(usize, u8)> = (0..HALVES).map(|place| (place, 0)).collect();
    expect(last == zeros, true, || {
        format!("{}: the final zeros", name())
    })?;
    Ok(stores)
}

// The number of single terms that a copy's call stores, where it is within the bound and what is needed.
fn stores_within(call: Call, period: &Period) -> Result<usize, String> {
    let stores = stores(&counts(call, period), period)?;
    let name = period.name();
    for (bound, word) in [(period.bound(), "allowed"), (period.needed(), "needed")] {
        if stores > bound {
            return Err(format!("{name}: {stores} stores, {bound} {word}"));
        }
    }
    Ok(stores)
}

// A copy's search, as `period_power`; what it finds is left out.
type Search = fn(GaloisField, &mut [u8], &[u8], &[u8]);

fn search(field: GaloisField, work: &mut [u8], f: &[u8], terms: &[u8]) {
    period_way::period_power(field, work, f, terms);
}

fn search_and_keep(field: GaloisField, work: &mut [u8], f: &[u8], terms: &[u8]) {
    keeps_terms_period_way::period_power(field, work, f, terms);
}

fn search_and_keep_wider(field: GaloisField, work: &mut [u8], f: &[u8], terms: &[u8]) {
    keeps_wider_period_way::period_power(field, work, f, terms);
}

// What is stored while a copy searches, without the checks before and the answer after.
fn searched(search: Search, period: &Period) -> Counts {
    let (f, terms) = (poly::to_bytes(&period.f), poly::to_bytes(&period.terms));
    let Ok(field) = GaloisField::try_from(named(period.field.name)) else {
        panic!("{}: no field", period.name());
    };
    let mut work = [0xa5; WORK];
    let power = |_: &mut [u8], work: &mut [u8]| search(field, work, &f, &terms);
    counting::count(&mut [], &mut work, power).1
}

// The search stores no byte outside of the work bytes, the sums of a block apart, and over GF(2^n) the coefficients of the
// factor, which are copied and raised once for each power tried. Over odd primes the sums are wider numbers.
fn no_bytes_elsewhere(search: Search, period: &Period) -> Result<(), String> {
    let counts = searched(search, period);
    let elsewhere = match period.p() {
        2 => counts.elsewhere,
        _ => counts.elsewhere + counts.sums,
    };
    let allowed = match period.field.is_prime() {
        true => 0,
        false => period.f.len() * (1 + period.exponent()),
    };
    expect(elsewhere <= allowed, true, || {
        format!(
            "{}: {elsewhere} bytes elsewhere, {allowed} allowed",
            period.name()
        )
    })
}

// The search makes no array but those of the sums of a block and of raised coefficients.
fn no_other_array(search: Search, period: &Period) -> Result<(), String> {
    let rooms = searched(search, period).rooms;
    let other = |(file, size): &&(String, usize)| {
        !ARRAYS
            .iter()
            .any(|(name, bytes)| file.ends_with(name) && size == bytes)
    };
    expect(rooms.iter().find(other), None, || {
        format!("{}: an array", period.name())
    })
}

// The file of a period.
fn file(period: &Period) -> Vec<u8> {
    let factor = Factor::of_polynomial(&poly::to_bytes(&period.f), 0);
    let mut records = vec![
        Record::of(1, &[0, 0, 0, 7]),
        field_record(period.field.name),
        Record::of(3, &[1]),
        Record::of(4, &factor.body()),
    ];
    let terms = poly::to_bytes(&period.terms);
    let (whole, rest) = terms.split_at(terms.len() / 64 * 64);
    records.extend(whole.chunks(64).map(|body| Record::of(5, body)));
    records.extend(rest.chunks(1).map(|body| Record::of(6, body)));
    records.push(Record::of(8, &[]));
    file_of(&records)
}

// How often terms are stored more when a period is rated as a file: what is stored elsewhere, less what the call stores
// there on the terms themselves. Both store the coefficients of the factor there once, answer alike, and store alike into
// the work bytes and the sums.
fn more_in_a_file(period: &Period) -> Result<usize, String> {
    let name = || format!("a file, {}", period.name());
    let file = file(period);
    let (mut answer, mut work) = ([0xa5; ANSWER], [0xa5; WORK]);
    let rate = |answer: &mut [u8], work: &mut [u8]| rate_file::rate_file(&file, answer, work);
    let (rating, stored) = counting::count(&mut answer, &mut work, rate);
    let found = match rating.outcome {
        Ok(FileOutcome::Powers { powers, .. }) => Ok(powers[0]),
        Err(r) => Err(u64::from(r)),
        _ => return Err(format!("{}: rated by another way", name())),
    };
    let expected = period.rating.as_ref().map(|rating| rating.powers[0]);
    expect(found, expected.map_err(|r| *r), name)?;
    let called = counts(rate_period::rate_period, period);
    expect(stored.work == called.work, true, name)?;
    expect(stored.sums == called.sums, true, name)?;
    let more = stored.elsewhere.checked_sub(called.elsewhere);
    more.ok_or_else(|| format!("{}: fewer stores than the call", name()))
}

// A line of the table: what is rated, and periods whose terms are stored equally often.
struct Line {
    input: String,
    periods: Vec<Period>,
}

fn marked(row: &str, field: Field, f: &[u64], terms: &[u64]) -> Line {
    Line {
        input: format!("row {row}"),
        periods: vec![Period::of(field, f, terms)],
    }
}

// Periods of n terms with each of the powers of f.
fn powers(
    random: &mut Random,
    field: Field,
    f: &[u64],
    name: &str,
    n: usize,
    powers: &[u64],
) -> Line {
    let words: Vec<String> = powers.iter().map(|r| r.to_string()).collect();
    let periods = powers
        .iter()
        .map(|&r| Period::with_power(random, field, f, r, n));
    Line {
        periods: periods.collect(),
        input: format!("{name}, r {}", words.join(", ")),
    }
}

// A period of n terms without a rule, which no power of f annihilates.
fn refused(random: &mut Random, field: Field, f: &[u64], n: usize) -> Period {
    Period {
        field,
        f: f.to_vec(),
        terms: inputs::terms(random, field, n),
        rating: Err(17),
    }
}

// The rows B to F, and long periods: 4,096 terms, or the largest multiple of a power of p below.
fn lines() -> Vec<Line> {
    let random = &mut Random::of_seed(70);
    let (two, one, three) = (Field::prime(2), [1, 1], [1, 1, 1]);
    let twelve = divisor(random, two, 12, 4095);
    let mut lines = vec![
        marked("B", two, &one, &[0, 0, 0, 1]),
        marked("C", two, &one, &[1, 1, 1, 1]),
        marked("D", two, &one, &[0, 0, 0, 0]),
        marked("E", Field::prime(3), &[2, 1], &[0, 1, 2]),
        marked("F", two, &three, &[0, 0, 0, 1]),
        powers(
            random,
            two,
            &one,
            "x + 1",
            4096,
            &[4096, 4095, 3000, 2049, 2048, 1],
        ),
        powers(random, two, &one, "x + 1", 4096, &[0]),
        Line {
            input: "x² + x + 1, refused".to_string(),
            periods: vec![refused(random, two, &three, 4096)],
        },
        powers(random, two, &three, "x² + x + 1", 3072, &[1024, 513, 1]),
        powers(random, two, &twelve, "of degree 12", 4095, &[1]),
    ];
    for field in [3, 5, 61, 251].map(Field::prime) {
        let f = x_minus_1(field);
        lines.push(powers(random, field, &f, "x − 1", 4096, &[1, 0]));
        lines.push(Line {
            input: "x − 1, refused".to_string(),
            periods: vec![refused(random, field, &f, 4096)],
        });
    }
    for (p, n, tried) in [
        (3, 2187, [2187, 1094, 1]),
        (5, 3125, [3125, 1563, 1]),
        (61, 3721, [3721, 1861, 1]),
        (251, 4016, [251, 126, 1]),
    ] {
        let field = Field::prime(p);
        for r in tried {
            lines.push(powers(random, field, &x_minus_1(field), "x − 1", n, &[r]));
        }
    }
    lines.extend(lines_over_2_to_n(random));
    lines
}

// The same over GF(4) and GF(256), with coefficients outside GF(2).
fn lines_over_2_to_n(random: &mut Random) -> Vec<Line> {
    let (four, large) = (Field::binary(2, 3), Field::binary(8, 27));
    let (two, six) = ("x + 2 over GF(4)", "x + 6 over GF(256)");
    let refused = Line {
        input: format!("{six}, refused"),
        periods: vec![refused(random, large, &[6, 1], 4080)],
    };
    vec![
        powers(random, four, &[2, 1], two, 6, &[2, 1]),
        powers(random, four, &[2, 1], two, 3072, &[1024, 513, 1]),
        powers(
            random,
            four,
            &[2, 1, 1],
            "x² + x + 2 over GF(4)",
            3840,
            &[256, 129, 1],
        ),
        powers(random, large, &[6, 1], six, 4080, &[16, 9, 1]),
        powers(
            random,
            large,
            &[1, 1],
            "x + 1 over GF(256)",
            4096,
            &[4096, 2049, 1],
        ),
        refused,
    ]
}

// A number with a comma between thousands.
fn grouped(n: usize) -> String {
    if n < 1000 {
        n.to_string()
    } else {
        format!("{},{:03}", grouped(n / 1000), n % 1000)
    }
}

// The line of the table.
fn row(line: &Line) -> Result<String, String> {
    let period = &line.periods[0];
    let mut found = vec![];
    for period in &line.periods {
        found.push(stores_within(rate_period::rate_period, period)?);
    }
    expect(found.iter().all(|n| *n == found[0]), true, || {
        format!("{}: equal stores, {found:?}", line.input)
    })?;
    let words = [
        period.p(),
        period.terms.len(),
        period.exponent(),
        found[0],
        period.bound(),
        more_in_a_file(period)?,
    ];
    let words = words.map(grouped).join(" | ");
    Ok(format!("| {} | {words} |", line.input))
}

// What is stored beside the terms.
fn besides(counts: &Counts) -> String {
    let sums = counts.sums + counts.wider;
    let [answer, elsewhere, sums] = [counts.answer, counts.elsewhere, sums].map(grouped);
    format!("8,192 zeros, answer {answer}, other bytes {elsewhere}, sums and wider numbers {sums}")
}

// Prints the table, each line of which docs/READING.md has, and after each line what else is stored.
fn table() -> Outcome {
    let mut rows = vec![];
    let lines = lines();
    println!("stores: | Input | p | N | w | Stores | Bound | More in a file | and beside");
    for line in &lines {
        let row = row(line)?;
        let counts = counts(rate_period::rate_period, &line.periods[0]);
        println!("stores: {row} {}", besides(&counts));
        rows.push(row);
    }
    let reading = include_str!("../docs/READING.md").lines();
    let shown = reading
        .skip_while(|line| !line.starts_with("| Input | p | N | w |"))
        .skip(2)
        .take_while(|line| !line.is_empty());
    let shown = Vec::from_iter(shown.map(str::to_string));
    expect(rows, shown, || "the table of docs/READING.md".to_string())?;
    Ok(lines.len() as u64)
}

// Tries something with all periods of the table.
fn with_each(mut test: impl FnMut(&Period) -> Result<(), String>) -> Outcome {
    let mut cases = 0;
    for period in lines().iter().flat_map(|line| &line.periods) {
        test(period)?;
        cases += 1;
    }
    Ok(cases)
}

fn equal_answers() -> Outcome {
    with_each(|period| same_answers(rate_period::rate_period, period))
}

// There is no room for terms but the halves, and of a call the search alone stores into them.
fn search_alone(period: &Period) -> Result<(), String> {
    no_bytes_elsewhere(search, period)?;
    no_other_array(search, period)?;
    let called = counts(rate_period::rate_period, period);
    expect(searched(search, period).work == called.work, true, || {
        format!("{}: the call stores as its search does", period.name())
    })
}

fn only_the_halves() -> Outcome {
    with_each(search_alone)
}

// Periods with factors of all degrees and any power, for every prime and over GF(2^n).
fn other_periods() -> Outcome {
    const EACH: u64 = 12;
    let mut random = Random::of_seed(71);
    for field in fields() {
        for _ in 0..EACH {
            let (f, e, q) = dividing(&mut random, field, 100, 4096);
            let n = e * q * random.between(1, 4096 / (e * q));
            let r = power(&mut random, field, q);
            let period = Period::with_power(&mut random, field, &f, r, n as usize);
            same_answers(rate_period::rate_period, &period)?;
            stores_within(rate_period::rate_period, &period)?;
            search_alone(&period)?;
        }
    }
    Ok(EACH * fields().len() as u64)
}

// The terms of a file are gathered from its records, once each.
fn files() -> Outcome {
    with_each(|period| {
        let name = || format!("a file, {}: terms gathered", period.name());
        expect(more_in_a_file(period)?, period.terms.len(), name)
    })
}

// A wrong copy answers right, so that it is the count that tells, of each of the periods that are meant.
fn caught(
    call: Call,
    meant: impl Fn(&Period) -> bool,
    tell: impl Fn(&Period) -> Result<(), String>,
) -> Outcome {
    let mut cases = 0;
    for period in lines().iter().flat_map(|line| &line.periods) {
        same_answers(call, period)?;
        if !meant(period) {
            continue;
        }
        if tell(period).is_ok() {
            return Err(format!("{}: not caught", period.name()));
        }
        cases += 1;
    }
    Ok(cases)
}

// A period that is rated at w = 0: its terms are loaded, and no power below p^w is tried.
fn only_loaded(period: &Period) -> bool {
    period.exponent() == 0 && period.rating.is_ok()
}

fn twice_loaded() -> Outcome {
    let call = loads_twice_rate_period::rate_period;
    let stores = |period: &Period| stores_within(call, period).map(|_| ());
    caught(call, only_loaded, stores)
}

fn loaded_before() -> Outcome {
    let call = loads_before_rate_period::rate_period;
    let stores = |period: &Period| stores_within(call, period).map(|_| ());
    caught(call, |period| period.rating.is_err(), stores)
}

fn kept_elsewhere() -> Outcome {
    let call = keeps_terms_rate_period::rate_period;
    let bytes = |period: &Period| no_bytes_elsewhere(search_and_keep, period);
    caught(call, only_loaded, bytes)?;
    caught(call, only_loaded, |period| {
        no_other_array(search_and_keep, period)
    })
}

fn kept_wider() -> Outcome {
    let call = keeps_wider_rate_period::rate_period;
    let array = |period: &Period| no_other_array(search_and_keep_wider, period);
    caught(call, only_loaded, array)
}

fn main() {
    run(
        "stores",
        &[
            ("the table of stores and bounds", table),
            ("the copy answers as the call does", equal_answers),
            ("no room but the halves", only_the_halves),
            ("other periods", other_periods),
            ("files", files),
            ("a copy that loads twice", twice_loaded),
            ("a copy that loads before it tries", loaded_before),
            ("a copy that keeps the terms elsewhere", kept_elsewhere),
            ("a copy that keeps terms as wider numbers", kept_wider),
        ],
    )
}
