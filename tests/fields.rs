// The fields of 2^n elements, by the leaves of crates/leaves: which numbers name one against trial division, and the
// arithmetic of each against products without carries and their remainders. Any byte is given, also one that is no element,
// of which the n lowest bits count. A buffer that is lent stands between marks, and all of it is compared.
mod common;

use common::marked::left;
use common::random::Random;
use common::{expect, list, run, Outcome};

mod exported {
    extern "C" {
        pub fn leaf_names_binary(degree: u64, low: u64) -> bool;
        pub fn leaf_binary_sum(degree: u64, low: u64, a: u8, b: u8) -> u8;
        pub fn leaf_binary_product(degree: u64, low: u64, a: u8, b: u8) -> u8;
        pub fn leaf_binary_inverse(degree: u64, low: u64, a: u8) -> u8;
        pub fn leaf_binary_dot(
            degree: u64,
            low: u64,
            c: *const u8,
            m: usize,
            s: *const u8,
            n: usize,
        ) -> u8;
        pub fn leaf_binary_update(
            degree: u64,
            low: u64,
            a: *mut u8,
            n: usize,
            c: u8,
            b: *const u8,
            m: usize,
        );
        pub fn leaf_binary_squares(degree: u64, low: u64, a: *mut u8, n: usize);
        pub fn leaf_binary_act(
            degree: u64,
            low: u64,
            w: *mut u8,
            size: usize,
            n: usize,
            f: *const u8,
            m: usize,
            q: usize,
        ) -> bool;
    }
}

// A degree and the bits of a polynomial below it, whether they name a field or not
#[derive(Clone, Copy, Debug)]
struct Name {
    degree: u64,
    low: u64,
}

impl Name {
    fn is_field(self) -> bool {
        unsafe { exported::leaf_names_binary(self.degree, self.low) }
    }

    fn sum(self, a: u8, b: u8) -> u8 {
        unsafe { exported::leaf_binary_sum(self.degree, self.low, a, b) }
    }

    fn product(self, a: u8, b: u8) -> u8 {
        unsafe { exported::leaf_binary_product(self.degree, self.low, a, b) }
    }

    fn inverse(self, a: u8) -> u8 {
        unsafe { exported::leaf_binary_inverse(self.degree, self.low, a) }
    }

    fn dot(self, c: &[u8], s: &[u8]) -> u8 {
        let Name { degree, low } = self;
        unsafe { exported::leaf_binary_dot(degree, low, c.as_ptr(), c.len(), s.as_ptr(), s.len()) }
    }

    fn updated(self, a: &[u8], c: u8, b: &[u8]) -> Result<Vec<u8>, String> {
        let Name { degree, low } = self;
        left(a, |a| unsafe {
            let (to, n) = (a.as_mut_ptr(), a.len());
            exported::leaf_binary_update(degree, low, to, n, c, b.as_ptr(), b.len())
        })
    }

    fn squared(self, a: &[u8]) -> Result<Vec<u8>, String> {
        left(a, |a| unsafe {
            exported::leaf_binary_squares(self.degree, self.low, a.as_mut_ptr(), a.len())
        })
    }

    fn acted(self, w: &[u8], n: usize, f: &[u8], q: usize) -> Result<(Vec<u8>, bool), String> {
        let Name { degree, low } = self;
        let mut zero = false;
        let bytes = left(w, |w| unsafe {
            let (to, size) = (w.as_mut_ptr(), w.len());
            zero = exported::leaf_binary_act(degree, low, to, size, n, f.as_ptr(), f.len(), q)
        })?;
        Ok((bytes, zero))
    }
}

// ---- polynomials in y over GF(2) as numbers: bit i is the coefficient of y^i

fn degree(f: u64) -> u32 {
    63 - f.leading_zeros()
}

// The product, of a g of 8 bits
fn times(f: u64, g: u64) -> u64 {
    (0..8)
        .filter(|i| g >> i & 1 == 1)
        .fold(0, |sum, i| sum ^ (f << i))
}

fn remainder(mut f: u64, g: u64) -> u64 {
    while f >> degree(g) != 0 {
        f ^= g << (degree(f) - degree(g));
    }
    f
}

// Of a degree from 1 on, with no divisor of a degree from 1 to half of its own
fn irreducible(f: u64) -> bool {
    f >= 2 && (2..2 << (degree(f) / 2)).all(|g| remainder(f, g) != 0)
}

// A field with the table of all products of its elements.
struct Field {
    name: Name,
    size: usize,
    table: Vec<u8>,
}

impl Field {
    fn of(name: Name) -> Self {
        let size = 1 << name.degree;
        let modulus = size | name.low;
        let table = (0..size * size)
            .map(|k| remainder(times(k / size, k % size), modulus) as u8)
            .collect();
        let size = size as usize;
        Field { name, size, table }
    }

    fn element(&self, a: u8) -> u8 {
        (a as usize % self.size) as u8
    }

    fn product(&self, a: u8, b: u8) -> u8 {
        self.table[a as usize % self.size * self.size + b as usize % self.size]
    }

    fn dot(&self, c: &[u8], s: &[u8]) -> u8 {
        c.iter()
            .zip(s)
            .fold(0, |sum, (&a, &b)| sum ^ self.product(a, b))
    }

    fn elements(&self, random: &mut Random, n: usize) -> Vec<u8> {
        random.numbers(self.size as u64, n)
    }
}

// The numbers below 2^degree of which the reducing polynomial is irreducible, of each degree from 2 to 8
fn names() -> Vec<Name> {
    (2..=8)
        .flat_map(|degree| (0..1 << degree).map(move |low| Name { degree, low }))
        .filter(|name| irreducible(1 << name.degree | name.low))
        .collect()
}

fn fields() -> impl Iterator<Item = Field> {
    names().into_iter().map(Field::of)
}

// Names of no field: of a degree that is out of range, with a reducible polynomial or a bit from y^n on, or such as are
// names of fields in their lower bits
const NO_NAMES: [(u64, u64); 22] = [
    (0, 0),
    (0, 1),
    (1, 0),
    (1, 1),
    (2, 0),
    (2, 1),
    (2, 2),
    (2, 7),
    (3, 1),
    (4, 5),
    (7, 27),
    (8, 0),
    (8, 1),
    (8, 26),
    (8, 283),
    (8, 65536 + 27),
    (8, (1 << 32) + 27),
    (8, u64::MAX),
    (9, 17),
    (16, 43),
    ((1 << 32) + 8, 27),
    (u64::MAX, 27),
];

fn no_names() -> impl Iterator<Item = Name> {
    NO_NAMES.iter().map(|&(degree, low)| Name { degree, low })
}

// ---- names

fn all_names() -> Outcome {
    let mut counts = [0; 12];
    for degree in 0..=11 {
        for low in 0..=600 {
            let name = Name { degree, low };
            let expected =
                (2..=8).contains(&degree) && low < 1 << degree && irreducible(1 << degree | low);
            expect(name.is_field(), expected, || format!("{name:?}"))?;
            counts[degree as usize] += name.is_field() as u64;
        }
    }
    expect(counts, [0, 0, 1, 2, 3, 6, 9, 18, 30, 0, 0, 0], || {
        "fields of each degree".into()
    })?;
    expect(names().len(), 69, || "fields".into())?;
    for name in no_names() {
        expect(name.is_field(), false, || format!("{name:?}"))?;
    }
    Ok(12 * 601 + NO_NAMES.len() as u64)
}

fn refused_names() -> Outcome {
    let mut random = Random::of_seed(71);
    let grid = (0..=11).flat_map(|degree| (0..=600).map(move |low| Name { degree, low }));
    let fields: Vec<_> = names().iter().map(|name| (name.degree, name.low)).collect();
    let refused = grid.filter(|name| !fields.contains(&(name.degree, name.low)));
    let mut cases = 0;
    for name in refused.chain(no_names()) {
        let (a, b) = (random.bytes(40), random.bytes(20));
        let told = [
            name.sum(1, 2),
            name.product(1, 1),
            name.inverse(1),
            name.sum(a[0], b[0]),
            name.product(a[0], b[0]),
            name.inverse(a[0]),
            name.dot(&[1], &[1, 1]),
            name.dot(&b, &a),
        ];
        expect(told, [0; 8], || format!("{name:?}"))?;
        let kept = [name.updated(&a, 1, &b)?, name.squared(&a)?];
        expect(kept, [a.clone(), a.clone()], || format!("{name:?}"))?;
        let acted = name.acted(&a, 15, &[], 1)?;
        expect(acted, (a, false), || format!("{name:?}"))?;
        cases += 11;
    }
    Ok(cases)
}

// ---- numbers

// Of the Advanced Encryption Standard (FIPS 197) in the field of y^8 + y^4 + y^3 + y + 1: products, an inverse, and a column
// that is mixed; then products and inverses by hand
fn known_values() -> Outcome {
    let name = |degree, low| Name { degree, low };
    let standard = name(8, 27);
    let products = [
        (standard, 87, 131, 193),
        (standard, 87, 19, 254),
        (standard, 2, 128, 27),
        (name(2, 3), 2, 2, 3),
        (name(2, 3), 2, 3, 1),
        (name(2, 3), 254, 255, 1),
        (name(3, 3), 2, 4, 3),
        (name(3, 5), 2, 4, 5),
        (name(3, 3), 7, 7, 3),
        (name(4, 3), 15, 15, 10),
        (name(8, 29), 2, 128, 29),
    ];
    for (name, a, b, c) in products {
        expect(name.product(a, b), c, || format!("{name:?}, {a}·{b}"))?;
    }
    let inverses = [
        (standard, 83, 202),
        (standard, 2, 141),
        (name(8, 29), 2, 142),
        (name(2, 3), 2, 3),
        (name(4, 3), 2, 9),
    ];
    for (name, a, b) in inverses {
        expect(name.inverse(a), b, || format!("{name:?}, 1/{a}"))?;
    }
    let column = [0xd4, 0xbf, 0x5d, 0x30];
    let mixed = [[2, 3, 1, 1], [1, 2, 3, 1], [1, 1, 2, 3], [3, 1, 1, 2]]
        .map(|row| standard.dot(&row, &column));
    expect(mixed, [0x04, 0x66, 0x81, 0xe5], || "a mixed column".into())?;
    let squared = standard.squared(&[0, 1, 2, 16, 131])?;
    let by_hand = vec![0, 1, 4, 27, standard.product(131, 131)];
    expect(squared, by_hand, || "squares".into())?;
    expect(standard.sum(87, 131), 212, || "87 + 131".into())?;
    expect(name(3, 3).sum(87, 131), 4, || "87 + 131, of 3 bits".into())?;
    Ok(products.len() as u64 + inverses.len() as u64 + 4)
}

// All pairs of bytes
fn sums_and_products() -> Outcome {
    let mut cases = 0;
    for field in fields() {
        let name = field.name;
        for a in 0..=255 {
            for b in 0..=255 {
                let told = [name.sum(a, b), name.product(a, b)];
                let expected = [field.element(a ^ b), field.product(a, b)];
                expect(told, expected, || format!("{name:?}, {a} and {b}"))?;
                cases += 2;
            }
        }
    }
    Ok(cases)
}

// Each byte that stands for another element than 0 has one inverse.
fn inverses() -> Outcome {
    let mut cases = 0;
    for field in fields() {
        let name = field.name;
        for a in 0..=255 {
            let inverse = name.inverse(a);
            let all: Vec<_> = (0..field.size)
                .map(|x| x as u8)
                .filter(|&x| field.product(a, x) == 1)
                .collect();
            let expected = if field.element(a) == 0 {
                vec![]
            } else {
                vec![inverse]
            };
            expect(all, expected, || format!("{name:?}, 1/{a} as {inverse}"))?;
            if field.element(a) == 0 {
                expect(inverse, 0, || format!("{name:?}, 1/{a}"))?;
            }
            cases += 1;
        }
    }
    Ok(cases)
}

// ---- slices

fn dot_agrees(field: &Field, c: &[u8], s: &[u8]) -> Result<(), String> {
    expect(field.name.dot(c, s), field.dot(c, s), || {
        format!("{:?}, {} · {}", field.name, list(c), list(s))
    })
}

fn update_agrees(field: &Field, a: &[u8], c: u8, b: &[u8]) -> Result<(), String> {
    let mut expected = a.to_vec();
    for (x, &y) in expected.iter_mut().zip(b) {
        *x = field.element(*x) ^ field.product(c, y);
    }
    expect(field.name.updated(a, c, b)?, expected, || {
        format!("{:?}, {} + {c}·{}", field.name, list(a), list(b))
    })
}

// Elements and any bytes, the longer slice as long as the other or longer
fn sums_of_products() -> Outcome {
    let mut random = Random::of_seed(72);
    let mut cases = 0;
    for field in fields() {
        for m in 0..=300 {
            let n = m + random.one_of(&[0, 1, 40]);
            let c = field.elements(&mut random, m);
            dot_agrees(&field, &c, &field.elements(&mut random, n))?;
            dot_agrees(&field, &random.bytes(m), &random.bytes(n))?;
            let (c, s) = (vec![1; m + 1], random.bytes(m));
            expect(field.name.dot(&c, &s), 0, || format!("{} to {m}", m + 1))?;
            cases += 3;
        }
        dot_agrees(&field, &[255; 301], &[255; 301])?;
        cases += 1;
    }
    Ok(cases)
}

fn updates() -> Outcome {
    let mut random = Random::of_seed(73);
    let mut cases = 0;
    for field in fields() {
        for m in 0..=300 {
            let n = m + random.one_of(&[0, 1, 40]);
            let (a, b) = (
                field.elements(&mut random, n),
                field.elements(&mut random, m),
            );
            update_agrees(&field, &a, field.element(random.next() as u8), &b)?;
            let c = random.next() as u8;
            update_agrees(&field, &random.bytes(n), c, &random.bytes(m))?;
            let (a, b) = (random.bytes(m), vec![1; m + 1]);
            expect(field.name.updated(&a, 1, &b)?, a, || format!("{m} bytes"))?;
            cases += 3;
        }
        for c in 0..=255 {
            update_agrees(&field, &random.bytes(90), c, &random.bytes(70))?;
            cases += 1;
        }
    }
    Ok(cases)
}

// 65,536 products or bytes are taken, and no more
fn largest() -> Outcome {
    let mut random = Random::of_seed(74);
    let mut cases = 0;
    for (degree, low) in [(2, 3), (5, 5), (8, 27), (8, 29)] {
        let field = Field::of(Name { degree, low });
        let (c, s) = (random.bytes(65537), random.bytes(65540));
        dot_agrees(&field, &c[1..], &s)?;
        dot_agrees(&field, &c[1..], &s[..65536])?;
        let ones = vec![1; 65537];
        expect(field.name.dot(&ones, &ones), 0, || "65,537 products".into())?;
        update_agrees(&field, &s, 255, &c[1..])?;
        update_agrees(&field, &s[..65536], 255, &c[1..])?;
        expect(field.name.updated(&s, 1, &c)?, s, || "65,537 bytes".into())?;
        cases += 6;
    }
    Ok(cases)
}

// Elements; then a byte among them that is none, in a field that leaves such bytes
fn squares() -> Outcome {
    let mut random = Random::of_seed(75);
    let mut cases = 0;
    for field in fields() {
        let name = field.name;
        for n in 0..=300 {
            let mut a = field.elements(&mut random, n);
            let expected: Vec<_> = a.iter().map(|&x| field.product(x, x)).collect();
            expect(name.squared(&a)?, expected, || {
                format!("{name:?}, {}", list(&a))
            })?;
            cases += 1;
            if n > 0 && field.size < 256 {
                let byte = random.one_of(&[field.size as u64, 255]) as u8;
                a[random.below(n as u64) as usize] = byte;
                expect(name.squared(&a)?, a, || format!("{name:?}, {byte}"))?;
                cases += 1;
            }
        }
        let all: Vec<_> = (0..field.size).map(|x| x as u8).collect();
        let expected: Vec<_> = all.iter().map(|&x| field.product(x, x)).collect();
        expect(name.squared(&all)?, expected, || format!("{name:?}, all"))?;
        cases += 1;
    }
    Ok(cases)
}

// ---- actions

// The values of the action of f with the stride q on the first n bytes as a period: each place is a sum of products with the
// terms q places apart
fn act_agrees(field: &Field, w: &[u8], n: usize, f: &[u8], q: usize) -> Result<bool, String> {
    let mut expected = w.to_vec();
    for i in 0..n {
        let place = |j| ((i as u128 + q as u128 * j as u128) % n as u128) as usize;
        let terms: Vec<_> = (0..f.len()).map(|j| w[place(j)]).collect();
        expected[n + i] = field.dot(f, &terms);
    }
    let zero = expected[n..2 * n].iter().all(|&value| value == 0);
    expect(field.name.acted(w, n, f, q)?, (expected, zero), || {
        format!("{:?}, {} on {} by {q}", field.name, list(f), list(&w[..n]))
    })?;
    Ok(zero)
}

fn actions() -> Outcome {
    let mut random = Random::of_seed(76);
    let (mut cases, mut zeros) = (0, 0);
    for field in fields() {
        for n in [1, 2, 3, 15, 16, 17, 32, 33, 100, 255, 256] {
            for m in [0, 1, 2, 5, 33, 300] {
                let q = random.one_of(&[0, 1, 2, 4, 64, n, n + 1, 4096, usize::MAX]);
                let more = random.one_of(&[0, 1, 50]);
                let w = random.bytes(2 * n + more);
                zeros += act_agrees(&field, &w, n, &random.bytes(m), q)? as u64;
                // two equal coefficients annihilate what is the same in every place
                let (w, c) = (vec![w[0]; 2 * n], random.next() as u8);
                zeros += act_agrees(&field, &w, n, &[c, c], q)? as u64;
                cases += 2;
            }
        }
    }
    expect(zeros > cases / 2 && zeros < cases, true, || {
        format!("{zeros} of {cases} actions are zero")
    })?;
    Ok(cases)
}

fn no_actions() -> Outcome {
    let mut random = Random::of_seed(77);
    let mut cases = 0;
    for field in fields() {
        for (size, n) in [
            (0, 0),
            (9, 0),
            (0, 1),
            (1, 1),
            (31, 16),
            (511, 256),
            (600, 257),
            (9, usize::MAX),
            (9, 1 << 63),
        ] {
            let w = random.bytes(size);
            let told = field.name.acted(&w, n, &[1, 1], 1)?;
            expect(told, (w, false), || format!("{n} of {size} bytes"))?;
            cases += 1;
        }
    }
    Ok(cases)
}

fn main() {
    run(
        "fields",
        &[
            ("all names", all_names),
            ("names that are refused", refused_names),
            ("known values", known_values),
            ("sums and products", sums_and_products),
            ("inverses", inverses),
            ("sums of products", sums_of_products),
            ("updates", updates),
            ("the largest slices", largest),
            ("squares", squares),
            ("actions", actions),
            ("where no action is made", no_actions),
        ],
    )
}
