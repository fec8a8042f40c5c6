// Random numbers by splitmix64, the same in every run.
use super::field::Field;

pub struct Random(u64);

impl Random {
    pub fn of_seed(seed: u64) -> Self {
        Random(seed)
    }

    pub fn next(&mut self) -> u64 {
        self.0 = self.0.wrapping_add(0x9e37_79b9_7f4a_7c15);
        let mut z = self.0;
        z = (z ^ (z >> 30)).wrapping_mul(0xbf58_476d_1ce4_e5b9);
        z = (z ^ (z >> 27)).wrapping_mul(0x94d0_49bb_1331_11eb);
        z ^ (z >> 31)
    }

    // A number below n.
    pub fn below(&mut self, n: u64) -> u64 {
        self.next() % n
    }

    // One of the numbers from a to b.
    pub fn between(&mut self, a: u64, b: u64) -> u64 {
        a + self.below(b - a + 1)
    }

    pub fn one_of<T: Copy>(&mut self, of: &[T]) -> T {
        of[self.below(of.len() as u64) as usize]
    }

    // n numbers below `size`.
    pub fn numbers(&mut self, size: u64, n: usize) -> Vec<u8> {
        (0..n).map(|_| self.below(size) as u8).collect()
    }

    // n elements of a field.
    pub fn elements(&mut self, field: Field, n: usize) -> Vec<u8> {
        self.numbers(field.size, n)
    }

    // An element other than 0.
    pub fn unit(&mut self, field: Field) -> u64 {
        self.between(1, field.size - 1)
    }

    // A monic polynomial of degree d, constant first.
    pub fn monic(&mut self, field: Field, d: usize) -> Vec<u8> {
        let mut f = self.elements(field, d);
        f.push(1);
        f
    }

    pub fn bytes(&mut self, n: usize) -> Vec<u8> {
        (0..n).map(|_| self.next() as u8).collect()
    }
}
