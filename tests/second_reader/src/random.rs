//! A small generator of pseudo-random numbers (splitmix64), so that a seed gives the same images everywhere.

use std::cell::Cell;

pub struct Random(Cell<u64>);

impl Random {
    /// The stream of one image: the same seed and number give the same image.
    pub fn of(seed: u64, number: u64) -> Random {
        let random = Random(Cell::new(seed));
        let first = random.next();
        Random(Cell::new(
            first ^ number.wrapping_mul(0xd134_2543_de82_ef95),
        ))
    }

    pub fn next(&self) -> u64 {
        self.0.set(self.0.get().wrapping_add(0x9e37_79b9_7f4a_7c15));
        let mut z = self.0.get();
        z = (z ^ (z >> 30)).wrapping_mul(0xbf58_476d_1ce4_e5b9);
        z = (z ^ (z >> 27)).wrapping_mul(0x94d0_49bb_1331_11eb);
        z ^ (z >> 31)
    }

    /// A number below n; 0 where n is 0.
    pub fn below(&self, n: usize) -> usize {
        match n {
            0 => 0,
            _ => (self.next() % n as u64) as usize,
        }
    }

    /// A number from low to high, both included.
    pub fn between(&self, low: usize, high: usize) -> usize {
        low + self.below(high.saturating_sub(low) + 1)
    }

    /// True once in n draws on the average.
    pub fn one_in(&self, n: usize) -> bool {
        self.below(n) == 0
    }

    pub fn pick<T: Clone>(&self, items: &[T]) -> T {
        items[self.below(items.len())].clone()
    }

    pub fn byte(&self) -> u8 {
        self.next() as u8
    }

    pub fn bytes(&self, size: usize) -> Vec<u8> {
        (0..size).map(|_| self.byte()).collect()
    }

    pub fn shuffle<T>(&self, items: &mut [T]) {
        for last in (1..items.len()).rev() {
            items.swap(last, self.below(last + 1));
        }
    }

    /// The numbers 0 to n - 1 in some order.
    pub fn permutation(&self, n: usize) -> Vec<usize> {
        let mut order: Vec<usize> = (0..n).collect();
        self.shuffle(&mut order);
        order
    }

    /// Some of the numbers 0 to n - 1, one at least, ascending (n above 0).
    pub fn some_of(&self, n: usize) -> Vec<usize> {
        let one = self.below(n);
        (0..n).filter(|i| *i == one || self.one_in(4)).collect()
    }
}
