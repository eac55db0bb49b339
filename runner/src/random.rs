//! A seeded generator of numbers (splitmix64): the same seed gives the same cases on every machine.

use std::cell::Cell;

/// Numbers that leave nothing in their low 8, 16, 32 or 60 bits.
pub const FAR: [usize; 6] = [1 << 8, 1 << 16, 1 << 32, 1 << 60, 1 << 61, 1 << 63];

pub struct Random(Cell<u64>);

impl Random {
    pub fn new(seed: u64) -> Random {
        Random(Cell::new(seed))
    }

    pub fn next(&self) -> u64 {
        let mut z = self.0.get().wrapping_add(0x9E37_79B9_7F4A_7C15);
        self.0.set(z);
        z = (z ^ (z >> 30)).wrapping_mul(0xBF58_476D_1CE4_E5B9);
        z = (z ^ (z >> 27)).wrapping_mul(0x94D0_49BB_1331_11EB);
        z ^ (z >> 31)
    }

    /// A number below `end`, which is above 0.
    pub fn below(&self, end: usize) -> usize {
        (self.next() >> 11) as usize % end
    }

    /// A number from `low` to `high`, both in.
    pub fn within(&self, low: usize, high: usize) -> usize {
        low + self.below(high - low + 1)
    }

    /// Most often a number below `end`; else the first ones from it on, or one so far out that with fewer bits, or
    /// times 8, it is a number about `end` again.
    pub fn about(&self, end: usize) -> usize {
        match self.below(32) {
            0 => end + self.below(2),
            1 => self.pick(&FAR) + self.below(end + 2),
            2 => usize::MAX - self.below(end + 2),
            _ => self.below(end.max(1)),
        }
    }

    pub fn byte(&self) -> u8 {
        (self.next() >> 24) as u8
    }

    pub fn bytes(&self, length: usize) -> Vec<u8> {
        (0..length).map(|_| self.byte()).collect()
    }

    /// True once in `n` on average.
    pub fn once_in(&self, n: usize) -> bool {
        self.below(n) == 0
    }

    pub fn pick<T: Copy>(&self, from: &[T]) -> T {
        from[self.below(from.len())]
    }

    /// Any of them, but more often the last than each of the others.
    pub fn pick_late<T: Copy>(&self, from: &[T]) -> T {
        if self.once_in(4) {
            from[from.len() - 1]
        } else {
            self.pick(from)
        }
    }
}
