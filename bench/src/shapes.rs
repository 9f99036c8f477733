//! The shapes that are timed.

use crate::operation::Losses;

/// A code by T, B and N; its window is T + 1.
#[derive(Clone, Copy, Debug, PartialEq, Eq)]
pub struct Shape {
    pub delay: u8,
    pub burst: u8,
    pub scattered: u8,
    /// The losses after which a report of ours takes most instructions, of those that `bench/run worst` tried.
    pub worst: Losses,
}

/// The shapes (8, 8), (12, 4), (15, 1) and (4, 4) of k source and B parity symbols.
pub const SHAPES: [Shape; 4] = [
    Shape { delay: 11, burst: 8, scattered: 4, worst: 0x81 },
    Shape { delay: 13, burst: 4, scattered: 2, worst: 0x804 },
    Shape { delay: 15, burst: 1, scattered: 1, worst: 0x4000 },
    Shape { delay: 5, burst: 4, scattered: 2, worst: 0x8 },
];

impl Shape {
    /// W, T, B, N, L.
    pub fn settings(&self, lanes: u8) -> [u8; 5] {
        [self.delay + 1, self.delay, self.burst, self.scattered, lanes]
    }

    /// Source symbols.
    pub fn k(&self) -> usize {
        self.delay as usize - self.scattered as usize + 1
    }

    /// Symbols in a word.
    pub fn n(&self) -> usize {
        self.k() + self.burst as usize
    }

    /// The slots that a report looks at.
    pub fn slots(&self) -> usize {
        self.k() + self.delay as usize
    }

    /// The shape as it is printed.
    pub fn name(&self) -> String {
        format!("({}, {})", self.k(), self.burst)
    }
}
