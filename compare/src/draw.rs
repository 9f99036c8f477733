//! Numbers drawn from a seed: the same seed draws the same numbers.

/// A counter whose value is mixed for each number drawn (the generator "splitmix64").
pub struct Draws {
    counter: u64,
}

impl Draws {
    /// Every case has numbers of its own, so that a change of one case leaves the others as they are.
    pub fn of_case(seed: u64, case: usize) -> Draws {
        let mut draws = Draws { counter: seed };
        let start = draws.next() ^ (case as u64).rotate_left(32);
        Draws { counter: start }
    }

    pub fn next(&mut self) -> u64 {
        self.counter = self.counter.wrapping_add(0x9E37_79B9_7F4A_7C15);
        let mut mixed = self.counter;
        mixed = (mixed ^ (mixed >> 30)).wrapping_mul(0xBF58_476D_1CE4_E5B9);
        mixed = (mixed ^ (mixed >> 27)).wrapping_mul(0x94D0_49BB_1331_11EB);
        mixed ^ (mixed >> 31)
    }

    /// A number below the bound, which is not 0.
    pub fn below(&mut self, bound: usize) -> usize {
        (self.next() % bound as u64) as usize
    }

    /// True once in so many times.
    pub fn once_in(&mut self, times: usize) -> bool {
        self.below(times) == 0
    }

    pub fn byte(&mut self) -> u8 {
        self.next() as u8
    }

    pub fn bytes(&mut self, count: usize) -> Vec<u8> {
        let mut bytes = vec![0; count];
        for eight in bytes.chunks_mut(8) {
            eight.copy_from_slice(&self.next().to_le_bytes()[..eight.len()]);
        }
        bytes
    }

    /// One of these, of which there is at least one.
    pub fn one_of<A: Copy>(&mut self, choices: &[A]) -> A {
        choices[self.below(choices.len())]
    }

    /// Makes another byte of this one.
    pub fn change(&mut self, byte: &mut u8) {
        *byte ^= self.below(255) as u8 + 1;
    }
}

#[cfg(test)]
mod tests {
    use super::*;

    #[test]
    fn a_seed_and_a_case_draw_the_same_numbers_again() {
        let numbers = |seed, case| Draws::of_case(seed, case).bytes(40);
        assert_eq!(numbers(7, 3), numbers(7, 3));
        assert_ne!(numbers(7, 3), numbers(7, 4));
        assert_ne!(numbers(7, 3), numbers(8, 3));
    }
}
