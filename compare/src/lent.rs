//! A buffer as it is lent to the library: between guard bytes, which nobody may write.

use std::hint::black_box;

use crate::draw::Draws;

/// Guard bytes on either side. Up to 15 more stand before the buffer, so that it starts at any address.
const GUARD: usize = 32;

/// The bytes of a number, and how many numbers the guard bytes on either side of one are.
const NUMBER: usize = 4;
const GUARD_NUMBERS: usize = GUARD / NUMBER;

pub struct Lent {
    held: Vec<u8>,
    start: usize,
    end: usize,
    before: Vec<u8>,
    behind: Vec<u8>,
}

impl Lent {
    /// These bytes, with guard bytes drawn anew.
    pub fn of(draws: &mut Draws, bytes: &[u8]) -> Lent {
        let extra = draws.below(16);
        let before = draws.bytes(GUARD + extra);
        let behind = draws.bytes(GUARD);
        let held = [&before[..], bytes, &behind].concat();
        Lent { held, start: before.len(), end: before.len() + bytes.len(), before, behind }
    }

    pub fn bytes(&mut self) -> &mut [u8] {
        &mut self.held[self.start..self.end]
    }

    /// The bytes, lent for reading only.
    pub fn read(&self) -> &[u8] {
        &self.held[self.start..self.end]
    }

    /// The settings, which are five bytes in every call.
    pub fn settings(&self) -> &tob::calls::Settings {
        self.read().try_into().expect("settings are five bytes")
    }

    /// The four bytes, lent as a number for the time of a call. It stands at an address that is
    /// right for one: the guard bytes next to it are numbers for that time as well.
    pub fn number(&mut self, call: impl FnOnce(&mut u32) -> u32) -> u32 {
        assert_eq!(self.end - self.start, NUMBER);
        let bytes = &mut self.held[self.start - GUARD..self.end + GUARD];
        let number = |four: &[u8]| u32::from_be_bytes(four.try_into().expect("four bytes"));
        let mut numbers: Vec<u32> = bytes.chunks_exact(NUMBER).map(number).collect();
        let reply = call(&mut numbers[GUARD_NUMBERS]);
        for (four, number) in bytes.chunks_exact_mut(NUMBER).zip(black_box(numbers)) {
            four.copy_from_slice(&number.to_be_bytes());
        }
        reply
    }

    /// The first byte, guard bytes included, that is not as expected.
    pub fn difference(&self, expected: &[u8]) -> Option<String> {
        let parts = [
            ("guard byte before it", &self.held[..self.start], &self.before[..]),
            ("byte", &self.held[self.start..self.end], expected),
            ("guard byte behind it", &self.held[self.end..], &self.behind),
        ];
        parts.into_iter().find_map(|(name, found, due)| {
            assert_eq!(found.len(), due.len());
            let place = found.iter().zip(due).position(|(a, b)| a != b)?;
            let (of, library, wanted) = (due.len(), found[place], due[place]);
            Some(format!("{name} {place} (of {of}): library {library:02x}, expected {wanted:02x}"))
        })
    }
}

#[cfg(test)]
mod tests {
    use super::*;

    #[test]
    fn a_write_in_the_buffer_or_beside_it_is_found() {
        let bytes = [1, 2, 3];
        for place in [0, GUARD - 1, GUARD, GUARD + 2, GUARD + 3] {
            let mut lent = Lent::of(&mut Draws::of_case(1, place), &bytes);
            assert_eq!(lent.difference(&bytes), None);
            let shift = lent.start - GUARD;
            lent.held[place + shift] ^= 1;
            assert!(lent.difference(&bytes).is_some(), "{place}");
        }
    }

    #[test]
    fn a_number_is_lent_and_written_between_its_guard_bytes() {
        let mut lent = Lent::of(&mut Draws::of_case(1, 1), &[1, 2, 3, 4]);
        let reply = lent.number(|number| {
            assert_eq!(*number, 0x01020304);
            *number = 0x05060708;
            9
        });
        assert_eq!((reply, lent.difference(&[5, 6, 7, 8])), (9, None));
        assert!(lent.difference(&[1, 2, 3, 4]).is_some());
    }
}
