//! Document 01 in Rust, in a version that goes further than the plain one: bit planes of the coefficients in place of
//! products, sums of subsets of the vectors, and elimination on parity checks. It is kept for the record, to show how
//! far one can go; nothing is judged by it.

mod checks;
mod dot;
mod matrix;
mod decision;
mod parities;

use crate::link::shape::State;
use crate::link::{receiver, sender};

/// Sends a message in the slot due.
pub fn send(state: &mut State, rows: &mut [u8], message: &[u8], frame: &mut [u8]) -> u32 {
    sender::send((state, rows, message, frame), parities::write_parities)
}

/// Reports the frame that was heard in the slot due.
pub fn heard(state: &mut State, rows: &mut [u8], frame: &[u8], message: &mut [u8]) -> u32 {
    receiver::heard((state, rows, frame, message), decision::decide)
}

/// Reports that the slot due was lost.
pub fn lost(state: &mut State, rows: &mut [u8], message: &mut [u8]) -> u32 {
    receiver::lost((state, rows, message), decision::decide)
}
