//! Document 01 in plain Rust, written for speed with tables: a table of all products of bytes, one of reciprocals, and
//! logarithms for the narrow numbers. A codeword start takes one elimination, and every call works out everything anew.
//! The joiner of document 02 §7 stands beside it.

mod decision;
mod elimination;
pub mod joiner;
mod parities;
mod sums;

use crate::link::shape::State;
use crate::link::{receiver, sender};

/// Sends a message in the slot due.
pub fn send(state: &mut State, rows: &mut [u8], message: &[u8], frame: &mut [u8]) -> u32 {
    sender::send((state, rows, message, frame), parities::write_parities)
}

/// Reports the frame that was heard in the slot due.
pub fn heard(state: &mut State, rows: &mut [u8], frame: &[u8], message: &mut [u8]) -> u32 {
    receiver::heard((state, rows, frame, message), decision::decide)
}

/// Reports that the slot due was lost.
pub fn lost(state: &mut State, rows: &mut [u8], message: &mut [u8]) -> u32 {
    receiver::lost((state, rows, message), decision::decide)
}
