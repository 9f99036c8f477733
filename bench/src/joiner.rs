//! The joiner of document 02 §7, which finds a slot's frame in two recordings of one meeting: ours beside two Rust
//! versions, behind the same calls.

pub mod alike;
pub mod pairs;
pub mod quick;
pub mod table;

use crate::link::shape::Settings;
use crate::plain;

/// The calls of one version, all by the settings and both recordings.
#[derive(Clone, Copy)]
pub struct Joiner {
    pub name: &'static str,
    /// 0, or the cause.
    pub cause: fn(&Settings, &[u8], &[u8]) -> u32,
    /// Checks the pair, and gives the length of the part for a slot.
    pub joined_len: fn(&Settings, &[u8], &[u8], u32) -> usize,
    /// Checks the pair once, asks for the part of each slot below this one, and counts those that aren't empty.
    pub heard_slots: fn(&Settings, &[u8], &[u8], u32) -> u32,
}

/// The plain Rust version.
pub const fn plain() -> Joiner {
    let (cause, joined_len) = (plain::joiner::cause, plain::joiner::joined_len);
    Joiner { name: "plain", cause, joined_len, heard_slots: plain::joiner::heard_slots }
}

/// The Rust version that goes further.
pub const fn quick() -> Joiner {
    let (cause, joined_len) = (quick::cause, quick::joined_len);
    Joiner { name: "quick", cause, joined_len, heard_slots: quick::heard_slots }
}

/// Ours, when it is linked.
#[cfg(not(feature = "ours"))]
pub fn ours() -> Option<Joiner> {
    None
}

/// Ours, when it is linked.
#[cfg(feature = "ours")]
pub fn ours() -> Option<Joiner> {
    Some(Joiner {
        name: "ours",
        cause: tob::calls::pair_cause,
        joined_len: |s, a, b, at| unsafe { c::joined_len(s.as_ptr(), a.as_ptr(), a.len(), b.as_ptr(), b.len(), at) },
        heard_slots: |s, a, b, n| unsafe { c::heard_slots(s.as_ptr(), a.as_ptr(), a.len(), b.as_ptr(), b.len(), n) },
    })
}

/// What the static library hasn't: calls that are there to be timed.
#[cfg(feature = "ours")]
mod c {
    extern "C" {
        pub fn joined_len(
            settings: *const u8,
            first: *const u8,
            first_len: usize,
            second: *const u8,
            second_len: usize,
            slot: u32,
        ) -> usize;
        pub fn heard_slots(
            settings: *const u8,
            first: *const u8,
            first_len: usize,
            second: *const u8,
            second_len: usize,
            slots: u32,
        ) -> u32;
    }
}
