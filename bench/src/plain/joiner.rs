//! Two recordings of one meeting, document 02 §7, in plain Rust that follows its words: each cause is looked for in
//! both recordings before the next, and a slot is found by halving.

use crate::link::reply;
use crate::link::shape::{Settings, Shape, MARK};
use std::cmp::Ordering;

/// The most bytes of a recording.
pub const LONGEST: usize = 64 * 1024;

/// The length of a frame, or the first cause that holds.
fn checked(settings: &Settings, first: &[u8], second: &[u8]) -> Result<usize, u32> {
    let size = Shape::of(settings)?.frame();
    let both = [first, second];
    let frames = || both.iter().flat_map(|recording| recording.chunks_exact(size));
    if both.iter().any(|recording| recording.len() > LONGEST || recording.len() % size != 0) {
        return Err(reply::LENGTH);
    }
    if frames().any(|frame| frame[..5] != MARK) {
        return Err(reply::MARK);
    }
    if frames().any(|frame| frame[5..10] != *settings) {
        return Err(reply::OTHER_SETTINGS);
    }
    if !both.iter().all(|recording| rises(size, recording)) {
        return Err(reply::NOT_RISING);
    }
    if differ(size, first, second) {
        return Err(reply::DIFFERENT);
    }
    Ok(size)
}

/// 0, or the cause.
pub fn cause(settings: &Settings, first: &[u8], second: &[u8]) -> u32 {
    checked(settings, first, second).err().unwrap_or(reply::ACCEPTED)
}

/// The joiner: the part for a slot, which is empty for a refused pair.
pub fn join<'a>(settings: &Settings, first: &'a [u8], second: &'a [u8], slot: u32) -> &'a [u8] {
    checked(settings, first, second).map_or(&[], |size| part(size, first, second, slot))
}

/// Its length.
pub fn joined_len(settings: &Settings, first: &[u8], second: &[u8], slot: u32) -> usize {
    join(settings, first, second, slot).len()
}

/// How many of the slots below this one have a frame, each asked for in turn; 0 for a refused pair.
pub fn heard_slots(settings: &Settings, first: &[u8], second: &[u8], slots: u32) -> u32 {
    let Ok(size) = checked(settings, first, second) else { return 0 };
    (0..slots).filter(|&slot| !part(size, first, second, slot).is_empty()).count() as u32
}

/// The slot of a frame.
#[inline]
pub fn slot_of(frame: &[u8]) -> u32 {
    u32::from_be_bytes([frame[10], frame[11], frame[12], frame[13]])
}

/// Whether the slots rise.
fn rises(size: usize, recording: &[u8]) -> bool {
    let frames = || recording.chunks_exact(size);
    frames().zip(frames().skip(1)).all(|(before, after)| slot_of(before) < slot_of(after))
}

/// Whether a byte differs in a slot that both have: the recording that is behind moves on.
fn differ(size: usize, first: &[u8], second: &[u8]) -> bool {
    let (mut first, mut second) = (first.chunks_exact(size).peekable(), second.chunks_exact(size).peekable());
    while let (Some(one), Some(other)) = (first.peek(), second.peek()) {
        match slot_of(one).cmp(&slot_of(other)) {
            Ordering::Less => drop(first.next()),
            Ordering::Greater => drop(second.next()),
            Ordering::Equal if one != other => return true,
            Ordering::Equal => drop((first.next(), second.next())),
        }
    }
    false
}

/// The frame of a slot in an accepted pair, the first recording's where both have it; no bytes where neither has.
#[inline]
pub fn part<'a>(size: usize, first: &'a [u8], second: &'a [u8], slot: u32) -> &'a [u8] {
    find(size, first, slot).or_else(|| find(size, second, slot)).unwrap_or(&[])
}

/// The frame of a slot in one recording, found by halving.
#[inline]
fn find(size: usize, recording: &[u8], slot: u32) -> Option<&[u8]> {
    let (mut low, mut high) = (0, recording.len() / size);
    while low < high {
        let middle = low + (high - low) / 2;
        let frame = &recording[middle * size..][..size];
        match slot_of(frame).cmp(&slot) {
            Ordering::Less => low = middle + 1,
            Ordering::Greater => high = middle,
            Ordering::Equal => return Some(frame),
        }
    }
    None
}
