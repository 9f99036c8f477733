//! The joiner in a Rust version that goes further than the plain one: one walk over each recording with the ten bytes
//! that all frames begin with in one comparison, one walk over both, and the cause worked out only for a refused pair.
//! A slot is found as in the plain one. It is kept for the record; nothing is judged by it.

use crate::link::reply;
use crate::link::shape::{Settings, Shape, MARK};
use crate::plain::joiner::{part, slot_of, LONGEST};
use std::cmp::Ordering;

/// The length of a frame, or the first cause that holds.
fn checked(settings: &Settings, first: &[u8], second: &[u8]) -> Result<usize, u32> {
    let size = Shape::of(settings)?.frame();
    if [first, second].iter().any(|recording| recording.len() > LONGEST || recording.len() % size != 0) {
        return Err(reply::LENGTH);
    }
    let mut head = [0; 10];
    head[..5].copy_from_slice(&MARK);
    head[5..].copy_from_slice(settings);
    if !(fits(size, &head, first) && fits(size, &head, second)) {
        return Err(cause_of_frame(size, &head, first, second));
    }
    if differ(size, first, second) {
        return Err(reply::DIFFERENT);
    }
    Ok(size)
}

/// 0, or the cause.
pub fn cause(settings: &Settings, first: &[u8], second: &[u8]) -> u32 {
    checked(settings, first, second).err().unwrap_or(reply::ACCEPTED)
}

/// The joiner: the part for a slot, which is empty for a refused pair.
pub fn join<'a>(settings: &Settings, first: &'a [u8], second: &'a [u8], slot: u32) -> &'a [u8] {
    checked(settings, first, second).map_or(&[], |size| part(size, first, second, slot))
}

/// Its length.
pub fn joined_len(settings: &Settings, first: &[u8], second: &[u8], slot: u32) -> usize {
    join(settings, first, second, slot).len()
}

/// How many of the slots below this one have a frame, each asked for in turn; 0 for a refused pair.
pub fn heard_slots(settings: &Settings, first: &[u8], second: &[u8], slots: u32) -> u32 {
    let Ok(size) = checked(settings, first, second) else { return 0 };
    (0..slots).filter(|&slot| !part(size, first, second, slot).is_empty()).count() as u32
}

/// Whether every frame begins so, and the slots rise.
fn fits(size: usize, head: &[u8; 10], recording: &[u8]) -> bool {
    let mut least = 0;
    recording.chunks_exact(size).all(|frame| {
        let slot = u64::from(slot_of(frame));
        let rises = slot >= least;
        least = slot + 1;
        rises && frame[..10] == *head
    })
}

/// The first of causes 4, 5 and 9, one of which holds.
#[cold]
fn cause_of_frame(size: usize, head: &[u8; 10], first: &[u8], second: &[u8]) -> u32 {
    let any = |from: usize| {
        let mut frames = first.chunks_exact(size).chain(second.chunks_exact(size));
        frames.any(|frame| frame[from..from + 5] != head[from..from + 5])
    };
    match (any(0), any(5)) {
        (true, _) => reply::MARK,
        (_, true) => reply::OTHER_SETTINGS,
        _ => reply::NOT_RISING,
    }
}

/// Whether a byte differs in a slot that both have: the recording that is behind moves on.
fn differ(size: usize, first: &[u8], second: &[u8]) -> bool {
    let (mut first, mut second) = (first.chunks_exact(size), second.chunks_exact(size));
    let mut next = (first.next(), second.next());
    while let (Some(one), Some(other)) = next {
        match slot_of(one).cmp(&slot_of(other)) {
            Ordering::Less => next.0 = first.next(),
            Ordering::Greater => next.1 = second.next(),
            Ordering::Equal if one != other => return true,
            Ordering::Equal => next = (first.next(), second.next()),
        }
    }
    false
}
