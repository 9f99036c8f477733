//! Document 02 §7, the second aerial: two recordings of one meeting. They are checked whole
//! against a receiver's settings; the joiner then finds the frame of a slot in either.

use std::collections::BTreeMap;

use crate::frame::{self, MARK, VERSION};
use crate::play::LONGEST;
use crate::settings::Settings;
use crate::state::{check_settings, refuse_if, Refusal};

/// Where the frame of a slot is: in neither recording, or in one of them from this byte on.
#[derive(Clone, Copy, Debug, PartialEq, Eq)]
pub enum Part {
    Nothing,
    First(usize),
    Second(usize),
}

impl Part {
    /// 1 or 2 for whose it is, and the byte where it begins; 0 and 0 for an empty part.
    pub fn numbers(self) -> (u32, usize) {
        match self {
            Part::Nothing => (0, 0),
            Part::First(begin) => (1, begin),
            Part::Second(begin) => (2, begin),
        }
    }

    /// The bytes lent: the frame as a part of its recording, or no bytes.
    pub fn bytes<'a>(self, settings: &Settings, first: &'a [u8], second: &'a [u8]) -> &'a [u8] {
        match self {
            Part::Nothing => &[],
            Part::First(begin) => &first[begin..begin + frame::length(settings)],
            Part::Second(begin) => &second[begin..begin + frame::length(settings)],
        }
    }
}

/// The number of the check of a pair: 0 where it is accepted, else the first cause among 1, 2, 4,
/// 5, 9 and 10 that holds.
pub fn pair_cause(settings: &Settings, first: &[u8], second: &[u8]) -> u32 {
    match check_pair(settings, first, second) {
        Ok(()) => 0,
        Err(refusal) => u32::from(refusal.number()),
    }
}

/// The joiner: the part that holds the frame of a slot, the first recording's where both have it.
/// A slot that neither has and a refused pair have an empty part.
pub fn join(settings: &Settings, first: &[u8], second: &[u8], slot: u32) -> Part {
    match check_pair(settings, first, second) {
        Ok(()) => part(settings, first, second, slot),
        Err(_) => Part::Nothing,
    }
}

/// The causes of a refused pair. Each is looked for in both recordings before the next.
pub fn check_pair(settings: &Settings, first: &[u8], second: &[u8]) -> Result<(), Refusal> {
    check_settings(settings)?;
    let either = |holds: fn(&Settings, &[u8]) -> bool| {
        holds(settings, first) || holds(settings, second)
    };
    refuse_if(either(has_wrong_length), Refusal::WrongLength)?;
    refuse_if(either(has_other_mark_or_version), Refusal::MarkOrVersion)?;
    refuse_if(either(has_other_settings), Refusal::OtherSettings)?;
    refuse_if(either(does_not_rise), Refusal::SlotsNotRising)?;
    refuse_if(differ(settings, first, second), Refusal::FramesDiffer)
}

/// The frames of an accepted pair by their slots: what the joiner lends, slot by slot.
pub fn joined<'a>(
    settings: &Settings,
    first: &'a [u8],
    second: &'a [u8],
) -> BTreeMap<u32, &'a [u8]> {
    let mut joined = by_slot(settings, second);
    joined.extend(by_slot(settings, first));
    joined
}

/// The part of an accepted pair for a slot.
fn part(settings: &Settings, first: &[u8], second: &[u8], slot: u32) -> Part {
    match (begin_of(settings, first, slot), begin_of(settings, second, slot)) {
        (Some(begin), _) => Part::First(begin),
        (None, Some(begin)) => Part::Second(begin),
        (None, None) => Part::Nothing,
    }
}

/// The frames of a recording, which is a whole number of them.
fn frames<'a>(settings: &Settings, recording: &'a [u8]) -> impl Iterator<Item = &'a [u8]> {
    recording.chunks_exact(frame::length(settings))
}

/// The same by their slots, for a recording that rises.
fn by_slot<'a>(settings: &Settings, recording: &'a [u8]) -> BTreeMap<u32, &'a [u8]> {
    frames(settings, recording).map(|frame| (frame::slot(frame), frame)).collect()
}

/// The byte where the frame of a slot begins, if the recording has one.
fn begin_of(settings: &Settings, recording: &[u8], slot: u32) -> Option<usize> {
    let place = frames(settings, recording).position(|frame| frame::slot(frame) == slot);
    place.map(|place| place * frame::length(settings))
}

/// Cause 2: too long, or with a part of a frame at its end.
fn has_wrong_length(settings: &Settings, recording: &[u8]) -> bool {
    recording.len() > LONGEST || !recording.len().is_multiple_of(frame::length(settings))
}

/// Cause 4, in any frame.
fn has_other_mark_or_version(settings: &Settings, recording: &[u8]) -> bool {
    frames(settings, recording).any(|f| frame::mark(f) != MARK || frame::version(f) != VERSION)
}

/// Cause 5, in any frame.
fn has_other_settings(settings: &Settings, recording: &[u8]) -> bool {
    frames(settings, recording).any(|frame| frame::settings(frame) != *settings)
}

/// Cause 9: some slot is not above the one before it.
fn does_not_rise(settings: &Settings, recording: &[u8]) -> bool {
    let slots: Vec<u32> = frames(settings, recording).map(frame::slot).collect();
    slots.windows(2).any(|two| two[1] <= two[0])
}

/// Cause 10, for recordings that rise: a slot that both have, with other bytes.
fn differ(settings: &Settings, first: &[u8], second: &[u8]) -> bool {
    let second = by_slot(settings, second);
    let is_other = |(slot, frame)| second.get(&slot).is_some_and(|other| *other != frame);
    by_slot(settings, first).into_iter().any(is_other)
}
