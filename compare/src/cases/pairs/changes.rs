//! What becomes of a pair of recordings of one meeting, before it is checked. What the number is
//! then, both sides must agree on.

use reference::broadcast::{set_slot, Frames};
use reference::frame::{self, HEADER};
use reference::settings::{every_code, Settings};
use reference::state::END;

use super::causes::{in_some, other_mark, other_settings, other_version};
use super::meeting::{aerials, shared, Pair};
use crate::cases::bounds;
use crate::draw::Draws;
use crate::model::{lengths, settings_of};

/// A change of a pair whose recordings have two frames or more, and two slots in common.
pub type Change = fn(&mut Draws, &mut Pair);

/// Every change; the first four leave what is accepted. In the first there is none, and in the
/// fourth a recording is empty, or both are.
pub const CHANGES: [Change; 17] = [
    |_, _| (),
    equal,
    apart,
    |draws, pair| in_some(draws, pair, |_, frames| frames.clear()),
    other_sender,
    |draws, pair| in_one(draws, pair, any_headers),
    |draws, pair| in_one(draws, pair, rearrange),
    |draws, pair| in_one(draws, pair, any_length),
    renumber,
    last_slots,
    mark_and_settings,
    versions,
    other_meeting,
    refused_settings,
    |draws, pair| pair.settings = bounds::any(draws),
    any_bytes,
    any_slots,
];

/// A frame is at most this long where the settings are not accepted.
const LONG: i64 = 5_000;

/// A change of one of the recordings.
fn in_one(draws: &mut Draws, pair: &mut Pair, change: fn(&mut Draws, &mut Frames)) {
    let one = draws.below(2);
    change(draws, &mut pair.both[one]);
}

/// Both recordings are the same.
fn equal(_: &mut Draws, pair: &mut Pair) {
    pair.both[1] = pair.both[0].clone();
}

/// No slot is in both recordings.
fn apart(_: &mut Draws, pair: &mut Pair) {
    for [first, _] in shared(&pair.both).into_iter().rev() {
        pair.both[0].remove(first);
    }
}

/// A recording has any bodies, in all frames or from some frame on.
fn other_sender(draws: &mut Draws, pair: &mut Pair) {
    let one = draws.below(2);
    let from = draws.below(pair.both[one].len());
    for frame in &mut pair.both[one][from..] {
        let body = draws.bytes(frame.len() - HEADER);
        frame[HEADER..].copy_from_slice(&body);
    }
}

/// One to three bytes of headers are others.
fn any_headers(draws: &mut Draws, frames: &mut Frames) {
    for _ in 0..draws.below(3) + 1 {
        let at = draws.below(frames.len());
        let place = draws.below(HEADER);
        draws.change(&mut frames[at][place]);
    }
}

/// A frame is left out, comes twice, or changes places with another.
fn rearrange(draws: &mut Draws, frames: &mut Frames) {
    let [at, other] = [0, 1].map(|_| draws.below(frames.len()));
    match draws.below(3) {
        0 => drop(frames.remove(at)),
        1 => frames.insert(at, frames[other].clone()),
        _ => frames.swap(at, other),
    }
}

/// Any length up to two frames more, by bytes or in whole frames: what is new is any bytes.
fn any_length(draws: &mut Draws, frames: &mut Frames) {
    let one = frames[0].len();
    let mut bytes = frames.concat();
    let any = draws.below(bytes.len() + 2 * one);
    let whole = any / one * one;
    let length = draws.one_of(&[any, any.min(40), whole, whole, whole + 1, whole + one - 1]);
    bytes.truncate(length);
    bytes.extend(draws.bytes(length.saturating_sub(bytes.len())));
    *frames = vec![bytes];
}

/// A frame has another slot, in one recording or in both: one near its own, or any.
fn renumber(draws: &mut Draws, pair: &mut Pair) {
    let [first, second] = draws.one_of(&shared(&pair.both));
    let old = frame::slot(&pair.both[0][first]);
    let near = old.wrapping_add(draws.one_of(&[1, 2, u32::MAX]));
    let any = draws.next() as u32;
    let slot = draws.one_of(&[near, near, old ^ 1 << 31, old ^ 0xFF, 0, END, any]);
    let which = draws.below(3);
    if which != 1 {
        set_slot(&mut pair.both[0][first], slot);
    }
    if which != 0 {
        set_slot(&mut pair.both[1][second], slot);
    }
}

/// The last frames of the recordings have slots about the last slot, or the highest of all numbers.
fn last_slots(draws: &mut Draws, pair: &mut Pair) {
    for frames in &mut pair.both {
        let highest = [END - 1, END, END + 1, u32::MAX - 1, u32::MAX, u32::MAX];
        let slot = draws.one_of(&highest);
        set_slot(frames.last_mut().expect("two frames"), slot);
    }
}

/// A frame of one recording has another mark or version, and a late one of the other has other
/// settings, or both.
fn mark_and_settings(draws: &mut Draws, pair: &mut Pair) {
    let one = draws.below(2);
    let late = pair.both[1 - one].len() / 2;
    let mut frames = pair.both[1 - one].split_off(late);
    other_settings(draws, &mut frames);
    if draws.once_in(4) {
        other_mark(draws, &mut frames);
    }
    pair.both[1 - one].extend(frames);
    other_mark(draws, &mut pair.both[one]);
}

/// All frames of a recording have another version, or of both recordings, or all but the first.
fn versions(draws: &mut Draws, pair: &mut Pair) {
    let (version, from) = (other_version(draws), draws.below(2));
    in_some(draws, pair, |_, frames| {
        frames[from..].iter_mut().for_each(|frame| frame[3..5].copy_from_slice(&version));
    });
}

/// A recording is of a meeting with other settings, or both are: with frames of the same length
/// mostly, and once in three times any.
fn other_meeting(draws: &mut Draws, pair: &mut Pair) {
    let settings = settings_of(pair.settings);
    let others = match draws.once_in(3) {
        true => any_settings(draws),
        false => of_same_length(draws, &settings),
    };
    in_some(draws, pair, |draws, frames| *frames = again(draws, &others, frames));
}

/// Any accepted settings.
fn any_settings(draws: &mut Draws) -> Settings {
    let code = draws.one_of(&every_code());
    let lanes = draws.below(64) as u8 + 1;
    crate::cases::settings(draws, &code, lanes)
}

/// Settings with as many symbols and lanes.
fn of_same_length(draws: &mut Draws, settings: &Settings) -> Settings {
    let mut codes = every_code();
    codes.retain(|code| code.n() == settings.n());
    let code = draws.one_of(&codes);
    crate::cases::settings(draws, &code, settings.lanes)
}

/// Frames of the same slots with these settings, and any bodies.
fn again(draws: &mut Draws, settings: &Settings, frames: &Frames) -> Frames {
    let length = lengths(settings)[1] - HEADER;
    let slots = frames.iter().map(|frame| frame::slot(frame));
    slots.map(|slot| frame::of(settings, slot, &draws.bytes(length))).collect()
}

/// The settings lent are not accepted, and the frames are made for them: nothing else is wrong.
fn refused_settings(draws: &mut Draws, pair: &mut Pair) {
    let settings = loop {
        let any = bounds::any(draws);
        if !settings_of(any).accepted() {
            break any;
        }
    };
    let length = length_of_body(settings);
    let slots: Vec<u32> = pair.both[0].iter().map(|frame| frame::slot(frame)).collect();
    let of = |slot: &u32| frame::of(&settings_of(settings), *slot, &draws.bytes(length));
    let frames: Frames = slots.iter().map(of).collect();
    *pair = Pair { settings, both: aerials(draws, &frames) };
}

/// The length of a body by document 01's product, even where the settings are not accepted. 0 where
/// it is negative or long.
fn length_of_body(settings: [u8; 5]) -> usize {
    let [w, t, b, n, l] = settings.map(i64::from);
    let length = (t.min(w - 1).max(0) - n + 1 + b) * l;
    if (0..LONG).contains(&length) {
        length as usize
    } else {
        0
    }
}

/// A recording is any bytes, as many as before or a few, or a header of the settings before them.
fn any_bytes(draws: &mut Draws, pair: &mut Pair) {
    let one = draws.below(2);
    let frames = &mut pair.both[one];
    let before = frames.concat().len();
    let few = draws.below(40);
    let length = draws.one_of(&[before, before, few]);
    let mut bytes = draws.bytes(length);
    if length >= HEADER && draws.once_in(2) {
        bytes[..HEADER].copy_from_slice(&frames[0][..HEADER]);
    }
    *frames = vec![bytes];
}

/// Each recording is one to three frames of slots near each other, in any order, with bodies that
/// are mostly alike.
fn any_slots(draws: &mut Draws, pair: &mut Pair) {
    let settings = settings_of(pair.settings);
    let least = frame::slot(&pair.both[0][0]).min(u32::MAX - 4);
    for frames in &mut pair.both {
        frames.clear();
        for _ in 0..draws.below(3) + 1 {
            let slot = least + draws.below(5) as u32;
            let mut frame = frame::of(&settings, slot, &vec![7; lengths(&settings)[1] - HEADER]);
            if draws.once_in(3) {
                *frame.last_mut().expect("a body") = draws.byte();
            }
            frames.push(frame);
        }
    }
}

#[cfg(test)]
mod tests {
    use std::collections::BTreeSet;

    use super::super::meeting::meeting;
    use super::*;
    use crate::model::{by_reference, bytes_of};

    /// The numbers that pairs have after a change.
    fn numbers(draws: &mut Draws, change: Change) -> BTreeSet<u32> {
        let mut numbers = BTreeSet::new();
        for code in [(1, 1, 1), (3, 2, 2), (4, 3, 1)].map(|(t, b, n)| Settings::of_code(t, b, n)) {
            let settings = crate::cases::settings(draws, &code, 2);
            let frames = meeting(draws, settings, 6);
            for _ in 0..50 {
                let both = aerials(draws, &frames);
                let mut pair = Pair { settings: bytes_of(&settings), both };
                change(draws, &mut pair);
                let mut call = pair.call();
                numbers.insert(by_reference(call.kind, &mut call.things));
            }
        }
        numbers
    }

    #[test]
    fn what_leaves_one_meeting_is_accepted() {
        let mut draws = Draws::of_case(1, 15);
        for change in &CHANGES[..4] {
            assert!(numbers(&mut draws, *change).into_iter().eq([0]));
        }
    }

    #[test]
    fn what_a_change_is_to_be_refused_for() {
        let mut draws = Draws::of_case(1, 16);
        let mut met = |change| numbers(&mut draws, change).into_iter().collect::<Vec<_>>();
        assert_eq!(met(other_sender), [0, 10]);
        assert_eq!(met(|draws, pair| in_one(draws, pair, any_headers)), [0, 4, 5, 9]);
        assert_eq!(met(|draws, pair| in_one(draws, pair, rearrange)), [0, 9]);
        assert_eq!(met(|draws, pair| in_one(draws, pair, any_length)), [0, 2, 4]);
        assert_eq!(met(renumber), [0, 9, 10]);
        assert_eq!(met(last_slots), [0, 9, 10]);
        assert_eq!(met(mark_and_settings), [4]);
        assert_eq!(met(versions), [4]);
        assert!([2, 5].iter().all(|number| met(other_meeting).contains(number)));
        assert_eq!(met(refused_settings), [1]);
        assert!(met(any_bytes).starts_with(&[2, 4]));
        assert_eq!(met(any_slots), [0, 9, 10]);
    }

    #[test]
    fn frames_of_settings_that_are_accepted_have_their_length() {
        for code in every_code() {
            for lanes in [1, 3, 64] {
                let settings = Settings { lanes, ..code };
                let length = length_of_body(bytes_of(&settings));
                assert_eq!(HEADER + length, lengths(&settings)[1]);
            }
        }
    }
}
