//! Every byte of a frame, changed by itself, and every two of some slots: behind one another in one
//! recording, and one in each.

use reference::frame::{self, HEADER};
use reference::settings::Settings;
use reference::state::END;

use super::meeting::{meeting, Pair};
use super::{check, check_call, of_lengths};
use crate::comparison::{Comparison, Difference};
use crate::draw::Draws;
use crate::model::bytes_of;

/// Numbers about which a byte of a slot or its sign changes, the last slot, and the highest number.
const SLOTS: [u32; 14] = [
    0,
    1,
    255,
    256,
    65_535,
    65_536,
    (1 << 24) - 1,
    1 << 24,
    (1 << 31) - 1,
    1 << 31,
    END - 1,
    END,
    u32::MAX - 1,
    u32::MAX,
];

pub fn run(comparison: &mut Comparison) -> Result<(), Difference> {
    for settings in of_lengths() {
        let mut draws = comparison.case("places of pairs");
        every_place(comparison, &mut draws, settings)?;
        every_two_slots(comparison, &mut draws, settings)?;
    }
    for settings in of_every_remainder() {
        let mut draws = comparison.case("places of pairs");
        every_place(comparison, &mut draws, settings)?;
    }
    Ok(())
}

/// Frames of 17 bytes, 20 and so on to 206: divided by any power of two up to 64, which bytes may be
/// compared by, their lengths leave every remainder.
fn of_every_remainder() -> impl Iterator<Item = Settings> {
    (1..=64).map(|lanes| Settings { lanes, ..Settings::of_code(2, 1, 1) })
}

/// Two recordings that are equal but for one byte of a frame, in either of them.
fn every_place(
    comparison: &mut Comparison,
    draws: &mut Draws,
    settings: Settings,
) -> Result<(), Difference> {
    let frames = meeting(draws, settings, 3);
    for place in 0..frame::length(&settings) {
        let mut changed = frames.clone();
        let at = draws.below(frames.len());
        draws.change(&mut changed[at][place]);
        let pair = Pair { settings: bytes_of(&settings), both: [frames.clone(), changed] };
        for pair in [pair.clone(), pair.swapped()] {
            match due(place) {
                Some(due) => check_call(comparison, pair.call(), due)?,
                None => drop(comparison.call(&mut pair.call())?),
            }
        }
    }
    Ok(())
}

/// The number that a byte at this place makes. Another slot may be above the one before it.
fn due(place: usize) -> Option<u32> {
    match place {
        0..5 => Some(4),
        5..10 => Some(5),
        10..HEADER => None,
        _ => Some(10),
    }
}

/// Each two of the slots: in one recording the second must be above the first, and in two
/// recordings it must be another, as the bodies differ.
fn every_two_slots(
    comparison: &mut Comparison,
    draws: &mut Draws,
    settings: Settings,
) -> Result<(), Difference> {
    let length = frame::body_length(&settings);
    let [one, mut other] = [draws.bytes(length), draws.bytes(length)];
    other[length - 1] = !one[length - 1];
    for (low, high) in SLOTS.iter().flat_map(|low| SLOTS.map(|high| (*low, high))) {
        let first = frame::of(&settings, low, &one);
        let second = frame::of(&settings, high, &other);
        let both = [&first[..], &second].concat();
        let falling = if low < high { 0 } else { 9 };
        check(comparison, settings, [&both, &[]], falling)?;
        check(comparison, settings, [&[], &both], falling)?;
        check(comparison, settings, [&first, &second], if low == high { 10 } else { 0 })?;
    }
    Ok(())
}

#[cfg(test)]
mod tests {
    use reference::pair::pair_cause;

    use super::*;

    #[test]
    fn the_number_of_a_byte_is_the_references() {
        let settings = Settings::of_code(3, 2, 2);
        let frame = frame::of(&settings, 1, &[7; 4]);
        for place in 0..frame.len() {
            let mut changed = frame.clone();
            changed[place] ^= 1;
            let number = pair_cause(&settings, &frame, &changed);
            assert_eq!(number, due(place).unwrap_or(0), "{place}");
        }
    }

    #[test]
    fn lengths_leave_every_remainder() {
        let lengths: Vec<usize> = of_every_remainder().map(|s| frame::length(&s)).collect();
        assert_eq!((lengths[0], lengths[1], lengths[63]), (17, 20, 206));
        assert!((0..64).all(|rest| lengths.iter().any(|length| length % 64 == rest)));
    }

    #[test]
    fn the_slots_rise() {
        assert!(SLOTS.windows(2).all(|two| two[0] < two[1]));
    }
}
