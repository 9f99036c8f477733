//! Recordings about as long as one may be: lengths around 64 KiB, and faults in their last frames.

use reference::broadcast::{set_slot, Frames};
use reference::frame::{self, HEADER};
use reference::play::LONGEST;
use reference::settings::Settings;

use super::{check, of_lengths};
use crate::comparison::{Comparison, Difference};
use crate::draw::Draws;

/// What is wrong with the last frame of a recording, and the number for it.
type Fault = (u32, fn(&mut Frames));

/// One for each cause that a frame can have.
const OF_LAST: [Fault; 4] = [
    (4, |frames| last(frames)[2] ^= 1),
    (5, |frames| last(frames)[9] ^= 1),
    (9, |frames| {
        let before = frame::slot(&frames[frames.len() - 2]);
        set_slot(last(frames), before);
    }),
    (10, |frames| *last(frames).last_mut().expect("a body") ^= 1),
];

/// The last frame of a recording that has one.
fn last(frames: &mut Frames) -> &mut Vec<u8> {
    frames.last_mut().expect("a frame")
}

pub fn run(comparison: &mut Comparison) -> Result<(), Difference> {
    for settings in of_lengths() {
        let mut draws = comparison.case("long pairs");
        lengths(comparison, &mut draws, settings)?;
        last_frames(comparison, &mut draws, settings)?;
        any_bytes(comparison, &mut draws, settings)?;
    }
    Ok(())
}

/// The lengths that are tried, and whether they are accepted: as many whole frames as there may be,
/// one less, one more, about 64 KiB, and many times as much.
fn tried(one: usize) -> Vec<(usize, bool)> {
    let whole = LONGEST / one * one;
    let good = [whole - one, whole].map(|length| (length, true));
    let longer = [whole + one, 2 * LONGEST / one * one, 5 * LONGEST / one * one];
    let bad = longer.into_iter().chain([LONGEST - 1, LONGEST + 1, whole - 1, whole + 1]);
    let bad = bad.map(|length| (length, false));
    let exact = (LONGEST, whole == LONGEST);
    good.into_iter().chain(bad).chain([exact]).collect()
}

/// Every length for either recording, the other being empty, short, or as long as it may be.
fn lengths(
    comparison: &mut Comparison,
    draws: &mut Draws,
    settings: Settings,
) -> Result<(), Difference> {
    let one = frame::length(&settings);
    let frames = frames(draws, &settings, 5 * LONGEST / one + 1);
    let long = frames.concat();
    // The other has every second of the slots.
    let other: Vec<u8> = frames.iter().step_by(2).flatten().copied().collect();
    for (length, accepted) in tried(one) {
        let others = [0, 2 * one, LONGEST / one * one];
        let other = &other[..draws.one_of(&others)];
        for both in [[&long[..length], other], [other, &long[..length]]] {
            check(comparison, settings, both, if accepted { 0 } else { 2 })?;
        }
    }
    Ok(())
}

/// Two recordings with as many frames as there may be, equal but for the last frame of either.
fn last_frames(
    comparison: &mut Comparison,
    draws: &mut Draws,
    settings: Settings,
) -> Result<(), Difference> {
    let good = frames(draws, &settings, LONGEST / frame::length(&settings));
    for (number, fault) in OF_LAST {
        let mut bad = good.clone();
        fault(&mut bad);
        let [good, bad] = [good.concat(), bad.concat()];
        check(comparison, settings, [&good, &bad], number)?;
        check(comparison, settings, [&bad, &good], number)?;
    }
    Ok(())
}

/// Any bytes, as long as may be and longer.
fn any_bytes(
    comparison: &mut Comparison,
    draws: &mut Draws,
    settings: Settings,
) -> Result<(), Difference> {
    let whole = LONGEST / frame::length(&settings) * frame::length(&settings);
    for (length, number) in [(whole, 4), (LONGEST + 1, 2)] {
        let any = draws.bytes(length);
        check(comparison, settings, [&any, &[]], number)?;
        check(comparison, settings, [&[], &any], number)?;
    }
    Ok(())
}

/// So many frames of slots one after the other, with any bodies.
fn frames(draws: &mut Draws, settings: &Settings, count: usize) -> Frames {
    let length = frame::length(settings) - HEADER;
    (0..count as u32).map(|slot| frame::of(settings, slot, &draws.bytes(length))).collect()
}

#[cfg(test)]
mod tests {
    use super::*;

    #[test]
    fn lengths_are_accepted_up_to_64_kib_in_whole_frames() {
        for one in of_lengths().map(|settings| frame::length(&settings)) {
            let tried = tried(one);
            for (length, accepted) in &tried {
                assert_eq!(*accepted, *length <= LONGEST && length.is_multiple_of(one), "{length}");
            }
            // Too long by whole frames alone.
            assert!(tried.iter().any(|(length, accepted)| !accepted && length % one == 0));
        }
    }
}
