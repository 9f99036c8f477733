//! Before the joiner is timed: all versions and the reference say the same of the pairs, and of changes of them.

use super::pairs::{Hearing, Pair, HEARINGS, SETTINGS};
use super::Joiner;
use reference::{pair, settings};
use std::collections::BTreeSet;

/// Panics at the first difference, or if a cause was not met.
pub fn check(versions: &[Joiner]) {
    let mut met = BTreeSet::new();
    for settings in SETTINGS {
        for hearing in HEARINGS {
            let pair = Pair::full(settings, hearing);
            met.insert(check_pair(versions, &pair, 40));
            if hearing == Hearing::OwnLosses {
                met.extend(pair.changed().iter().map(|changed| check_pair(versions, changed, 2)));
            }
        }
    }
    assert!(met.into_iter().eq([0, 1, 2, 4, 5, 9, 10]), "not every cause is met");
}

/// The cause that all say, with the part's length for some slots and how many slots below them have a frame.
fn check_pair(versions: &[Joiner], pair: &Pair, asked: u32) -> u32 {
    let [window, delay, burst, scattered, lanes] = pair.settings;
    let code = settings::Settings { window, delay, burst, scattered, lanes };
    let [first, second] = &pair.both;
    let cause = pair::pair_cause(&code, first, second);
    let heard = if cause == 0 { pair::joined(&code, first, second) } else { Default::default() };
    let step = (pair.slots / asked).max(1) as usize;
    let slots: Vec<u32> = (0..pair.slots).step_by(step).chain([1, pair.slots - 1, pair.slots, u32::MAX]).collect();
    for &slot in &slots {
        let length = pair::join(&code, first, second, slot).bytes(&code, first, second).len();
        let said = (cause, length, heard.range(..slot).count() as u32);
        for version in versions {
            // No version needs to go through four thousand million slots.
            let below = slot.min(pair.slots + 1);
            let cause = (version.cause)(&pair.settings, first, second);
            let length = (version.joined_len)(&pair.settings, first, second, slot);
            let count = (version.heard_slots)(&pair.settings, first, second, below);
            assert_eq!((cause, length, count), said, "{} at slot {slot} of {:?}", version.name, pair.settings);
        }
    }
    cause
}
