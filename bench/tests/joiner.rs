//! Both Rust versions of the joiner beside the reference, on drawn pairs of recordings.

use bench::joiner::{self, quick, Joiner};
use bench::plain;
use reference::drawn_pairs::{self, Pair};
use reference::patterns::Draws;
use reference::settings::Settings;
use reference::{frame, pair};
use std::collections::BTreeSet;

/// The settings as the calls take them.
fn five(s: &Settings) -> [u8; 5] {
    [s.window, s.delay, s.burst, s.scattered, s.lanes]
}

/// The settings that the recordings begin with, and some others.
fn settings(draws: &mut Draws, pair: &Pair) -> Vec<Settings> {
    let both = [&pair.first, &pair.second].into_iter().filter(|recording| recording.len() >= frame::HEADER);
    let mut all: Vec<Settings> = both.map(|recording| frame::settings(recording)).collect();
    all.dedup();
    all.push(Settings::of_code(draws.below(4) as u8, 1, 1));
    all
}

/// Some slots of the frames, the ones beside them, and both ends.
fn slots(draws: &mut Draws, settings: &Settings, pair: &Pair) -> Vec<u32> {
    let length = if settings.accepted() { frame::length(settings) } else { frame::HEADER };
    let frames: Vec<&[u8]> = pair.first.chunks_exact(length).chain(pair.second.chunks_exact(length)).collect();
    let mut all = vec![0, u32::MAX];
    for _ in 0..frames.len().min(4) {
        let slot = frame::slot(frames[draws.below(frames.len())]);
        all.extend([slot.wrapping_sub(1), slot, slot.wrapping_add(1)]);
    }
    all
}

/// The part that is lent for a slot.
type Join = for<'a> fn(&[u8; 5], &'a [u8], &'a [u8], u32) -> &'a [u8];

const VERSIONS: [(Joiner, Join); 2] = [(joiner::plain(), plain::joiner::join), (joiner::quick(), quick::join)];

/// The cause, which all say, as they lend the same parts and count the same slots.
fn compare(draws: &mut Draws, settings: &Settings, pair: &Pair) -> u32 {
    let (five, first, second) = (five(settings), &pair.first[..], &pair.second[..]);
    let cause = pair::pair_cause(settings, first, second);
    let heard = if cause == 0 { pair::joined(settings, first, second) } else { Default::default() };
    for slot in slots(draws, settings, pair) {
        let part = pair::join(settings, first, second, slot).bytes(settings, first, second);
        let below = slot.min(10_000);
        let count = heard.range(..below).count() as u32;
        for (version, join) in VERSIONS {
            let lent = join(&five, first, second, slot);
            let same = if part.is_empty() { lent.is_empty() } else { std::ptr::eq(lent, part) };
            assert!(same, "{}, {}: another part at slot {slot}", version.name, pair.kind);
            let said = (version.cause)(&five, first, second);
            let length = (version.joined_len)(&five, first, second, slot);
            let counted = (version.heard_slots)(&five, first, second, below);
            assert_eq!((said, length, counted), (cause, part.len(), count), "{}, {}", version.name, pair.kind);
        }
    }
    cause
}

#[test]
fn the_joiners_are_the_reference_on_drawn_pairs() {
    let (mut draws, mut met) = (Draws::start(), [0; 11]);
    for pair in drawn_pairs::pairs() {
        for settings in settings(&mut draws, &pair) {
            met[compare(&mut draws, &settings, &pair) as usize] += 1;
        }
    }
    println!("{met:?}");
    let causes: BTreeSet<usize> = (0..11).filter(|&cause| met[cause] >= 20).collect();
    assert!(causes.into_iter().eq([0, 1, 2, 4, 5, 9, 10]), "{met:?}");
}

/// As before the joiner is timed.
#[cfg(feature = "ours")]
#[test]
fn ours_is_the_reference_on_full_pairs() {
    joiner::alike::check(&[joiner::ours().expect("it is linked")]);
}
