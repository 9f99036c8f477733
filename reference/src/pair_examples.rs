//! The example pairs of recordings (document 02 §7), with what is printed for each: two aerials of
//! one meeting, written by the reference's own sender from fixed starts of the draws.

use std::fs;
use std::io;
use std::path::Path;

use crate::broadcast::{self, set_settings, set_slot, without, Frames};
use crate::frame::{self, HEADER};
use crate::patterns::Draws;
use crate::play::{play_pair, FURTHEST, LONGEST};
use crate::recordings::middling;
use crate::settings::Settings;

/// A name, and the recordings of the first and the second aerial.
pub type Example = (&'static str, Vec<u8>, Vec<u8>);

/// Writes NAME.first, NAME.second and NAME.out for each example.
pub fn write(directory: &Path) -> io::Result<()> {
    for (name, first, second) in examples() {
        fs::write(directory.join(format!("{name}.first")), &first)?;
        fs::write(directory.join(format!("{name}.second")), &second)?;
        fs::write(directory.join(format!("{name}.out")), play_pair(&first, &second))?;
    }
    Ok(())
}

pub fn examples() -> Vec<Example> {
    let clean = broadcast::drawn(&mut Draws::from(20261145), middling(), 30);
    let parts = [
        played(&clean),
        damaged(&clean),
        vec![short_window()],
        gaps(),
        full(),
        stopped_by_settings_or_length(&clean),
        stopped_by_a_header(&clean),
        stopped_by_slots_or_bytes(&clean),
    ];
    parts.concat()
}

fn pair(name: &'static str, first: &[Vec<u8>], second: &[Vec<u8>]) -> Example {
    (name, first.concat(), second.concat())
}

/// The frames with a change of one of them.
fn changed(frames: &[Vec<u8>], at: usize, change: impl Fn(&mut [u8])) -> Frames {
    let mut frames = frames.to_vec();
    change(&mut frames[at]);
    frames
}

/// The slots of each so many in turn: those of the first recording, or those of the second.
fn in_turn(frames: &[Vec<u8>], each: usize, second: bool) -> Frames {
    let turns = frames.chunks(each).skip(usize::from(second)).step_by(2);
    turns.flatten().cloned().collect()
}

/// Pairs that are played to their end.
fn played(clean: &Frames) -> Vec<Example> {
    // In either recording more losses in a row than the code repairs; in both at once, B.
    let together = [4..9, 11..17].map(|own| without(clean, own.chain(20..23)));
    let burst = without(clean, 8..11);
    vec![
        pair("together", &together[0], &together[1]),
        pair("equal", &burst, &burst),
        pair("first-empty", &[], &burst),
        pair("second-empty", &burst, &[]),
        pair("both-empty", &[], &[]),
        pair("disjoint", &in_turn(clean, 5, false), &in_turn(clean, 5, true)),
        pair("one-after-the-other", &clean[..14], &clean[14..]),
        pair("second-starts-earlier", &clean[15..], &clean[..20]),
        pair("too-many", &without(clean, 8..16), &without(clean, 12..20)),
    ]
}

/// A body byte of slot 15 is another, in both recordings or in the only one that has the slot.
fn damaged(clean: &Frames) -> Vec<Example> {
    let damaged = changed(clean, 15, |frame| frame[HEADER + 9] ^= 0x40);
    vec![
        pair("damaged", &damaged, &damaged),
        pair("damaged-in-one", &without(clean, [15]), &damaged),
    ]
}

/// W = 3 and T = 9, so that the delay is 2: in either recording bursts that are too long, and in
/// both at once bursts of B as near as they may be.
fn short_window() -> Example {
    let settings = Settings { delay: 9, lanes: 2, ..Settings::of_code(2, 2, 1) };
    let frames = broadcast::drawn(&mut Draws::from(20261146), settings, 20);
    let first = without(&frames, (4..6).chain(8..12));
    let second = without(&frames, (2..6).chain(8..10).chain(14..17));
    pair("short-window", &first, &second)
}

/// So many slots that neither has, behind slot 9, and as many with a frame of the second recording
/// among them.
fn gaps() -> Vec<Example> {
    let frames = broadcast::drawn(&mut Draws::from(20261147), Settings::of_code(3, 2, 2), 4120);
    let furthest = FURTHEST as usize;
    let first = without(&frames[..12 + furthest], 5..10 + furthest);
    let before = &frames[5..10];
    let behind = |gap: usize| [before, &frames[10 + gap..15 + gap]].concat();
    let first_too_far = without(&frames[..15 + furthest], 5..11 + furthest);
    let inside = [before, &frames[2000..2001]].concat();
    vec![
        pair("gap-4095", &first, &behind(furthest)),
        pair("gap-4096", &first_too_far, &behind(furthest + 1)),
        pair("gap-4096-with-a-frame", &first_too_far, &inside),
    ]
}

/// Twice 65,536 bytes in the shortest frames, two slots of the one and two of the other in turn;
/// and a second recording that is a frame longer.
fn full() -> Vec<Example> {
    let settings = Settings::of_code(1, 1, 1);
    let each = LONGEST / frame::length(&settings);
    let frames = broadcast::drawn(&mut Draws::from(20261148), settings, 2 * each);
    vec![
        pair("full", &in_turn(&frames, 2, false), &in_turn(&frames, 2, true)),
        pair("stop-2-a-frame-more", &frames[..1], &frames[..each + 1]),
    ]
}

/// Causes 1 and 2. Of the settings those in the first frame count, and of the lengths both.
fn stopped_by_settings_or_length(clean: &Frames) -> Vec<Example> {
    let refused = Settings { window: middling().burst, ..middling() };
    let narrow = changed(clean, 0, |frame| set_settings(frame, &refused)).concat();
    let marked = changed(clean, 0, |frame| frame[0] = 0).concat();
    let clean = clean.concat();
    let part = &clean[..clean.len() - 1];
    let long = [clean.clone(), vec![0; LONGEST + 1 - clean.len()]].concat();
    let example = |name, first: &[u8], second: &[u8]| (name, first.to_vec(), second.to_vec());
    vec![
        example("stop-1", &narrow, &clean),
        example("stop-1-part", &narrow, part),
        example("stop-2-short", &clean[..HEADER - 1], &clean),
        example("stop-2-short-second", &clean, &clean[..HEADER - 1]),
        example("stop-2-short-alone", &[], &[0; HEADER - 1]),
        example("stop-2-part", &clean, part),
        example("stop-2-long", &clean, &long),
        example("stop-2-before-4", &marked, part),
    ]
}

/// Causes 4 and 5. The frame of slot 20 has them, but for a mark or settings late in the second.
fn stopped_by_a_header(clean: &Frames) -> Vec<Example> {
    // The same n, and so the same length.
    let other = Settings { window: 12, lanes: 4, ..Settings::of_code(5, 3, 1) };
    let (middle, late) = (20, clean.len() - 1);
    let marked = |at: usize| changed(clean, at, |frame| frame[2] = b'C');
    let set = |at: usize| changed(clean, at, |frame| set_settings(frame, &other));
    let version = changed(clean, middle, |frame| frame[4] = 2);
    let all_set: Frames = set_all(clean, &other);
    let falling = [&clean[1..], &clean[..1]].concat();
    vec![
        pair("stop-4-in-first", &marked(middle), &set(late)),
        pair("stop-4-in-second-before-5-in-first", &set(middle), &marked(late)),
        pair("stop-4-version", clean, &version),
        pair("stop-5", &set(middle), clean),
        pair("stop-5-second-of-other-settings", clean, &all_set),
        pair("stop-5-before-9", &falling, &set(late)),
    ]
}

fn set_all(frames: &Frames, settings: &Settings) -> Frames {
    let mut frames = frames.clone();
    frames.iter_mut().for_each(|frame| set_settings(frame, settings));
    frames
}

/// Causes 9, 10 and 6, of which the last is met when the lines before it are printed.
fn stopped_by_slots_or_bytes(clean: &Frames) -> Vec<Example> {
    let last = clean.len() - 1;
    let repeated = [&clean[..], &clean[last..]].concat();
    let mut falling = clean.clone();
    falling.swap(3, 4);
    let differing = changed(clean, last, |frame| frame[frame.len() - 1] ^= 1);
    let huge = changed(clean, last, |frame| set_slot(frame, u32::MAX));
    vec![
        pair("stop-9-equal", clean, &repeated),
        pair("stop-9-falling", &falling, &[]),
        pair("stop-9-before-10", &differing, &falling),
        pair("stop-10", clean, &differing),
        pair("stop-6-huge", &clean[..last], &huge),
    ]
}
