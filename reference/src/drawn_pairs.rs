//! The drawn pairs of recordings, as RECORDINGS.md describes them: two aerials of one meeting with
//! losses of their own, and the same with changes.

use crate::broadcast::{self, Frames};
use crate::drawn::{self, change, heard, raise};
use crate::frame;
use crate::patterns::Draws;
use crate::play::LONGEST;
use crate::settings::{every_code, Settings};

pub struct Pair {
    pub kind: &'static str,
    pub first: Vec<u8>,
    pub second: Vec<u8>,
}

/// The frames of both recordings.
type Both = [Frames; 2];

/// A change of a pair, of which at least one recording has a frame.
type Change = fn(&mut Draws, &mut Both);

/// The changes of which one is made, or two one after the other: all leave frames of one length.
const OF_FRAMES: [(&str, Change); 8] = [
    ("damaged", |draws, both| in_one(draws, both, drawn::damage)),
    ("header changed", |draws, both| in_one(draws, both, drawn::change_header)),
    ("dropped, doubled or swapped", |draws, both| in_one(draws, both, drawn::rearrange)),
    ("slot changed", |draws, both| in_one(draws, both, drawn::change_slot)),
    ("settings changed", |draws, both| in_one(draws, both, drawn::change_settings)),
    ("a mark and settings", change_mark_and_settings),
    ("several causes", give_causes),
    ("any bodies", draw_bodies),
];

/// The other kinds of pairs of a code.
const OTHERS: [(&str, Change); 5] = [
    ("losses of their own", |_, _| ()),
    ("equal or apart", make_equal_or_apart),
    ("one empty", make_empty),
    ("cut or longer", cut_or_lengthen),
    ("two changes", change_twice),
];

/// All pairs, in the order of RECORDINGS.md.
pub fn pairs() -> Vec<Pair> {
    let mut draws = Draws::from(20261144);
    let mut all = Vec::new();
    for part in [short, long, gaps, widest] {
        all.extend(part(&mut draws));
    }
    for (number, code) in every_code().into_iter().enumerate() {
        all.extend(of_code(&mut draws, number, code));
    }
    all
}

fn pair(kind: &'static str, first: &[u8], second: &[u8]) -> Pair {
    Pair { kind, first: first.to_vec(), second: second.to_vec() }
}

fn of_frames(kind: &'static str, [first, second]: &Both) -> Pair {
    Pair { kind, first: first.concat(), second: second.concat() }
}

/// Lengths 0 to 40 of either recording.
fn short(draws: &mut Draws) -> Vec<Pair> {
    let mut all = Vec::new();
    for length in 0..=40 {
        let code = every_code()[draws.below(4)];
        let sent = broadcast::drawn(draws, code, 3).concat();
        all.push(pair("short, the first", &sent[..length], &sent));
        all.push(pair("short, the second", &sent, &sent[..length]));
        all.push(pair("short, the second alone", &[], &sent[..length]));
        all.push(pair("short, any bytes", &draws.bytes(length), &sent));
    }
    all
}

/// Lengths around 65,536 of either recording.
fn long(draws: &mut Draws) -> Vec<Pair> {
    let mut all = Vec::new();
    // Frames of 16, 64 and 128 bytes, one after the other in either recording.
    for lanes in [1, 25, 57] {
        let settings = Settings { lanes, ..Settings::of_code(1, 1, 1) };
        let one = frame::length(&settings);
        let sent = broadcast::drawn(draws, settings, 2 * (LONGEST / one + 1));
        let every_other = |from: usize| sent[from..].iter().step_by(2).flatten().copied();
        let [even, odd] = [0, 1].map(|from| every_other(from).collect::<Vec<u8>>());
        for length in [LONGEST - one, LONGEST - 1, LONGEST, LONGEST + 1, LONGEST + one] {
            all.push(pair("long, the first", &even[..length], &odd[..LONGEST]));
            all.push(pair("long, the second", &even[..LONGEST], &odd[..length]));
        }
        for length in [LONGEST, LONGEST + 1] {
            all.push(pair("long, any bytes", &draws.bytes(length), &odd[..one]));
            all.push(pair("long, any bytes", &even[..one], &draws.bytes(length)));
        }
    }
    all
}

/// Gaps around 4,095, and a huge one, that both recordings have: before the first frame, later,
/// and later with a frame inside.
fn gaps(draws: &mut Draws) -> Vec<Pair> {
    let mut all = Vec::new();
    for (delay, burst, scattered) in [(1, 1, 1), (2, 2, 1), (3, 2, 2), (4, 4, 2)] {
        let code = Settings::of_code(delay, burst, scattered);
        let frames = broadcast::drawn(draws, code, 2 * code.t() + 6);
        let middle = code.t() + 3;
        for gap in [4094, 4095, 4096, 4097, 4_000_000_000] {
            for (inside, behind) in [(0, 0), (middle, middle), (middle, middle + 1)] {
                let mut raised = frames.clone();
                raise(&mut raised[behind..], gap);
                raise(&mut raised[inside..behind], draws.below(gap as usize) as u32);
                all.push(of_frames("gap", &shared(draws, &raised)));
            }
        }
    }
    all
}

/// 64 lanes.
fn widest(draws: &mut Draws) -> Vec<Pair> {
    let mut all = Vec::new();
    for (delay, burst, scattered) in [(1, 1, 1), (4, 2, 1), (8, 8, 1), (15, 15, 15)] {
        let settings = Settings { lanes: 64, ..Settings::of_code(delay, burst, scattered) };
        let frames = broadcast::drawn(draws, settings, settings.t() + 5);
        all.push(of_frames("64 lanes", &shared(draws, &frames)));
    }
    all
}

/// Each frame in the first recording, in the second or in both.
fn shared(draws: &mut Draws, frames: &Frames) -> Both {
    let mut both: Both = [Vec::new(), Vec::new()];
    for frame in frames {
        let only = draws.below(3);
        for (at, one) in both.iter_mut().enumerate() {
            if only != 1 - at {
                one.push(frame.clone());
            }
        }
    }
    both
}

/// One broadcast of a code, and four pairs made of it, each of the next kind.
fn of_code(draws: &mut Draws, number: usize, code: Settings) -> Vec<Pair> {
    let settings = drawn::settings(draws, code);
    let slots = draws.below(16) + code.t() + 1;
    let frames = broadcast::drawn(draws, settings, slots);
    let kinds: Vec<(&str, Change)> = OTHERS.into_iter().chain(OF_FRAMES).collect();
    let mut all = Vec::new();
    for at in 4 * number..4 * number + 4 {
        let (kind, change) = kinds[at % kinds.len()];
        let mut both = aerials(draws, &settings, &frames);
        if both.iter().any(|one| !one.is_empty()) {
            change(draws, &mut both);
        }
        all.push(of_frames(kind, &both));
    }
    all
}

/// Losses of each recording's own, or losses of both and each other frame in one or in both.
fn aerials(draws: &mut Draws, settings: &Settings, frames: &Frames) -> Both {
    if draws.below(2) == 0 {
        return [0, 1].map(|_| heard(draws, settings, frames));
    }
    let heard = heard(draws, settings, frames);
    shared(draws, &heard)
}

/// A change of one recording, which has a frame.
fn in_one(draws: &mut Draws, both: &mut Both, change: fn(&mut Draws, &mut Frames)) {
    let one = draws.below(2);
    let one = if both[one].is_empty() { 1 - one } else { one };
    change(draws, &mut both[one]);
}

/// Both the same, or the second without the slots of the first.
fn make_equal_or_apart(draws: &mut Draws, [first, second]: &mut Both) {
    match draws.below(3) {
        0 => second.clone_from(first),
        1 => first.clone_from(second),
        _ => second.retain(|frame| of_same_slot(first, frame).is_none()),
    }
}

fn of_same_slot<'a>(frames: &'a Frames, frame: &[u8]) -> Option<&'a Vec<u8>> {
    frames.iter().find(|other| frame::slot(other) == frame::slot(frame))
}

/// One of them is empty, or in one of four times both.
fn make_empty(draws: &mut Draws, [first, second]: &mut Both) {
    let which = draws.below(8);
    if which < 5 {
        first.clear();
    }
    if which >= 3 {
        second.clear();
    }
}

fn cut_or_lengthen(draws: &mut Draws, both: &mut Both) {
    let change = [drawn::cut, drawn::lengthen][draws.below(2)];
    in_one(draws, both, change);
}

/// Another mark or version in one recording, and other settings late in the other.
fn change_mark_and_settings(draws: &mut Draws, both: &mut Both) {
    let one = draws.below(2);
    let (marked, set) = (both[one].len(), both[1 - one].len());
    if marked > 0 {
        let (at, place) = (draws.below(marked), draws.below(5));
        change(draws, &mut both[one][at][place]);
    }
    if set > 0 {
        let (at, place) = (set - 1 - draws.below(set.div_ceil(2)), 5 + draws.below(5));
        change(draws, &mut both[1 - one][at][place]);
    }
}

/// In each recording one frame with another mark, other settings, another slot, or several.
fn give_causes(draws: &mut Draws, both: &mut Both) {
    for one in both.iter_mut().filter(|one| !one.is_empty()) {
        drawn::give_causes(draws, one);
    }
}

/// Bodies that no sender sent, the same where both have a slot.
fn draw_bodies(draws: &mut Draws, [first, second]: &mut Both) {
    drawn::draw_bodies(draws, first);
    drawn::draw_bodies(draws, second);
    for frame in second {
        if let Some(same) = of_same_slot(first, frame) {
            frame.clone_from(same);
        }
    }
}

/// Two changes, one after the other.
fn change_twice(draws: &mut Draws, both: &mut Both) {
    for _ in 0..2 {
        let (_, change) = OF_FRAMES[draws.below(8)];
        if both.iter().any(|one| !one.is_empty()) {
            change(draws, both);
        }
    }
}

#[cfg(test)]
mod tests {
    use super::*;
    use crate::play::play_pair;

    #[test]
    fn every_length_up_to_40_is_met_in_each_place() {
        let all = short(&mut Draws::from(1));
        for length in 0..=40 {
            let first = all.iter().filter(|pair| pair.first.len() == length);
            let second = all.iter().filter(|pair| pair.second.len() == length);
            assert!(first.count() >= 2 && second.count() >= 2);
        }
    }

    #[test]
    fn each_kind_is_met_by_about_as_many_pairs() {
        let all = pairs();
        for (kind, _) in OTHERS.into_iter().chain(OF_FRAMES) {
            let count = all.iter().filter(|pair| pair.kind == kind).count();
            assert!((114..=115).contains(&count), "{kind}: {count}");
        }
    }

    #[test]
    fn a_frame_is_in_the_first_recording_in_the_second_or_in_both() {
        let mut draws = Draws::from(1);
        let frames = broadcast::drawn(&mut draws, Settings::of_code(3, 2, 2), 300);
        let [first, second] = shared(&mut draws, &frames);
        let has = |frame: &&Vec<u8>| [&first, &second].map(|one| one.contains(frame));
        for (first, second) in [(true, false), (false, true), (true, true)] {
            let count = frames.iter().filter(|frame| has(frame) == [first, second]).count();
            assert!((80..120).contains(&count), "{first} {second}: {count}");
        }
    }

    #[test]
    fn a_change_leaves_frames_of_one_length() {
        let mut draws = Draws::from(1);
        let code = Settings::of_code(4, 3, 2);
        let frames = broadcast::drawn(&mut draws, code, 9);
        for (kind, change) in (0..20).flat_map(|_| OF_FRAMES) {
            for from in [3, 9] {
                let mut both = [frames.clone(), frames[from..].to_vec()];
                change(&mut draws, &mut both);
                let one = frame::length(&code);
                assert!(both.iter().flatten().all(|frame| frame.len() == one), "{kind}");
            }
        }
    }

    #[test]
    fn many_pairs_are_played_otherwise_without_either_recording() {
        let mut all = pairs();
        all.retain(|pair| pair.kind == "losses of their own" || pair.kind == "equal or apart");
        let (mut first, mut second) = (0, 0);
        for pair in &all {
            let expected = play_pair(&pair.first, &pair.second);
            first += usize::from(play_pair(&[], &pair.second) != expected);
            second += usize::from(play_pair(&pair.first, &[]) != expected);
        }
        assert!(first > 70 && second > 70, "{first} {second}");
    }
}
