//! The drawn recordings, as RECORDINGS.md describes them: any bytes, the sender's frames with
//! losses, and the same with changes.

use crate::broadcast::{self, set_settings, set_slot, without, Frames};
use crate::frame::{self, HEADER};
use crate::patterns::Draws;
use crate::play::LONGEST;
use crate::settings::{every_code, Settings};

pub struct Recording {
    pub kind: &'static str,
    pub bytes: Vec<u8>,
}

/// A change of some frames, of which there is at least one.
type Change = fn(&mut Draws, &mut Frames);

/// The changes that leave frames of one length.
const OF_FRAMES: [(&str, Change); 8] = [
    ("damaged", damage),
    ("header changed", change_header),
    ("dropped, doubled or swapped", rearrange),
    ("slot changed", change_slot),
    ("settings changed", change_settings),
    ("several causes", give_causes),
    ("another code", change_code),
    ("any bodies", draw_bodies),
];

/// All recordings, in the order of RECORDINGS.md.
pub fn recordings() -> Vec<Recording> {
    let mut draws = Draws::from(20261117);
    let mut all = Vec::new();
    for part in [short, any, long, gaps, widest] {
        all.extend(part(&mut draws));
    }
    for code in every_code() {
        all.extend(of_code(&mut draws, code));
    }
    all
}

fn recording(kind: &'static str, bytes: Vec<u8>) -> Recording {
    Recording { kind, bytes }
}

/// Lengths 0 to 40, eight times.
fn short(draws: &mut Draws) -> Vec<Recording> {
    let mut all = Vec::new();
    for length in (0..8).flat_map(|_| 0..=40) {
        let code = every_code()[draws.below(4)];
        let mut cut = broadcast::drawn(draws, code, 3).concat();
        cut.truncate(length);
        all.push(recording("short, of true frames", cut));
        all.push(recording("short, any bytes", draws.bytes(length)));
        all.push(recording("short, behind a header", headed(draws, length)));
    }
    all
}

/// Any bytes behind a header with accepted settings and slot 0.
fn headed(draws: &mut Draws, length: usize) -> Vec<u8> {
    let code = every_code()[draws.below(372)];
    let settings = settings(draws, code);
    let mut bytes = frame::of(&settings, 0, &[]);
    bytes.extend(draws.bytes(length));
    bytes.truncate(length);
    bytes
}

/// Any bytes of any length, and behind a header any number of whole frames.
fn any(draws: &mut Draws) -> Vec<Recording> {
    let mut all = Vec::new();
    for _ in 0..120 {
        let length = draws.below(3000);
        all.push(recording("any bytes", draws.bytes(length)));
        let mut bytes = headed(draws, HEADER);
        let frames = draws.below(5) + 1;
        let length = frames * frame::length(&frame::settings(&bytes));
        bytes.extend(draws.bytes(length - HEADER));
        all.push(recording("whole frames of any bytes", bytes));
    }
    all
}

/// Lengths around 65,536.
fn long(draws: &mut Draws) -> Vec<Recording> {
    let mut all = Vec::new();
    for length in LONGEST - 6..=LONGEST + 6 {
        all.push(recording("long, any bytes", draws.bytes(length)));
        all.push(recording("long, behind a header", headed(draws, length)));
    }
    // Frames of 16, 64 and 128 bytes.
    for lanes in [1, 25, 57] {
        let settings = Settings { lanes, ..Settings::of_code(1, 1, 1) };
        let one = frame::length(&settings);
        let bytes = broadcast::drawn(draws, settings, LONGEST / one + 1).concat();
        for length in [LONGEST - one, LONGEST - 1, LONGEST, LONGEST + 1, LONGEST + one] {
            all.push(recording("long, of true frames", bytes[..length].to_vec()));
        }
    }
    all
}

/// Gaps around 4,095, before the first frame and later.
fn gaps(draws: &mut Draws) -> Vec<Recording> {
    let codes = [(1, 1, 1), (2, 2, 1), (3, 2, 2), (4, 4, 2), (8, 8, 1), (15, 15, 15)];
    let mut all = Vec::new();
    for (delay, burst, scattered) in codes {
        let code = Settings::of_code(delay, burst, scattered);
        let frames = broadcast::drawn(draws, code, 2 * code.t() + 4);
        for gap in [4094, 4095, 4096, 4097] {
            for first in [0, code.t() + 2] {
                let mut raised = frames.clone();
                raise(&mut raised[first..], gap);
                all.push(recording("gap", raised.concat()));
            }
        }
    }
    all
}

/// 64 lanes, with a burst of B losses from slot 2 on, and with damage as well.
fn widest(draws: &mut Draws) -> Vec<Recording> {
    let mut all = Vec::new();
    for (delay, burst, scattered) in [(1, 1, 1), (4, 2, 1), (8, 8, 1), (15, 1, 1), (15, 15, 15)] {
        let settings = Settings { lanes: 64, ..Settings::of_code(delay, burst, scattered) };
        let frames = broadcast::drawn(draws, settings, settings.t() + 5);
        let mut heard = without(&frames, 2..2 + usize::from(burst));
        all.push(recording("64 lanes", heard.concat()));
        damage(draws, &mut heard);
        all.push(recording("64 lanes, damaged", heard.concat()));
    }
    all
}

/// One broadcast of a code, and a recording of each kind made of it.
fn of_code(draws: &mut Draws, code: Settings) -> Vec<Recording> {
    let settings = settings(draws, code);
    let slots = draws.below(16) + code.t() + 1;
    let frames = broadcast::drawn(draws, settings, slots);
    let others: [(&str, Change); 4] =
        [("true", |_, _| ()), ("cut", cut), ("longer", lengthen), ("two changes", change_twice)];
    let mut all = Vec::new();
    for (kind, change) in others.into_iter().chain(OF_FRAMES) {
        let mut heard = heard(draws, &settings, &frames);
        if !heard.is_empty() {
            change(draws, &mut heard);
        }
        all.push(recording(kind, heard.concat()));
    }
    all
}

/// A code alone with T set to its delay or to more: its window alone makes the delay.
pub fn set_higher(draws: &mut Draws, code: Settings) -> Settings {
    Settings { delay: code.delay + draws.below(256 - code.t()) as u8, ..code }
}

/// A code with a window, seldom a short one, and lanes: seldom many where the code is large.
pub(crate) fn settings(draws: &mut Draws, code: Settings) -> Settings {
    let timed = if draws.below(4) == 0 {
        set_higher(draws, code)
    } else {
        Settings { window: code.delay + 1 + draws.below(255 - code.t()) as u8, ..code }
    };
    let many = draws.below(2 * code.k() * code.k()) == 0;
    let lanes = draws.below(if many { 64 } else { 3 }) as u8 + 1;
    Settings { lanes, ..timed }
}

/// All frames, or those that bursts of up to B + 2 losses leave.
pub(crate) fn heard(draws: &mut Draws, settings: &Settings, frames: &Frames) -> Frames {
    if draws.below(3) == 0 {
        return frames.clone();
    }
    let mut lost = Vec::new();
    for slot in 0..frames.len() {
        if draws.below(12) == 0 {
            lost.extend(slot..slot + draws.below(usize::from(settings.burst) + 2) + 1);
        }
    }
    without(frames, lost)
}

/// Makes another byte of this one.
pub(crate) fn change(draws: &mut Draws, byte: &mut u8) {
    *byte ^= (draws.below(255) + 1) as u8;
}

pub(crate) fn damage(draws: &mut Draws, frames: &mut Frames) {
    for _ in 0..draws.below(3) + 1 {
        let at = draws.below(frames.len());
        let place = HEADER + draws.below(frames[at].len() - HEADER);
        change(draws, &mut frames[at][place]);
    }
}

pub(crate) fn change_header(draws: &mut Draws, frames: &mut Frames) {
    let at = draws.below(frames.len());
    let place = draws.below(HEADER);
    change(draws, &mut frames[at][place]);
}

pub(crate) fn rearrange(draws: &mut Draws, frames: &mut Frames) {
    let at = draws.below(frames.len());
    match draws.below(3) {
        0 => drop(frames.remove(at)),
        1 => frames.insert(at, frames[at].clone()),
        _ => {
            let other = draws.below(frames.len());
            frames.swap(at, other);
        }
    }
}

/// Every slot so much higher.
pub(crate) fn raise(frames: &mut [Vec<u8>], by: u32) {
    for frame in frames {
        let slot = frame::slot(frame).wrapping_add(by);
        set_slot(frame, slot);
    }
}

/// Another slot for a frame alone, or for it and with the same step for all later ones.
pub(crate) fn change_slot(draws: &mut Draws, frames: &mut Frames) {
    let at = draws.below(frames.len());
    let before = at.checked_sub(1).map(|before| frame::slot(&frames[before]));
    let due = before.map_or(0, |slot| slot.wrapping_add(1));
    // Thousands of losses only where they are quickly played.
    let far = if frame::settings(&frames[at]).t() <= 6 { 4095 } else { 95 };
    let above = [1, 2, 5, 40, far, 4096, 4097, u32::MAX].map(|step| due.wrapping_add(step));
    let fixed = [0, 3_999_999_999, 4_000_000_000, 4_294_967_295];
    let slot = [&above[..], &fixed].concat()[draws.below(12)];
    let end = if draws.below(2) == 0 { at + 1 } else { frames.len() };
    let step = slot.wrapping_sub(frame::slot(&frames[at]));
    raise(&mut frames[at..end], step);
}

/// One of W, T, B, N and L of one frame, in one of three times the first.
pub(crate) fn change_settings(draws: &mut Draws, frames: &mut Frames) {
    let any = draws.below(frames.len());
    let at = if draws.below(3) == 0 { 0 } else { any };
    let place = 5 + draws.below(5);
    let byte = frames[at][place];
    let others = [0, byte.wrapping_sub(1), byte.wrapping_add(1), draws.byte().0];
    frames[at][place] = others[draws.below(4)];
}

/// One frame with any of the causes 4, 5 and 6.
pub(crate) fn give_causes(draws: &mut Draws, frames: &mut Frames) {
    let at = draws.below(frames.len());
    let causes = draws.below(7) + 1;
    for (cause, from, count) in [(1, 0, 5), (2, 5, 5), (4, 10, 3)] {
        if causes & cause != 0 {
            let place = from + draws.below(count);
            change(draws, &mut frames[at][place]);
        }
    }
}

/// Every frame is said to be of another code with the same n.
fn change_code(draws: &mut Draws, frames: &mut Frames) {
    let sent = frame::settings(&frames[0]);
    let mut codes = every_code();
    codes.retain(|code| sent.accepted() && code.n() == sent.n());
    if !codes.is_empty() {
        let code = codes[draws.below(codes.len())];
        let said = Settings { window: 255, lanes: sent.lanes, ..code };
        frames.iter_mut().for_each(|frame| set_settings(frame, &said));
    }
}

pub(crate) fn draw_bodies(draws: &mut Draws, frames: &mut Frames) {
    for frame in frames {
        let body = draws.bytes(frame.len() - HEADER);
        frame[HEADER..].copy_from_slice(&body);
    }
}

/// Two changes, one after the other.
fn change_twice(draws: &mut Draws, frames: &mut Frames) {
    for _ in 0..2 {
        let (_, change) = OF_FRAMES[draws.below(8)];
        if !frames.is_empty() {
            change(draws, frames);
        }
    }
}

/// Cut near the end of some frame, or inside it.
pub(crate) fn cut(draws: &mut Draws, frames: &mut Frames) {
    let at = draws.below(frames.len());
    let one = frames[at].len();
    let left = [one - 1, one, 1, draws.below(one)][draws.below(4)];
    frames.truncate(at + 1);
    frames[at].truncate(left);
}

/// Bytes behind the last frame: a few, or about as many as a frame has.
pub(crate) fn lengthen(draws: &mut Draws, frames: &mut Frames) {
    let one = frames[0].len();
    let more = [1, draws.below(40) + 1, one - 1, one, one + 1][draws.below(5)];
    frames.push(draws.bytes(more));
}

#[cfg(test)]
mod tests {
    use super::*;

    #[test]
    fn every_length_up_to_40_is_met_by_each_short_kind() {
        let all = short(&mut Draws::from(1));
        for length in 0..=40 {
            let of_length = all.iter().filter(|recording| recording.bytes.len() == length);
            assert_eq!(of_length.count(), 24);
        }
    }

    #[test]
    fn a_code_has_a_recording_of_each_kind() {
        let all = of_code(&mut Draws::from(1), Settings::of_code(3, 2, 2));
        let mut kinds: Vec<&str> = all.iter().map(|recording| recording.kind).collect();
        kinds.sort_unstable();
        kinds.dedup();
        assert_eq!(kinds.len(), 12);
    }

    #[test]
    fn drawn_settings_keep_the_delay_of_their_code() {
        let mut draws = Draws::from(1);
        let (mut short, mut highest) = (0, 0);
        for code in every_code() {
            let drawn = settings(&mut draws, code);
            assert!(drawn.accepted() && drawn.window > code.delay, "{drawn:?}");
            assert_eq!((drawn.t(), drawn.n()), (code.t(), code.n()));
            short += usize::from(drawn.window <= drawn.delay);
            highest = highest.max(drawn.delay);
        }
        // About one in four has a window no longer than the delay set.
        assert!((60..124).contains(&short) && highest > 240, "{short} {highest}");
    }

    #[test]
    fn a_change_leaves_frames_of_one_length() {
        let mut draws = Draws::from(1);
        let code = Settings::of_code(4, 3, 2);
        let frames = broadcast::drawn(&mut draws, code, 9);
        for (kind, change) in (0..20).flat_map(|_| OF_FRAMES) {
            let mut changed = frames.clone();
            change(&mut draws, &mut changed);
            let one = frame::length(&code);
            assert!(changed.iter().all(|frame| frame.len() == one), "{kind}");
        }
    }
}
