//! A fault for each cause of a pair: with it the pair is refused for that cause, or for one that is
//! checked before it.

use reference::broadcast::{set_settings, set_slot, Frames};
use reference::frame::{self, HEADER};

use super::meeting::{shared, Pair};
use crate::cases::bounds;
use crate::draw::Draws;
use crate::model::settings_of;

/// A fault of a pair.
pub type Fault = fn(&mut Draws, &mut Pair);

/// In the order of checking. They are for pairs of which both recordings have two frames or more,
/// and some slot in common.
pub const OF_PAIR: [(u32, Fault); 6] = [
    (1, refused_settings),
    (2, |draws, pair| in_some(draws, pair, part_of_a_frame)),
    (4, |draws, pair| in_some(draws, pair, other_mark)),
    (5, |draws, pair| in_some(draws, pair, other_settings)),
    (9, |draws, pair| in_some(draws, pair, fall)),
    (10, unlike),
];

/// The settings lent are not accepted, by one byte.
fn refused_settings(draws: &mut Draws, pair: &mut Pair) {
    let [_, _, burst, _, _] = pair.settings;
    // The delay is below B, or no lanes or too many, or no N or one above B.
    let choices = [(0, 0), (0, burst), (4, 0), (4, 65), (4, 255), (3, 0), (3, burst + 1), (2, 255)];
    let (place, byte) = draws.one_of(&choices);
    pair.settings[place] = byte;
}

/// A fault of the first recording, of the second, or one of each.
pub fn in_some(draws: &mut Draws, pair: &mut Pair, fault: impl Fn(&mut Draws, &mut Frames)) {
    let which = draws.below(3);
    for (at, frames) in pair.both.iter_mut().enumerate() {
        if which != 1 - at {
            fault(draws, frames);
        }
    }
}

/// A part of a frame stands behind the others, or is left of the last, or of the first alone.
fn part_of_a_frame(draws: &mut Draws, frames: &mut Frames) {
    let one = frames[0].len();
    let any = draws.below(one - 1) + 1;
    let part = draws.one_of(&[1, HEADER - 1, HEADER, one - 1, any]);
    match draws.below(3) {
        0 => frames.push(draws.bytes(part)),
        1 => frames.last_mut().expect("two frames").truncate(part),
        _ => {
            frames.truncate(1);
            frames[0].truncate(part);
        }
    }
}

/// The first frame, the last or any.
fn any_frame<'a>(draws: &mut Draws, frames: &'a mut Frames) -> &'a mut Vec<u8> {
    let any = draws.below(frames.len());
    let at = draws.one_of(&[0, frames.len() - 1, any]);
    &mut frames[at]
}

/// A frame has another mark or another version.
pub fn other_mark(draws: &mut Draws, frames: &mut Frames) {
    let frame = any_frame(draws, frames);
    if draws.once_in(2) {
        let place = draws.below(3);
        draws.change(&mut frame[place]);
    } else {
        let version = other_version(draws);
        frame[3..5].copy_from_slice(&version);
    }
}

/// A version that is not 1: the next ones, one with the same upper byte or lower byte, or any.
pub fn other_version(draws: &mut Draws) -> [u8; 2] {
    let any = [draws.byte(), draws.byte()];
    let version = draws.one_of(&[[0, 0], [0, 2], [1, 0], [1, 1], [255, 1], [255, 255], any]);
    if version == [0, 1] {
        [0, 2]
    } else {
        version
    }
}

/// A frame has other settings: another byte, another T as set, or others altogether.
pub fn other_settings(draws: &mut Draws, frames: &mut Frames) {
    let frame = any_frame(draws, frames);
    let place = 5 + draws.below(5);
    match draws.below(3) {
        0 => draws.change(&mut frame[place]),
        1 => frame[6] = frame[6].wrapping_add(draws.one_of(&[1, 255])),
        _ => {
            let others = bounds::any(draws);
            if frame[5..10] == others {
                draws.change(&mut frame[place]);
            } else {
                set_settings(frame, &settings_of(others));
            }
        }
    }
}

/// A slot is not above the one before it, of frames whose slots rise: two frames change places, one
/// comes twice, the order is turned round, the last comes first, or a frame has another slot.
fn fall(draws: &mut Draws, frames: &mut Frames) {
    let at = 1 + draws.below(frames.len() - 1);
    let before = frame::slot(&frames[at - 1]);
    match draws.below(5) {
        0 => frames.swap(at - 1, at),
        1 => frames.insert(at, frames[at - 1].clone()),
        2 => frames.reverse(),
        3 => frames.rotate_right(1),
        _ => {
            let slot = draws.one_of(&[0, before, before, before.saturating_sub(1), before / 2]);
            set_slot(&mut frames[at], slot);
        }
    }
}

/// A byte differs between the frames of a slot that both recordings have.
fn unlike(draws: &mut Draws, pair: &mut Pair) {
    let [first, second] = draws.one_of(&shared(&pair.both));
    let frame = match draws.once_in(2) {
        true => &mut pair.both[0][first],
        false => &mut pair.both[1][second],
    };
    let any = HEADER + draws.below(frame.len() - HEADER);
    let place = draws.one_of(&[HEADER, any, frame.len() - 1]);
    draws.change(&mut frame[place]);
}

#[cfg(test)]
mod tests {
    use reference::settings::every_code;

    use super::super::meeting::{aerials, meeting};
    use super::*;
    use crate::model::{by_reference, bytes_of};

    #[test]
    fn each_fault_of_a_pair_is_refused_for_its_cause() {
        let mut draws = Draws::of_case(1, 13);
        for code in every_code() {
            let settings = crate::cases::settings(&mut draws, &code, 1);
            let frames = meeting(&mut draws, settings, 2);
            for (cause, fault) in OF_PAIR {
                let both = aerials(&mut draws, &frames);
                let mut pair = Pair { settings: bytes_of(&settings), both };
                fault(&mut draws, &mut pair);
                let mut call = pair.call();
                assert_eq!(by_reference(call.kind, &mut call.things), cause, "{settings:?}");
            }
        }
    }

    #[test]
    fn a_version_is_never_1_and_often_like_it_in_a_byte() {
        let mut draws = Draws::of_case(1, 14);
        let [mut upper, mut lower] = [0; 2];
        for _ in 0..1000 {
            let version = other_version(&mut draws);
            assert_ne!(version, [0, 1]);
            upper += usize::from(version[0] == 0);
            lower += usize::from(version[1] == 1);
        }
        assert!(upper > 200 && lower > 200, "{upper} {lower}");
    }
}
