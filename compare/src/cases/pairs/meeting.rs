//! A meeting: the frames of one sender, numbered from any slot on, and what each of two aerials
//! recorded of them.

use reference::broadcast::{set_slot, Frames};
use reference::frame;
use reference::settings::Settings;
use reference::state::END;

use crate::call::Call;
use crate::draw::Draws;
use crate::model::{bytes_of, lengths, STATE};

/// A pair as it is to be checked: the settings lent, and the frames of both recordings.
#[derive(Clone)]
pub struct Pair {
    pub settings: [u8; 5],
    pub both: [Frames; 2],
}

impl Pair {
    /// The check of it.
    pub fn call(&self) -> Call {
        let [first, second] = self.both.each_ref().map(|frames| frames.concat());
        Call::pair_cause(self.settings, first, second)
    }

    /// The same with the recordings the other way round.
    pub fn swapped(mut self) -> Pair {
        self.both.swap(0, 1);
        self
    }
}

/// A sender's frames of so many slots, from a drawn slot on, and sometimes with a gap.
pub fn meeting(draws: &mut Draws, settings: Settings, slots: usize) -> Frames {
    let mut frames = sent(draws, &settings, slots);
    let first = first_slot(draws, slots as u32);
    raise(&mut frames, first);
    if draws.once_in(3) {
        let room = u32::MAX - first - (slots as u32 - 1);
        let any = (draws.next() % (u64::from(room) + 1)) as u32;
        let step = draws.one_of(&[1, 255, 256, 65_536, any, room]);
        let at = draws.below(slots);
        raise(&mut frames[at..], step.min(room));
    }
    frames
}

/// The frames of any messages from slot 0 on. They are the library's: of many lanes the reference's
/// would take long, and both sides of a check are lent the same ones.
fn sent(draws: &mut Draws, settings: &Settings, slots: usize) -> Frames {
    let [message, frame, rows, _] = lengths(settings);
    let [mut state, mut rows] = [STATE, rows].map(|length| vec![0; length]);
    assert_eq!(tob::calls::open_sender(&bytes_of(settings), &mut state, &mut rows), 0);
    let mut frames = vec![vec![0; frame]; slots];
    for frame in &mut frames {
        assert_eq!(tob::calls::send(&mut state, &mut rows, &draws.bytes(message), frame), 0);
    }
    frames
}

/// The first of so many slots: 0, low, about a number at which a byte of the slot or its sign
/// changes, about the last slot, past it, or any. There is room for all of them.
fn first_slot(draws: &mut Draws, slots: u32) -> u32 {
    let back = draws.below(slots as usize) as u32;
    let about = [1 << 8, 1 << 16, 1 << 24, 1 << 31, END].map(|slot| slot - back);
    let [low, any] = [draws.below(300) as u32, draws.next() as u32];
    let others = [0, low, END - 1, END, END + low, u32::MAX, any];
    draws.one_of(&[&about[..], &others].concat()).min(u32::MAX - (slots - 1))
}

/// Every slot so much higher; there is room for it.
pub fn raise(frames: &mut [Vec<u8>], by: u32) {
    for frame in frames {
        let slot = frame::slot(frame) + by;
        set_slot(frame, slot);
    }
}

/// What two aerials recorded of two frames or more: each has losses of its own, but two frames are
/// in both recordings.
pub fn aerials(draws: &mut Draws, frames: &Frames) -> [Frames; 2] {
    let at = draws.below(frames.len() - 1);
    let kept = [at, at + 1 + draws.below(frames.len() - 1 - at)];
    [0, 1].map(|_| {
        let once_in = draws.one_of(&[2, 3, 8]);
        let heard = (0..frames.len()).filter(|at| !draws.once_in(once_in) || kept.contains(at));
        heard.map(|at| frames[at].clone()).collect()
    })
}

/// The places of the frames whose slots both recordings have.
pub fn shared([first, second]: &[Frames; 2]) -> Vec<[usize; 2]> {
    let place = |slot| second.iter().position(|frame| frame::slot(frame) == slot);
    let places = first.iter().map(|frame| place(frame::slot(frame))).enumerate();
    places.filter_map(|(first, second)| Some([first, second?])).collect()
}

#[cfg(test)]
mod tests {
    use super::*;
    use crate::model::by_reference;

    #[test]
    fn a_meeting_rises_and_its_pairs_are_accepted_wherever_it_begins() {
        let mut draws = Draws::of_case(1, 11);
        let code = Settings::of_code(2, 2, 1);
        let [mut past, mut gaps, mut last] = [0; 3];
        for _ in 0..300 {
            let frames = meeting(&mut draws, code, 7);
            let slots: Vec<u32> = frames.iter().map(|frame| frame::slot(frame)).collect();
            assert!(slots.windows(2).all(|two| two[0] < two[1]), "{slots:?}");
            past += usize::from(slots[0] < END && END <= slots[6]);
            gaps += usize::from(slots[6] - slots[0] > 6);
            last += usize::from(slots[6] == u32::MAX);
            let pair = Pair { settings: bytes_of(&code), both: aerials(&mut draws, &frames) };
            let mut call = pair.call();
            assert_eq!(by_reference(call.kind, &mut call.things), 0);
        }
        assert!(past > 20 && gaps > 60 && last > 20, "{past} {gaps} {last}");
    }

    #[test]
    fn two_aerials_share_two_frames_or_more_and_lose_others() {
        let mut draws = Draws::of_case(1, 12);
        let code = Settings::of_code(1, 1, 1);
        let mut apart = [0; 2];
        for slots in (2..12).chain(2..12) {
            let frames = meeting(&mut draws, code, slots);
            let both = aerials(&mut draws, &frames);
            let shared = shared(&both);
            assert!(shared.len() >= 2 && both.iter().all(|one| one.len() <= slots));
            assert!(shared.iter().all(|[i, j]| both[0][*i] == both[1][*j]));
            for (apart, one) in apart.iter_mut().zip(&both) {
                *apart += one.len() - shared.len();
            }
        }
        assert!(apart.iter().all(|count| *count > 10), "{apart:?}");
    }
}
