//! Document 02 §7: a receiver fed from a pair of recordings slot by slot, parts as frames and empty
//! ones as losses. It meets no 4, 5 or 6, and a slot that either aerial heard counts as heard.

#![forbid(unsafe_code)]

use reference::broadcast;
use reference::drawn::set_higher;
use reference::fair::{fair, promised};
use reference::frame::{self, message_length};
use reference::pair::{join, pair_cause};
use reference::patterns::Draws;
use reference::receiver::{self, row_count, Reply};
use reference::settings::{every_code, Settings};
use reference::state::{Refusal, END};

/// Two recordings, and the settings of their frames.
struct Pair {
    settings: Settings,
    first: Vec<u8>,
    second: Vec<u8>,
}

/// What a report says: the reply and the message buffer, or the number of the cause.
type Said = Result<(Reply, Vec<u8>), u8>;

impl Pair {
    fn cause(&self) -> u32 {
        pair_cause(&self.settings, &self.first, &self.second)
    }

    /// What a receiver opened at a slot says of so many slots from there on.
    fn fed(&self, opened_at: u32, slots: usize) -> Vec<Said> {
        let mut rows = vec![9; receiver::rows_length(&self.settings)];
        let (mut state, opened) = receiver::open(self.settings, opened_at, &mut rows);
        assert_eq!(opened, Ok(()));
        let mut message = vec![9; message_length(&self.settings)];
        let mut said = Vec::new();
        for slot in (opened_at..).take(slots) {
            let part = join(&self.settings, &self.first, &self.second, slot);
            let reply;
            (state, reply) = match part.bytes(&self.settings, &self.first, &self.second) {
                [] => receiver::report_loss(state, &mut rows, &mut message),
                part => receiver::report_frame(state, &mut rows, part, &mut message),
            };
            said.push(reply.map(|reply| (reply, message.clone())).map_err(Refusal::number));
        }
        said
    }

    /// One of the recordings alone.
    fn alone(&self, first: bool) -> Pair {
        let recording = if first { self.first.clone() } else { self.second.clone() };
        Pair { settings: self.settings, first: recording, second: Vec::new() }
    }
}

/// The code alone, or as often with a T that may be higher than its window allows.
fn drawn_t(draws: &mut Draws, code: Settings) -> Settings {
    if draws.below(2) == 0 { code } else { set_higher(draws, code) }
}

/// The frames of the slots that aren't lost, each in the first recording, the second or both.
fn recorded(draws: &mut Draws, settings: Settings, frames: &[Vec<u8>], lost: &[bool]) -> Pair {
    let (mut first, mut second) = (Vec::new(), Vec::new());
    for (frame, _) in frames.iter().zip(lost).filter(|(_, lost)| !**lost) {
        let who = draws.below(3);
        first.extend(if who != 1 { &frame[..] } else { &[] });
        second.extend(if who != 0 { &frame[..] } else { &[] });
    }
    Pair { settings, first, second }
}

/// So many slots above this one, rising by steps of up to four.
fn rising(draws: &mut Draws, count: usize, above: u32) -> Vec<u32> {
    let mut slot = above;
    let mut next = || {
        slot += 1 + draws.below(4) as u32;
        slot
    };
    (0..count).map(|_| next()).collect()
}

#[test]
fn an_accepted_pair_meets_no_4_5_or_6() {
    let mut draws = Draws::from(20261141);
    let (mut frames, mut ends) = (0, 0);
    for code in every_code().into_iter().step_by(5) {
        let settings = drawn_t(&mut draws, code);
        for above in [0, 2_000_000_000, END - 20, END - 5, u32::MAX - 60] {
            // Bodies that no sender sent, the same in both recordings.
            let slots = rising(&mut draws, 12, above);
            let body = |draws: &mut Draws| draws.bytes(frame::body_length(&settings));
            let any: Vec<Vec<u8>> =
                slots.iter().map(|&slot| frame::of(&settings, slot, &body(&mut draws))).collect();
            let pair = recorded(&mut draws, settings, &any, &vec![false; any.len()]);
            assert_eq!(pair.cause(), 0);
            for opened_at in [0, above, slots[3], END - 1].map(|slot| slot.min(END - 1)) {
                for (slot, said) in (opened_at..).zip(pair.fed(opened_at, 14)) {
                    // From slot 4,000,000,000 on nothing is reported any more.
                    assert_eq!(said.clone().err(), (slot >= END).then_some(3), "{slot} {said:?}");
                    frames += usize::from(slots.contains(&slot) && slot < END);
                    ends += usize::from(slot >= END);
                }
            }
        }
    }
    assert!(frames > 2_500 && ends > 5_000, "{frames} {ends}");
}

/// Losses of which every stretch is fair.
fn fair_losses(draws: &mut Draws, code: &Settings, slots: usize) -> Vec<bool> {
    let window = usize::from(code.window);
    let mut lost = vec![false; slots];
    for slot in 0..slots {
        lost[slot] = draws.below(2) == 0;
        lost[slot] &= fair(code, &lost[(slot + 1).saturating_sub(window)..=slot]);
    }
    lost
}

/// How many of these messages, the first of them due at the first slot from T on, are whole.
fn whole(said: &[Said], settings: &Settings, messages: &[Vec<u8>]) -> usize {
    let due = said[settings.t()..].iter().zip(messages);
    due.filter(|(said, message)| **said == Ok((Reply::Whole, message.to_vec()))).count()
}

#[test]
fn under_fair_losses_of_the_pair_every_message_is_whole() {
    let mut draws = Draws::from(20261142);
    let mut alone_less = [0; 2];
    for code in every_code() {
        let settings = drawn_t(&mut draws, code);
        let slots = 2 * code.t() + 4;
        let length = message_length(&settings);
        let messages: Vec<Vec<u8>> = (0..slots).map(|_| draws.bytes(length)).collect();
        let frames = broadcast::of(settings, &messages);
        let lost = fair_losses(&mut draws, &settings, slots);
        let pair = recorded(&mut draws, settings, &frames, &lost);
        assert_eq!(pair.cause(), 0);
        let due = slots - settings.t();
        let together = whole(&pair.fed(0, slots), &settings, &messages);
        assert_eq!(together, due, "{settings:?} {lost:?}");
        for (less, first) in alone_less.iter_mut().zip([true, false]) {
            let alone = whole(&pair.alone(first).fed(0, slots), &settings, &messages);
            *less += usize::from(alone < due);
        }
    }
    // Nearly always neither recording is enough.
    assert!(alone_less.iter().all(|&codes| codes > 300), "{alone_less:?}");
}

#[test]
fn a_slot_heard_by_either_counts_as_heard_behind_any_opening() {
    let mut draws = Draws::from(20261143);
    let mut met = [0; 3];
    for code in every_code() {
        let settings = drawn_t(&mut draws, code);
        let remembered = row_count(&settings) as u32;
        let high = [1_000_000 + draws.below(9) as u32, END - 4];
        for opened_at in [[0, 1, remembered][draws.below(3)], high[draws.below(2)]] {
            let slots = (code.t() + 4).min((END - opened_at) as usize);
            let earlier = opened_at.min(remembered);
            let length = message_length(&settings);
            let sent = earlier as usize + slots;
            let messages: Vec<Vec<u8>> = (0..sent).map(|_| draws.bytes(length)).collect();
            // Earlier slots are recorded as well, and never asked for.
            let frames = broadcast::from(settings, opened_at - earlier, &messages);
            let once_in = 2 + draws.below(8);
            let lost: Vec<bool> = (0..sent).map(|_| draws.below(once_in) == 0).collect();
            let pair = recorded(&mut draws, settings, &frames, &lost);
            let heard = &lost[earlier as usize..];
            for (slot, said) in (opened_at..).zip(pair.fed(opened_at, slots)) {
                let (reply, message) = said.expect("an accepted report");
                assert_ne!(reply, Reply::Clash);
                let due = slot.checked_sub(settings.t() as u32);
                let Some(t) = due.filter(|&t| promised(&settings, opened_at, heard, t)) else {
                    continue;
                };
                let as_sent = &messages[(t + earlier - opened_at) as usize];
                assert_eq!((reply, &message), (Reply::Whole, as_sent), "{settings:?} {t}");
                met[0] += 1;
                met[1] += usize::from(t < opened_at);
                met[2] += usize::from(heard.contains(&true));
            }
        }
    }
    assert!(met[0] > 800 && met[1] > 200 && met[2] > 400, "{met:?}");
}
