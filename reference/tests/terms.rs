//! Demand 3 under the wider rule of document 02, §1: every loss pattern of ten slots for some
//! small codes, and for every code drawn patterns with frames heard inside a fade. The same for
//! receivers opened at any slot (document 02, §3), and for windows shorter than the T set (§5).

#![forbid(unsafe_code)]

use reference::broadcast::{self, Frames};
use reference::drawn::set_higher;
use reference::fair::{fades, fair, promised, promised_in_a_fade};
use reference::frame::message_length;
use reference::patterns::Draws;
use reference::receiver::{self, row_count, Reply};
use reference::settings::{every_code, Settings};
use reference::state::{ReceiverState, END};

const SLOTS: usize = 10;

/// Drawn messages from a slot on, and the sender's frames for them.
struct Broadcast {
    code: Settings,
    first: u32,
    messages: Vec<Vec<u8>>,
    frames: Frames,
}

/// The code alone, or as often with a T that may be higher than its window allows.
fn drawn_t(draws: &mut Draws, code: Settings) -> Settings {
    if draws.below(2) == 0 { code } else { set_higher(draws, code) }
}

/// How many messages are promised, how many of them by the wider rule only, and how many are of
/// slots before the opening.
#[derive(Clone, Copy, Debug, Default)]
struct Met {
    promised: usize,
    wider: usize,
    before: usize,
}

impl Met {
    fn and(self, other: Met) -> Met {
        Met {
            promised: self.promised + other.promised,
            wider: self.wider + other.wider,
            before: self.before + other.before,
        }
    }
}

impl Broadcast {
    fn drawn(draws: &mut Draws, code: Settings, first: u32, slots: usize) -> Broadcast {
        let length = message_length(&code);
        let messages: Vec<Vec<u8>> = (0..slots).map(|_| draws.bytes(length)).collect();
        let frames = broadcast::from(code, first, &messages);
        Broadcast { code, first, messages, frames }
    }

    /// The broadcast that a receiver opened at a slot hears so many slots of: it begins k + T
    /// slots earlier, so that every message the receiver is told of is a drawn one.
    fn around(draws: &mut Draws, code: Settings, opened_at: u32, slots: usize) -> Broadcast {
        let earlier = opened_at.min(row_count(&code) as u32);
        Broadcast::drawn(draws, code, opened_at - earlier, earlier as usize + slots)
    }

    /// What was sent in a slot: the message and its frame.
    fn sent(&self, slot: u32) -> (&[u8], &[u8]) {
        let place = (slot - self.first) as usize;
        (&self.messages[place], &self.frames[place])
    }

    /// Plays one pattern to a receiver opened at a slot. Each promised message must be whole, as
    /// sent.
    fn promised(&self, opened_at: u32, lost: &[bool]) -> Met {
        let code = self.code;
        let mut rows = vec![9; receiver::rows_length(&code)];
        let (mut state, _) = receiver::open(code, opened_at, &mut rows);
        let mut buffer = vec![9; message_length(&code)];
        let mut met = Met::default();
        for (slot, &is_lost) in (opened_at..).zip(lost) {
            let reply;
            (state, reply) = if is_lost {
                receiver::report_loss(state, &mut rows, &mut buffer)
            } else {
                receiver::report_frame(state, &mut rows, self.sent(slot).1, &mut buffer)
            };
            // The sender's own frames never clash.
            assert_ne!(reply, Ok(Reply::Clash));
            let due = slot.checked_sub(code.t() as u32);
            assert_eq!(reply == Ok(Reply::NoneYet), due.is_none());
            if let Some(t) = due.filter(|&t| promised(&code, opened_at, lost, t)) {
                let whole = (reply, &buffer[..]) == (Ok(Reply::Whole), self.sent(t).0);
                assert!(whole, "{code:?} {opened_at} {lost:?} {t}");
                met.promised += 1;
                met.wider += usize::from(promised_in_a_fade(&code, opened_at, lost, t));
                met.before += usize::from(t < opened_at);
            }
        }
        let due = opened_at + lost.len() as u32;
        assert_eq!(state, ReceiverState { settings: code, opened_at, due });
        met
    }
}

#[test]
fn every_pattern_of_ten_slots() {
    let mut draws = Draws::from(20261121);
    for (code, wider) in [
        (Settings::of_code(1, 1, 1), false),
        (Settings::of_code(2, 2, 1), false),
        (Settings::of_code(3, 2, 2), false),
        (Settings::of_code(3, 3, 2), false),
        (Settings::of_code(3, 3, 1), true),
        (Settings::of_code(4, 4, 2), true),
        (Settings { window: 7, ..Settings::of_code(5, 4, 1) }, true),
        // The window makes the delay: 2, and 3 of T = 4 and of T = 255.
        (Settings { window: 3, ..Settings::of_code(9, 2, 1) }, false),
        (Settings { window: 4, ..Settings::of_code(4, 2, 2) }, false),
        (Settings { window: 4, ..Settings::of_code(255, 3, 1) }, true),
    ] {
        let sent = Broadcast::drawn(&mut draws, code, 0, SLOTS);
        let mut met = Met::default();
        for bits in 0..1u32 << SLOTS {
            let lost: Vec<bool> = (0..SLOTS).map(|slot| bits >> slot & 1 == 1).collect();
            met = met.and(sent.promised(0, &lost));
        }
        assert!(met.promised > 500 && (met.wider > 50) == wider, "{code:?} {met:?}");
        assert_eq!(met.before, 0);
    }
}

/// A fade, W − 1 heard slots or a few more, another fade, and the T slots behind its last one.
fn two_fades(draws: &mut Draws, code: &Settings, fades: &[Vec<bool>]) -> Vec<bool> {
    let mut lost = vec![false; draws.below(code.t() + 1)];
    lost.extend(&fades[draws.below(fades.len())]);
    lost.resize(lost.len() + code.t() + draws.below(3), false);
    lost.extend(&fades[draws.below(fades.len())]);
    lost.resize(lost.len() + code.t(), false);
    lost
}

/// A fade, and before and after it losses wherever every stretch stays fair.
fn fade_and_losses(draws: &mut Draws, code: &Settings, fades: &[Vec<bool>]) -> Vec<bool> {
    let fade = &fades[draws.below(fades.len())];
    let from = draws.below(code.t() + 1);
    let end = from + fade.len();
    let mut lost = vec![false; end + code.t()];
    lost[from..end].copy_from_slice(fade);
    for slot in (0..lost.len()).filter(|slot| !(from..end).contains(slot)) {
        lost[slot] = draws.below(2) == 0;
        lost[slot] &= lost.windows(usize::from(code.window)).all(|stretch| fair(code, stretch));
    }
    lost
}

#[test]
fn frames_heard_inside_fades_of_every_code() {
    let mut draws = Draws::from(20261122);
    let mut codes = 0;
    for code in every_code() {
        let fades = fades(&code);
        if fades.is_empty() {
            continue;
        }
        for drawn in [two_fades, fade_and_losses] {
            let code = drawn_t(&mut draws, code);
            let lost = drawn(&mut draws, &code, &fades);
            let met = Broadcast::drawn(&mut draws, code, 0, lost.len()).promised(0, &lost);
            let all = met.promised == lost.len() - code.t();
            assert!(all && met.wider > 0, "{code:?} {lost:?}");
        }
        codes += 1;
    }
    assert_eq!(codes, every_code().iter().filter(|code| code.scattered + 2 <= code.burst).count());
}

#[test]
fn every_pattern_behind_every_opening_of_small_codes() {
    let mut draws = Draws::from(20261126);
    for code in [
        Settings::of_code(1, 1, 1),
        Settings::of_code(2, 2, 1),
        Settings::of_code(3, 2, 2),
        Settings::of_code(3, 3, 1),
        Settings::of_code(4, 2, 1),
        Settings { window: 3, ..Settings::of_code(9, 2, 1) },
        Settings { window: 4, ..Settings::of_code(255, 2, 2) },
    ] {
        let mut met = Met::default();
        for opened_at in 1..=row_count(&code) as u32 + 1 {
            let sent = Broadcast::around(&mut draws, code, opened_at, 8);
            for bits in 0..1u32 << 8 {
                let lost: Vec<bool> = (0..8).map(|slot| bits >> slot & 1 == 1).collect();
                met = met.and(sent.promised(opened_at, &lost));
            }
        }
        assert!(met.before > 50 && met.promised > met.before, "{code:?} {met:?}");
    }
}

/// The slots at which a receiver is opened, for each code.
fn openings(draws: &mut Draws, code: &Settings) -> [u32; 7] {
    let remembered = row_count(code) as u32;
    let large = 100_000 * (1 + draws.below(32768)) as u32;
    [0, 1, remembered - 1, remembered, remembered + 1, large, END - 1]
}

/// As many losses as leave the last message before the opening promised, tried in a drawn order.
fn sparing(draws: &mut Draws, code: &Settings, opened_at: u32, slots: usize) -> Vec<bool> {
    let mut lost = vec![false; slots];
    let Some(t) = opened_at.checked_sub(1).filter(|_| slots >= code.t()) else {
        return lost;
    };
    let first = draws.below(code.t());
    for slot in (0..code.t()).map(|step| (first + step) % code.t()) {
        lost[slot] = true;
        lost[slot] = promised(code, opened_at, &lost, t);
    }
    lost
}

/// Losses that are fair among themselves, whatever was missed before the opening.
fn fair_losses(draws: &mut Draws, code: &Settings, slots: usize) -> Vec<bool> {
    let window = usize::from(code.window);
    let mut lost = vec![false; slots];
    for slot in 0..slots {
        lost[slot] = draws.below(2) == 0;
        lost[slot] &= fair(code, &lost[(slot + 1).saturating_sub(window)..=slot]);
    }
    lost
}

/// The losses behind one opening: none, those that spare a message, and fair or any ones.
fn behind_opening(draws: &mut Draws, code: &Settings, at: u32, slots: usize) -> [Vec<bool>; 3] {
    let third = match draws.below(2) {
        0 => fair_losses(draws, code, slots),
        _ => (0..slots).map(|_| draws.below(3) == 0).collect(),
    };
    [vec![false; slots], sparing(draws, code, at, slots), third]
}

#[test]
fn messages_from_before_the_opening_of_every_code() {
    let mut draws = Draws::from(20261127);
    let mut codes = [0; 3];
    for code in every_code() {
        // A message from before was promised: with nothing lost behind the opening, with losses
        // there before the last such message is due, and with no row that was left received.
        let mut seen = [false; 3];
        for opened_at in openings(&mut draws, &code) {
            let code = drawn_t(&mut draws, code);
            let slots = (code.t() + 2).min((END - opened_at) as usize);
            let sent = Broadcast::around(&mut draws, code, opened_at, slots);
            for lost in behind_opening(&mut draws, &code, opened_at, slots) {
                let before = sent.promised(opened_at, &lost).before > 0;
                seen[0] |= before && !lost.contains(&true);
                seen[1] |= before && lost.iter().take(code.t()).any(|lost| *lost);
                seen[2] |= before && opened_at >= row_count(&code) as u32;
            }
        }
        codes = [0, 1, 2].map(|kind| codes[kind] + usize::from(seen[kind]));
    }
    // An opening at slot 1 misses slot 0 alone: message 0 is promised by every code, and with a
    // second loss where B is 2 or more. Behind a later opening k slots or more are missed.
    let count = |holds: fn(&&Settings) -> bool| every_code().iter().filter(holds).count();
    assert_eq!(codes, [372, 357, 204]);
    assert_eq!(codes[1], count(|code| code.burst >= 2));
    assert_eq!(codes[2], count(|code| code.k() <= code.burst.into()));
}

#[test]
fn slots_before_the_opening_do_not_count_as_heard() {
    let mut draws = Draws::from(20261128);
    let mut codes = 0;
    for code in every_code() {
        let code = drawn_t(&mut draws, code);
        let (opened_at, remembered) = (2_000_000_000, row_count(&code));
        let sent = Broadcast::around(&mut draws, code, opened_at, 1);
        let mut rows = vec![9; receiver::rows_length(&code)];
        let (state, _) = receiver::open(code, opened_at, &mut rows);
        let mut buffer = vec![9; message_length(&code)];
        let heard = sent.sent(opened_at).1;
        let (_, reply) = receiver::report_frame(state, &mut rows, heard, &mut buffer);
        let t = opened_at - code.t() as u32;
        // If they did, the message would be promised as it is to a receiver that heard them.
        let all_heard = vec![false; remembered + 1];
        assert!(promised(&code, opened_at - remembered as u32, &all_heard, t));
        if reply == Ok(Reply::Lost) {
            assert!(!promised(&code, opened_at, &[false], t));
            codes += 1;
        }
    }
    // All but those of which one frame tells a message T slots old.
    assert_eq!(codes, 372 - 22);
}

#[test]
fn fair_losses_of_every_code_with_t_set_to_255() {
    let mut draws = Draws::from(20261131);
    for code in every_code() {
        let (set, slots) = (Settings { delay: 255, ..code }, code.t() + 4);
        let lost = fair_losses(&mut draws, &set, slots);
        let met = Broadcast::drawn(&mut draws, set, 0, slots).promised(0, &lost);
        assert_eq!((met.promised, met.before), (4, 0), "{set:?} {lost:?}");
        // Behind a later opening: the last message before it has so many missed slots in a run.
        let late = 1 + draws.below(row_count(&code) + 1) as u32;
        let missed = code.k().min(late as usize);
        let lost = sparing(&mut draws, &set, late, slots);
        let met = Broadcast::around(&mut draws, set, late, slots).promised(late, &lost);
        assert_eq!(met.before > 0, missed <= code.burst.into(), "{set:?} {late} {lost:?}");
    }
}
