//! Document 02 §3: a receiver opened at any slot, its rows and state, the refusals of an opening,
//! and the first report behind it.

#![forbid(unsafe_code)]

use reference::broadcast::{self, Frames};
use reference::drawn::set_higher;
use reference::frame::{self, message_length};
use reference::patterns::Draws;
use reference::receiver::{self, row_count, Reply};
use reference::settings::{every_code, Settings};
use reference::state::{ReceiverState, Refusal};

/// Bytes that no call of these tests writes, to see what was written and what was not.
const FILL: u8 = 0xA5;

/// Opening slots of a code: none missed, some, all but one of those remembered, all, and more.
fn slots(code: &Settings) -> [u32; 7] {
    let remembered = row_count(code) as u32;
    [0, 1, remembered - 1, remembered, remembered + 1, 2_000_000_000, 3_999_999_999]
}

/// The state and rows of an accepted opening.
fn opened(settings: Settings, slot: u32) -> (ReceiverState, Vec<u8>) {
    let mut rows = vec![FILL; receiver::rows_length(&settings)];
    let (state, opened) = receiver::open(settings, slot, &mut rows);
    assert_eq!(opened, Ok(()));
    (state, rows)
}

/// Every code alone, with T set to 255, and with three lanes and a wider window.
fn every_settings() -> Vec<Settings> {
    let highest = |code: &Settings| Settings { delay: 255, ..*code };
    let wider = |code: &Settings| Settings { window: code.delay + 9, lanes: 3, ..*code };
    every_code().iter().flat_map(|code| [*code, highest(code), wider(code)]).collect()
}

#[test]
fn row_r_is_lost_exactly_if_r_is_below_the_opening_slot() {
    for settings in every_settings() {
        for slot in slots(&settings) {
            let (state, rows) = opened(settings, slot);
            assert_eq!(state, ReceiverState { settings, opened_at: slot, due: slot });
            for (r, row) in rows.chunks(receiver::row_length(&settings)).enumerate() {
                let first = if (r as u64) < u64::from(slot) { 0 } else { 1 };
                assert_eq!((row[0], row[1..].iter().max()), (first, Some(&0)), "{slot} {r}");
            }
        }
    }
}

#[test]
fn an_opening_at_0_makes_every_row_received_zeros() {
    for settings in every_settings() {
        let (_, rows) = opened(settings, 0);
        let mut row = vec![0; receiver::row_length(&settings)];
        row[0] = 1;
        assert_eq!(rows, row.repeat(row_count(&settings)));
    }
}

#[test]
fn a_receiver_opened_late_is_as_one_that_every_earlier_slot_was_lost_to() {
    for settings in every_settings() {
        let mut buffer = vec![FILL; message_length(&settings)];
        let (mut state, mut rows) = opened(settings, 0);
        for slot in 0..row_count(&settings) as u32 + 3 {
            let late = ReceiverState { opened_at: slot, ..state };
            assert_eq!(opened(settings, slot), (late, rows.clone()));
            (state, _) = receiver::report_loss(state, &mut rows, &mut buffer);
        }
    }
}

#[test]
fn an_opening_is_refused_with_1_before_2_before_7_and_changes_nothing() {
    let good = Settings::of_code(3, 2, 2);
    let bad = Settings { scattered: 0, ..good };
    let exact = receiver::rows_length(&good);
    let zeros = ReceiverState { settings: Settings::ZEROS, opened_at: 0, due: 0 };
    let past = [4_000_000_000, 4_000_000_001, u32::MAX];
    for slot in [0, 5, 3_999_999_999].into_iter().chain(past) {
        let mut refusals = vec![(bad, exact, 1), (bad, exact + 1, 1), (bad, 0, 1)];
        refusals.extend([(good, exact - 1, 2), (good, exact + 1, 2), (good, 0, 2)]);
        refusals.extend(past.contains(&slot).then_some((good, exact, 7)));
        for (settings, length, number) in refusals {
            let mut rows = vec![FILL; length];
            let (state, refused) = receiver::open(settings, slot, &mut rows);
            assert_eq!((state, refused.map_err(Refusal::number)), (zeros, Err(number)));
            assert_eq!(rows, vec![FILL; length]);
        }
    }
    // The last slot is one to open at.
    assert_eq!(opened(good, 3_999_999_999).0.due, 3_999_999_999);
}

/// The messages and frames of the slots from k + T before this one up to it.
fn sent_until(draws: &mut Draws, code: Settings, slot: u32) -> (Vec<Vec<u8>>, Frames) {
    let count = slot.min(row_count(&code) as u32);
    let length = message_length(&code);
    let messages: Vec<Vec<u8>> = (0..=count).map(|_| draws.bytes(length)).collect();
    let frames = broadcast::from(code, slot - count, &messages);
    (messages, frames)
}

#[test]
fn the_first_report_tells_of_the_message_t_slots_before_the_opening() {
    let mut draws = Draws::from(20261124);
    let mut codes_with_whole = 0;
    for code in every_code() {
        let mut whole = 0;
        let (delay, remembered) = (code.t() as u32, row_count(&code) as u32);
        let slots = [delay - 1, delay, remembered, 2_000_000_000, 3_999_999_999];
        for (at, slot) in slots.into_iter().enumerate() {
            // At every other slot T is set higher than the window allows.
            let code = if at % 2 == 0 { code } else { set_higher(&mut draws, code) };
            let (messages, frames) = sent_until(&mut draws, code, slot);
            let (state, mut rows) = opened(code, slot);
            let (heard, mut buffer) = (&frames[frames.len() - 1], vec![FILL; code.k()]);
            assert_eq!(frame::slot(heard), slot);
            let (after, reply) = receiver::report_frame(state, &mut rows, heard, &mut buffer);
            assert_eq!(after, ReceiverState { due: slot + 1, ..state });
            if slot < delay {
                assert_eq!(reply, Ok(Reply::NoneYet));
                continue;
            }
            // The frame heard is the last of the list, and the message told of is T before it.
            let told = &messages[messages.len() - 1 - code.t()];
            let repeats = code.t() == code.burst.into() && code.scattered == 1;
            let one_frame_tells = code.k() == 1 || repeats;
            if one_frame_tells {
                assert_eq!((reply, &buffer), (Ok(Reply::Whole), told), "{code:?} {slot}");
                whole += 1;
            } else if slot >= remembered {
                assert_eq!((reply, &buffer), (Ok(Reply::Lost), &vec![0; code.k()]), "{code:?}");
            } else {
                assert_ne!(reply, Ok(Reply::NoneYet), "{code:?} {slot}");
            }
        }
        codes_with_whole += usize::from(whole > 0);
    }
    // k is 1 in 15 codes, of T = B = N, and 8 codes only repeat; (1,1,1) does both.
    assert_eq!(codes_with_whole, 15 + 8 - 1);
}

#[test]
fn any_opening_slot_is_carried_and_is_no_cause_for_anything() {
    let code = Settings::of_code(3, 3, 2);
    let mut draws = Draws::from(20261125);
    let (messages, frames) = sent_until(&mut draws, code, 40);
    let heard = &frames[frames.len() - 1];
    // Slots 35 to 39 were heard, and slot 35 sits in row 0: message 37 is whole either way.
    let of_frame = |frame: &Vec<u8>| [&[receiver::RECEIVED], frame::body(frame)].concat();
    let rows: Vec<u8> = frames[..row_count(&code)].iter().flat_map(of_frame).collect();
    let report = |opened_at: u32, frame: Option<&[u8]>| {
        let state = ReceiverState { settings: code, opened_at, due: 40 };
        let (mut rows, mut buffer) = (rows.clone(), vec![FILL; code.k()]);
        let (after, reply) = match frame {
            Some(frame) => receiver::report_frame(state, &mut rows, frame, &mut buffer),
            None => receiver::report_loss(state, &mut rows, &mut buffer),
        };
        assert_eq!(after, ReceiverState { due: 40 + u32::from(reply.is_ok()), ..state });
        (reply, rows, buffer)
    };
    for (frame, accepted) in [(None, true), (Some(&heard[..]), true), (Some(&heard[1..]), false)] {
        let at_0 = report(0, frame);
        let buffer = if accepted { &messages[2] } else { &vec![FILL; code.k()] };
        assert_eq!((at_0.0 == Ok(Reply::Whole), &at_0.2), (accepted, buffer));
        for opened_at in [39, 40, 41, 3_999_999_999, 4_000_000_000, u32::MAX] {
            assert_eq!(report(opened_at, frame), at_0);
        }
    }
}
