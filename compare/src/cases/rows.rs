//! Rows handed in: calls that start from a state written by hand, anywhere in the range of slots.
//! The sender's rows are any bytes; the receiver's are any, or a true history with losses and damage.
//! In all of them the row of the slot due is of an older slot.

use reference::frame::HEADER;
use reference::receiver::row_count;
use reference::settings::{every_code, Settings};
use reference::state::{ReceiverState, SenderState, END};

use super::ends::End;
use super::history::{Change, History};
use super::look_ups::{self, some_numbers};
use crate::call::{number_of, Call};
use crate::comparison::{Comparison, Difference};
use crate::draw::Draws;
use crate::model::{
    lengths, receiver_bytes, sender_bytes, DUE, STATE, UNREAD_OF_RECEIVER, UNREAD_OF_SENDER,
};

/// Cases with few lanes for each code; one more has 16 lanes, and one 64.
const EACH: usize = 8;
/// Slots of a case with few lanes.
const SLOTS: usize = 4;
/// The most that are few.
const FEW: u8 = 8;

/// The changes of the receiver's rows, by how often they are made.
const CHANGES: [Change; 8] = [
    Change::True,
    Change::Losses,
    Change::Losses,
    Change::Losses,
    Change::Losses,
    Change::Damage,
    Change::AnyBodies,
    Change::AnyBytes,
];

pub fn run(comparison: &mut Comparison) -> Result<(), Difference> {
    for code in every_code() {
        for case in 0..EACH + 2 {
            let mut draws = comparison.case("rows handed in");
            let (lanes, slots) = match case {
                EACH => (16, 2),
                case if case > EACH => (64, 1),
                _ => (lanes(&mut draws, &code), SLOTS),
            };
            let settings = super::settings(&mut draws, &code, lanes);
            let due = due(&mut draws, &settings);
            sends(comparison, &mut draws, SenderState { settings, due }, slots)?;
            let opened_at = opened_at(&mut draws, due);
            let start = ReceiverState { settings, opened_at, due };
            reports(comparison, &mut draws, start, slots)?;
        }
        an_older_ring(comparison, code)?;
    }
    Ok(())
}

/// Few lanes, and seldom many where the code is large.
pub fn lanes(draws: &mut Draws, code: &Settings) -> u8 {
    let many = draws.below(code.k() * code.k()) == 0;
    let any = draws.below(if many { 64 } else { 8 }) as u8 + 1;
    draws.one_of(&[1, 2, 3, 3, any])
}

/// A slot due near 0, near k + T, near the end, or anywhere.
pub fn due(draws: &mut Draws, settings: &Settings) -> u32 {
    let delay = settings.t() as u32;
    let low = draws.below(3 * row_count(settings)) as u32;
    let near_end = END - 1 - draws.below(3) as u32;
    let near_half = (1 << 31) - draws.below(3) as u32;
    let any = super::any_slot(draws);
    draws.one_of(&[delay - 1, delay, delay + 1, low, low, near_end, near_end, near_half, any])
}

/// An opening slot for a state with this slot due: the same, below or above it, past the last
/// slot, or anything. A call only carries it along.
pub fn opened_at(draws: &mut Draws, due: u32) -> u32 {
    let any = draws.next() as u32;
    draws.one_of(&[0, due, due.saturating_sub(1), due + 1, END - 1, END, u32::MAX, any])
}

/// A sender's state, with any bytes where no call reads them.
pub fn any_sender_bytes(draws: &mut Draws, state: &SenderState) -> Vec<u8> {
    let read = &sender_bytes(state)[..UNREAD_OF_SENDER];
    [read, &draws.bytes(STATE - UNREAD_OF_SENDER)].concat()
}

/// A receiver's state, with any bytes where no call reads them.
pub fn any_receiver_bytes(draws: &mut Draws, state: &ReceiverState) -> Vec<u8> {
    let read = &receiver_bytes(state)[..UNREAD_OF_RECEIVER];
    [read, &draws.bytes(STATE - UNREAD_OF_RECEIVER)].concat()
}

/// Sends over any rows, one after the other.
pub fn sends(
    comparison: &mut Comparison,
    draws: &mut Draws,
    start: SenderState,
    slots: usize,
) -> Result<(), Difference> {
    let [message, frame, rows, _] = lengths(&start.settings);
    let mut state = any_sender_bytes(draws, &start);
    let mut rows = draws.bytes(rows);
    for _ in 0..slots {
        let mut call = Call::send(state, rows, draws.bytes(message), draws.bytes(frame));
        comparison.call(&mut call)?;
        (state, rows) = (call.take("state"), call.take("rows"));
    }
    Ok(())
}

/// Reports over a history with some change, one after the other, and look-ups before each. Those of
/// many lanes take the reference long, and are made behind the last report alone.
fn reports(
    comparison: &mut Comparison,
    draws: &mut Draws,
    start: ReceiverState,
    slots: usize,
) -> Result<(), Difference> {
    let settings = start.settings;
    let history = History::drawn(draws, settings, start.due, slots);
    let change = draws.one_of(&CHANGES);
    let rows = history.changed_rows(draws, change);
    let mut receiver = End { state: any_receiver_bytes(draws, &start), rows };
    for slot in (start.due..).take(slots) {
        if settings.lanes <= FEW {
            look_ups(comparison, draws, &settings, &receiver)?;
        }
        let mut call = report(draws, &history, receiver, slot);
        comparison.call(&mut call)?;
        receiver = End::left_by(&mut call);
    }
    look_ups(comparison, draws, &settings, &receiver)
}

/// The report of a slot: its frame, which may be damaged, or a loss.
fn report(draws: &mut Draws, history: &History, receiver: End, slot: u32) -> Call {
    let buffer = draws.bytes(lengths(history.settings())[0]);
    if draws.once_in(2) {
        return Call::lost(receiver.state, receiver.rows, buffer);
    }
    let mut frame = history.frame(slot);
    if draws.once_in(8) {
        let place = HEADER + draws.below(frame.len() - HEADER);
        draws.change(&mut frame[place]);
    }
    Call::heard(receiver.state, receiver.rows, frame, buffer)
}

/// Look-ups of a number in reach, of those beside it and of far ones.
fn look_ups(
    comparison: &mut Comparison,
    draws: &mut Draws,
    settings: &Settings,
    receiver: &End,
) -> Result<(), Difference> {
    let numbers = some_numbers(draws, settings, number_of(&receiver.state[DUE]), 1);
    look_ups::over(comparison, draws, settings, receiver, &numbers)
}

/// All rows are received, and then losses are reported: no old row tells of their messages.
fn an_older_ring(comparison: &mut Comparison, code: Settings) -> Result<(), Difference> {
    let mut draws = comparison.case("rows handed in");
    let settings = super::settings(&mut draws, &code, 1);
    let first = due(&mut draws, &settings).min(END - 4);
    let rows =
        History::drawn(&mut draws, settings, first, 0).changed_rows(&mut draws, Change::True);
    let start = ReceiverState { settings, opened_at: 0, due: first };
    let mut receiver = End { state: any_receiver_bytes(&mut draws, &start), rows };
    for slot in (first..).take(3) {
        let buffer = draws.bytes(lengths(&settings)[0]);
        let mut call = Call::lost(receiver.state, receiver.rows, buffer.clone());
        comparison.call(&mut call)?;
        receiver = End::left_by(&mut call);
        let End { state, rows } = &receiver;
        let mut call = Call::look_up(state.clone(), rows.clone(), slot.into(), buffer);
        if comparison.call(&mut call)? != 18 {
            return Err(comparison.failed(&format!("message {slot} is told by an older row")));
        }
    }
    Ok(())
}
