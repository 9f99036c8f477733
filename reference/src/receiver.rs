//! The receiver: opening, the frame report, the loss report, the look-up (document 02 §6), and
//! the verdict on a message (demand 2), which reports and look-ups share.

use crate::field::Byte;
use crate::frame::{self, body_length, message_length, place};
use crate::linear::{answer, Answer};
use crate::matrix::Matrix;
use crate::settings::Settings;
use crate::state::{
    check_length, check_number, check_opening_slot, check_settings, check_slot_due, refuse_if, row,
    ReceiverState, Refusal,
};

/// A row's first byte for received; any other value means lost.
pub const RECEIVED: u8 = 1;
/// The first byte of a row of zeros, which is a lost one.
pub const LOST: u8 = 0;

/// What an accepted report says of message t, when slot t + T is reported. An accepted look-up
/// says one of the last three.
#[derive(Clone, Copy, Debug, PartialEq, Eq)]
pub enum Reply {
    NoneYet,
    Lost,
    Clash,
    Whole,
}

/// The length of a row, 1 + n × L.
pub fn row_length(settings: &Settings) -> usize {
    1 + body_length(settings)
}

/// How many rows there are, k + T.
pub fn row_count(settings: &Settings) -> usize {
    settings.k() + settings.t()
}

pub fn rows_length(settings: &Settings) -> usize {
    row_count(settings) * row_length(settings)
}

/// Slot t sits in row t mod (k + T).
fn row_of(settings: &Settings, slot: i64) -> std::ops::Range<usize> {
    row(slot, row_count(settings), row_length(settings))
}

/// Opening at a slot (document 02 §3): each of the k + T slots before it has its row lost if it is
/// 0 or above, and received zeros if it is below 0. At slot 0 it is document 01's opening. A
/// refused opening hands back a state of zeros.
pub fn open(
    settings: Settings,
    slot: u32,
    rows: &mut [u8],
) -> (ReceiverState, Result<(), Refusal>) {
    if let Err(refusal) = check_opening(&settings, slot, rows) {
        return (ReceiverState::ZEROS, Err(refusal));
    }
    let opening = i64::from(slot);
    for earlier in opening - row_count(&settings) as i64..opening {
        let row = &mut rows[row_of(&settings, earlier)];
        row.fill(0);
        row[0] = if earlier >= 0 { LOST } else { RECEIVED };
    }
    (ReceiverState::opened(settings, slot), Ok(()))
}

fn check_opening(settings: &Settings, slot: u32, rows: &[u8]) -> Result<(), Refusal> {
    check_settings(settings)?;
    check_length(rows, rows_length(settings))?;
    check_opening_slot(slot)
}

/// The slot due was heard; a refused call leaves everything unchanged.
pub fn report_frame(
    state: ReceiverState,
    rows: &mut [u8],
    frame: &[u8],
    message: &mut [u8],
) -> (ReceiverState, Result<Reply, Refusal>) {
    if let Err(refusal) = check_frame(&state, rows, frame, message) {
        return (state, Err(refusal));
    }
    // An accepted frame writes 1 and then its body into its slot's row.
    let row = &mut rows[row_of(&state.settings, state.slot())];
    row[0] = RECEIVED;
    row[1..].copy_from_slice(frame::body(frame));
    let after = state.moved_on();
    (after, Ok(reply(&after, rows, message)))
}

/// The slot due was not heard; a refused call leaves everything unchanged.
pub fn report_loss(
    state: ReceiverState,
    rows: &mut [u8],
    message: &mut [u8],
) -> (ReceiverState, Result<Reply, Refusal>) {
    if let Err(refusal) = check_loss(&state, rows, message) {
        return (state, Err(refusal));
    }
    // A reported loss writes zeros over the whole row.
    rows[row_of(&state.settings, state.slot())].fill(0);
    let after = state.moved_on();
    (after, Ok(reply(&after, rows, message)))
}

/// What the slots reported so far say of a message whose last slot is still to come (document 02
/// §6). The buffer is filled as at a report; a refused call leaves it unchanged.
pub fn look_up(
    state: ReceiverState,
    rows: &[u8],
    number: i64,
    message: &mut [u8],
) -> Result<Reply, Refusal> {
    check_look_up(&state, rows, number, message)?;
    Ok(verdict(&state, rows, number, message))
}

fn check_frame(
    state: &ReceiverState,
    rows: &[u8],
    frame: &[u8],
    message: &[u8],
) -> Result<(), Refusal> {
    check_settings(&state.settings)?;
    check_length(rows, rows_length(&state.settings))?;
    check_length(frame, frame::length(&state.settings))?;
    check_length(message, message_length(&state.settings))?;
    check_slot_due(state.due)?;
    frame::check_kind(frame, &state.settings)?;
    refuse_if(frame::slot(frame) != state.due, Refusal::NotTheSlotDue)
}

fn check_loss(state: &ReceiverState, rows: &[u8], message: &[u8]) -> Result<(), Refusal> {
    check_settings(&state.settings)?;
    check_length(rows, rows_length(&state.settings))?;
    check_length(message, message_length(&state.settings))?;
    check_slot_due(state.due)
}

fn check_look_up(
    state: &ReceiverState,
    rows: &[u8],
    number: i64,
    message: &[u8],
) -> Result<(), Refusal> {
    // 1, 2 and 3, as a loss report meets them.
    check_loss(state, rows, message)?;
    check_number(state, number)
}

/// The reply to a report that is in its row and has moved the slot due on: the verdict on the
/// message T slots before the one reported. Where that is before slot 0 there is none yet.
fn reply(state: &ReceiverState, rows: &[u8], message: &mut [u8]) -> Reply {
    let reported = state.slot() - 1;
    let number = reported - state.settings.t() as i64;
    if number < 0 {
        message.fill(0);
        return Reply::NoneYet;
    }
    verdict(state, rows, number, message)
}

/// What the slots below the slot due say of a message. The buffer gets the message when whole;
/// zeros for lost and clash.
fn verdict(state: &ReceiverState, rows: &[u8], number: i64, message: &mut [u8]) -> Reply {
    message.fill(0);
    let answers = answers(state, rows, number);
    if answers.contains(&Answer::Clash) {
        return Reply::Clash;
    }
    if answers.contains(&Answer::Lost) {
        return Reply::Lost;
    }
    for (byte, answer) in message.iter_mut().zip(answers) {
        if let Answer::Whole(Byte(shared)) = answer {
            *byte = shared;
        }
    }
    Reply::Whole
}

/// For each byte of a message, what the codeword that carries it says of it.
fn answers(state: &ReceiverState, rows: &[u8], number: i64) -> Vec<Answer> {
    let settings = &state.settings;
    let matrix = Matrix::of(settings);
    let mut answers = Vec::new();
    for i in 0..settings.k() {
        for lane in 0..settings.lanes as usize {
            let arrived = arrived(state, rows, number - i as i64, lane);
            answers.push(answer(&matrix, &arrived, i));
        }
    }
    answers
}

/// The symbols of the codeword starting at a slot, as far as they arrived: symbol p travels in
/// slot start + p, and what arrived is what the lent rows say. From the slot due on the rows hold
/// older slots, and nothing has arrived.
fn arrived(state: &ReceiverState, rows: &[u8], start: i64, lane: usize) -> Vec<Option<Byte>> {
    let settings = &state.settings;
    let symbol = |p: usize| {
        let slot = start + p as i64;
        let row = &rows[row_of(settings, slot)];
        let known = slot < state.slot() && row[0] == RECEIVED;
        known.then(|| Byte(row[1 + place(settings, p, lane)]))
    };
    (0..settings.n()).map(symbol).collect()
}
