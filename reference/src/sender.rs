//! The sender: opening, and sending one message in the slot due.

use crate::field::Byte;
use crate::frame::{self, body_length, message_length, place};
use crate::linear::codeword;
use crate::matrix::Matrix;
use crate::settings::Settings;
use crate::state::{check_length, check_settings, check_slot_due, row, Refusal, SenderState};

/// n − 1 rows of k × L bytes.
pub fn rows_length(settings: &Settings) -> usize {
    (settings.n() - 1) * message_length(settings)
}

/// Message t sits in row t mod (n − 1).
fn row_of(settings: &Settings, slot: i64) -> std::ops::Range<usize> {
    row(slot, settings.n() - 1, message_length(settings))
}

/// Opening zeroes the sender's rows. A refused opening hands back a state of zeros.
pub fn open(settings: Settings, rows: &mut [u8]) -> (SenderState, Result<(), Refusal>) {
    if let Err(refusal) = check_opening(&settings, rows) {
        return (SenderState::ZEROS, Err(refusal));
    }
    rows.fill(0);
    (SenderState::opened(settings), Ok(()))
}

fn check_opening(settings: &Settings, rows: &[u8]) -> Result<(), Refusal> {
    check_settings(settings)?;
    check_length(rows, rows_length(settings))
}

/// Writes the frame of the slot due; a refused call leaves everything unchanged.
pub fn send(
    state: SenderState,
    rows: &mut [u8],
    message: &[u8],
    frame: &mut [u8],
) -> (SenderState, Result<(), Refusal>) {
    if let Err(refusal) = check_sending(&state, rows, message, frame) {
        return (state, Err(refusal));
    }
    let body = body(&state, rows, message);
    frame.copy_from_slice(&frame::of(&state.settings, state.due, &body));
    // Message t is written over its row, which held message t − n + 1.
    rows[row_of(&state.settings, state.slot())].copy_from_slice(message);
    (state.moved_on(), Ok(()))
}

fn check_sending(
    state: &SenderState,
    rows: &[u8],
    message: &[u8],
    frame: &[u8],
) -> Result<(), Refusal> {
    check_settings(&state.settings)?;
    check_length(rows, rows_length(&state.settings))?;
    check_length(message, message_length(&state.settings))?;
    check_length(frame, frame::length(&state.settings))?;
    check_slot_due(state.due)
}

/// Symbol p of lane v at body byte p × L + v.
fn body(state: &SenderState, rows: &[u8], message: &[u8]) -> Vec<u8> {
    let settings = &state.settings;
    let matrix = Matrix::of(settings);
    let mut body = vec![0; body_length(settings)];
    for p in 0..settings.n() {
        for lane in 0..settings.lanes as usize {
            body[place(settings, p, lane)] = if p < settings.k() {
                // Symbol p of the codeword starting at t − p is symbol p of message t.
                message[place(settings, p, lane)]
            } else {
                let first = first_symbols(settings, rows, state.slot() - p as i64, lane);
                codeword(&matrix, &first)[p].0
            };
        }
    }
    body
}

/// The first k symbols of the codeword starting at a slot, where all their messages are
/// earlier ones: symbol i of message start + i, as the rows hold it.
fn first_symbols(settings: &Settings, rows: &[u8], start: i64, lane: usize) -> Vec<Byte> {
    let symbol = |i: usize| {
        let message = &rows[row_of(settings, start + i as i64)];
        Byte(message[place(settings, i, lane)])
    };
    (0..settings.k()).map(symbol).collect()
}
