//! The sender but for its sums.

use super::reply;
use super::shape::{due_in_range, exact, opened, set_due, settings};
use super::shape::{Settings, Shape, State, HEADER, MARK, STATE_LEN};

/// The length of a sender's rows, or 0 for settings that are not accepted.
pub fn sender_len(settings: &Settings) -> usize {
    Shape::of(settings).map_or(0, |shape| rows_len(&shape))
}

/// The last n − 1 messages.
fn rows_len(shape: &Shape) -> usize {
    (shape.n - 1) * shape.message()
}

/// Opens a sender.
pub fn open_sender(settings: &Settings, state: &mut State, rows: &mut [u8]) -> u32 {
    let checked = Shape::of(settings).and_then(|shape| exact(&[(rows.len(), rows_len(&shape))]));
    *state = if checked.is_ok() { opened(settings) } else { [0; STATE_LEN] };
    if checked.is_ok() {
        rows.fill(0);
    }
    checked.map_or_else(|cause| cause, |()| reply::ACCEPTED)
}

/// Sends a message in the slot due. `write` gets the rows, the row of the slot due, which is the oldest message's
/// until the message is written there, and the frame's parity symbols.
#[inline(always)]
pub fn send(
    (state, rows, message, frame): (&mut State, &mut [u8], &[u8], &mut [u8]),
    write: impl FnOnce(&Shape, &[u8], usize, &mut [u8]),
) -> u32 {
    match check(state, rows, message, frame) {
        Err(cause) => cause,
        Ok((shape, due)) => {
            write_header(&settings(state), due, frame);
            frame[HEADER..HEADER + message.len()].copy_from_slice(message);
            let row = due as usize % (shape.n - 1);
            write(&shape, rows, row, &mut frame[HEADER + message.len()..]);
            rows[row * message.len()..][..message.len()].copy_from_slice(message);
            set_due(state, due + 1);
            reply::ACCEPTED
        }
    }
}

/// The sizes and the slot due, or the first cause that holds.
fn check(state: &State, rows: &[u8], message: &[u8], frame: &[u8]) -> Result<(Shape, u32), u32> {
    let shape = Shape::of(&settings(state))?;
    exact(&[(rows.len(), rows_len(&shape)), (message.len(), shape.message()), (frame.len(), shape.frame())])?;
    Ok((shape, due_in_range(state)?))
}

/// The 14 bytes before the body.
fn write_header(settings: &Settings, due: u32, frame: &mut [u8]) {
    frame[..5].copy_from_slice(&MARK);
    frame[5..10].copy_from_slice(settings);
    frame[10..14].copy_from_slice(&due.to_be_bytes());
}

/// Where the source symbols lie whose sum is parity symbol r of the slot due.
#[inline(always)]
pub fn sources(shape: &Shape, oldest: usize, r: usize) -> [usize; 16] {
    // The codeword of parity r began k + r slots ago, so its first message is that many rows back.
    let mut row = oldest + shape.n - 1 - (shape.k + r);
    let mut at = [0; 16];
    for (i, place) in at.iter_mut().enumerate().take(shape.k) {
        if row >= shape.n - 1 {
            row -= shape.n - 1;
        }
        *place = row * shape.message() + i * shape.lanes;
        row += 1;
    }
    at
}
