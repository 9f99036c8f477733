//! The receiver but for its sums and its eliminations.

use super::reply;
use super::shape::{due_in_range, exact, opened, set_due, settings};
use super::shape::{Settings, Shape, State, HEADER, MARK, STATE_LEN};

/// The length of a receiver's rows, or 0 for settings that are not accepted.
pub fn receiver_len(settings: &Settings) -> usize {
    Shape::of(settings).map_or(0, |shape| rows_len(&shape))
}

/// The mark and the body.
fn row_len(shape: &Shape) -> usize {
    1 + shape.body()
}

/// The rows of the slots from t − k + 1 to t + T.
fn row_count(shape: &Shape) -> usize {
    shape.k + shape.delay
}

/// All rows.
fn rows_len(shape: &Shape) -> usize {
    row_count(shape) * row_len(shape)
}

/// Opens a receiver.
pub fn open_receiver(settings: &Settings, state: &mut State, rows: &mut [u8]) -> u32 {
    *state = [0; STATE_LEN];
    match Shape::of(settings).and_then(|shape| exact(&[(rows.len(), rows_len(&shape))]).map(|()| shape)) {
        Err(cause) => cause,
        Ok(shape) => {
            *state = opened(settings);
            rows.fill(0);
            rows.chunks_exact_mut(row_len(&shape)).for_each(|row| row[0] = 1);
            reply::ACCEPTED
        }
    }
}

/// Reports the frame that was heard in the slot due. `decide` says what the rows say of the message due.
#[inline(always)]
pub fn heard(
    (state, rows, frame, message): (&mut State, &mut [u8], &[u8], &mut [u8]),
    decide: impl FnOnce(&Window, &mut [u8]) -> u32,
) -> u32 {
    match check_heard(state, rows, frame, message) {
        Err(cause) => cause,
        Ok((shape, due)) => {
            let row = due as usize % row_count(&shape);
            let to = &mut rows[row * row_len(&shape)..][..row_len(&shape)];
            to[0] = 1;
            to[1..].copy_from_slice(&frame[HEADER..]);
            set_due(state, due + 1);
            verdict((&shape, due, row), rows, message, decide)
        }
    }
}

/// Reports that the slot due was lost.
#[inline(always)]
pub fn lost(
    (state, rows, message): (&mut State, &mut [u8], &mut [u8]),
    decide: impl FnOnce(&Window, &mut [u8]) -> u32,
) -> u32 {
    match check_lost(state, rows, message) {
        Err(cause) => cause,
        Ok((shape, due)) => {
            let row = due as usize % row_count(&shape);
            rows[row * row_len(&shape)..][..row_len(&shape)].fill(0);
            set_due(state, due + 1);
            verdict((&shape, due, row), rows, message, decide)
        }
    }
}

/// The sizes and the slot due, or the first cause that holds.
fn check_lost(state: &State, rows: &[u8], message: &[u8]) -> Result<(Shape, u32), u32> {
    let shape = Shape::of(&settings(state))?;
    exact(&[(rows.len(), rows_len(&shape)), (message.len(), shape.message())])?;
    Ok((shape, due_in_range(state)?))
}

/// The same for a report of a frame.
fn check_heard(state: &State, rows: &[u8], frame: &[u8], message: &[u8]) -> Result<(Shape, u32), u32> {
    let shape = Shape::of(&settings(state))?;
    let lengths = [(rows.len(), rows_len(&shape)), (frame.len(), shape.frame()), (message.len(), shape.message())];
    exact(&lengths)?;
    let due = due_in_range(state)?;
    if frame[..5] != MARK {
        return Err(reply::MARK);
    }
    if frame[5..10] != state[..5] {
        return Err(reply::OTHER_SETTINGS);
    }
    if frame[10..14] != due.to_be_bytes() {
        return Err(reply::NOT_DUE);
    }
    Ok((shape, due))
}

/// The verdict on the message due, when the newest row is written; the message buffer gets its bytes.
#[inline(always)]
fn verdict(
    (shape, due, newest): (&Shape, u32, usize),
    rows: &[u8],
    message: &mut [u8],
    decide: impl FnOnce(&Window, &mut [u8]) -> u32,
) -> u32 {
    let early = (due as usize) < shape.delay;
    let verdict = if early { reply::NONE_YET } else { decide(&Window::of(shape, newest, rows), message) };
    if verdict != reply::WHOLE {
        message.fill(0);
    }
    verdict
}

/// The slots from t − k + 1 to t + T, oldest first.
pub struct Window<'a> {
    pub shape: &'a Shape,
    pub rows: &'a [u8],
    /// Where each slot's body begins.
    bodies: [usize; 32],
    /// Bit x is set when slot x was received.
    received: u32,
}

/// The part of a codeword that counts.
pub struct Codeword {
    /// Bit p is set when symbol p is known.
    pub known: u32,
    /// Where each symbol lies in the rows.
    pub at: [usize; 16],
}

impl Window<'_> {
    /// The window whose newest slot is in this row.
    fn of<'a>(shape: &'a Shape, newest: usize, rows: &'a [u8]) -> Window<'a> {
        let (count, length) = (row_count(shape), row_len(shape));
        let (mut bodies, mut received) = ([0; 32], 0);
        let mut row = newest + 1;
        for (x, body) in bodies.iter_mut().enumerate().take(count) {
            if row >= count {
                row -= count;
            }
            *body = row * length + 1;
            received |= u32::from(rows[row * length] == 1) << x;
            row += 1;
        }
        Window { shape, rows, bodies, received }
    }

    /// The codeword that carries symbol i of the message.
    #[inline(always)]
    pub fn codeword(&self, i: usize) -> Codeword {
        let first = self.shape.k - 1 - i;
        let length = self.shape.n.min(self.shape.delay + 1 + i);
        let mut at = [0; 16];
        for (p, place) in at.iter_mut().enumerate().take(length) {
            *place = self.bodies[(first + p) & 31] + p * self.shape.lanes;
        }
        Codeword { known: (self.received >> first) & ((1 << length) - 1), at }
    }

    /// The gravest of the verdicts on the message's symbols, each of which is asked for until there is a clash.
    #[inline(always)]
    pub fn gravest(&self, message: &mut [u8], mut symbol: impl FnMut(usize, &mut [u8]) -> u32) -> u32 {
        let mut verdict = reply::WHOLE;
        for (i, bytes) in message.chunks_exact_mut(self.shape.lanes).enumerate() {
            verdict = verdict.max(symbol(i, bytes));
            if verdict == reply::CLASH {
                break;
            }
        }
        verdict
    }
}

/// What the checks say of a word.
pub fn clash_unless(fits: bool) -> u32 {
    if fits { reply::WHOLE } else { reply::CLASH }
}
