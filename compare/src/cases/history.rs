//! A receiver's rows to be handed in. A true history needs no sender: words of the code are drawn,
//! and their symbols travel in frames. Losses, damage and any bytes are made of it.

use std::ops::Range;

use reference::field::Byte;
use reference::frame::{self, body_length, message_length, place};
use reference::matrix::Matrix;
use reference::receiver::{row_count, row_length, RECEIVED};
use reference::settings::Settings;

use crate::draw::Draws;

/// What becomes of the rows of a true history.
#[derive(Clone, Copy, PartialEq, Eq)]
pub enum Change {
    /// Nothing.
    True,
    /// Some rows are lost.
    Losses,
    /// Some rows are lost, and one byte of some row is another.
    Damage,
    /// Some rows are lost, and the others hold any bodies.
    AnyBodies,
    /// All rows hold any bodies.
    OnlyBodies,
    /// All rows are lost.
    AllLost,
    /// Every byte is any byte.
    AnyBytes,
}

/// The bodies of some slots before and from the slot due on.
pub struct History {
    settings: Settings,
    due: u32,
    /// The first of them is that of slot due − (k + T).
    bodies: Vec<Vec<u8>>,
}

impl History {
    /// A history with the bodies of so many slots from the slot due on.
    pub fn drawn(draws: &mut Draws, settings: Settings, due: u32, slots: usize) -> History {
        let matrix = Matrix::of(&settings);
        let (n, count) = (settings.n(), row_count(&settings) + slots);
        let mut bodies = vec![vec![0; body_length(&settings)]; count];
        // The starts of the words, counted from n − 1 slots before the first body on.
        for start in 0..count + n - 1 {
            for lane in 0..usize::from(settings.lanes) {
                let drawn = (0..settings.k()).map(|_| Byte(draws.byte()));
                let word = matrix.word(&drawn.collect::<Vec<_>>());
                for (p, symbol) in word.into_iter().enumerate() {
                    let slot = (start + p).checked_sub(n - 1);
                    if let Some(body) = slot.and_then(|slot| bodies.get_mut(slot)) {
                        body[place(&settings, p, lane)] = symbol.0;
                    }
                }
            }
        }
        History { settings, due, bodies }
    }

    pub fn settings(&self) -> &Settings {
        &self.settings
    }

    /// The receiver's rows at the slot due, all received.
    pub fn rows(&self) -> Vec<u8> {
        let (count, one) = (row_count(&self.settings), row_length(&self.settings));
        let mut rows = vec![0; count * one];
        for (back, body) in self.bodies[..count].iter().rev().enumerate() {
            let start = self.row_of(i64::from(self.due) - 1 - back as i64);
            rows[start] = RECEIVED;
            rows[start + 1..start + one].copy_from_slice(body);
        }
        rows
    }

    /// Where the row of a slot starts.
    pub fn row_of(&self, slot: i64) -> usize {
        let count = row_count(&self.settings) as i64;
        slot.rem_euclid(count) as usize * row_length(&self.settings)
    }

    /// The rows with these slots lost; those that are not remembered say nothing.
    pub fn rows_without(&self, lost: Range<i64>) -> Vec<u8> {
        let mut rows = self.rows();
        let due = i64::from(self.due);
        let remembered = due - row_count(&self.settings) as i64..due;
        for slot in lost.filter(|slot| remembered.contains(slot)) {
            let start = self.row_of(slot);
            rows[start..start + row_length(&self.settings)].fill(0);
        }
        rows
    }

    /// The message of a slot before the slot due, of those remembered: its symbols travel first in
    /// its own slot.
    pub fn message(&self, slot: i64) -> &[u8] {
        let back = (i64::from(self.due) - slot) as usize;
        &self.bodies[row_count(&self.settings) - back][..message_length(&self.settings)]
    }

    /// The receiver's rows at the slot due, with this change.
    pub fn changed_rows(&self, draws: &mut Draws, change: Change) -> Vec<u8> {
        let one = row_length(&self.settings);
        let mut rows = self.rows();
        let once_in = draws.one_of(&[2, 3, 4, 8, 16]);
        for row in rows.chunks_exact_mut(one) {
            let lost = match change {
                Change::True | Change::OnlyBodies => false,
                Change::AllLost => true,
                _ => draws.once_in(once_in),
            };
            if lost {
                // Only a mark of 1 means received; the bytes of a lost row say nothing.
                row[0] = draws.one_of(&[0, 0, 2, 7, 129, 255]);
            }
            if lost || matches!(change, Change::AnyBodies | Change::OnlyBodies) {
                row[1..].copy_from_slice(&draws.bytes(one - 1));
            }
        }
        if change == Change::Damage {
            let place = draws.below(rows.len() / one) * one + 1 + draws.below(one - 1);
            draws.change(&mut rows[place]);
        }
        if change == Change::AnyBytes {
            rows = draws.bytes(rows.len());
        }
        rows
    }

    /// The frame of a slot from the slot due on.
    pub fn frame(&self, slot: u32) -> Vec<u8> {
        let number = row_count(&self.settings) + (slot - self.due) as usize;
        frame::of(&self.settings, slot, &self.bodies[number])
    }
}
