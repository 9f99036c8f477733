//! The sender.

use crate::kept::{Kept, Memory, Parts, State};
use crate::settings::{Settings, SENDER_MEMORY};
use crate::told::accepted;
use crate::{calls, Cause};

/// The sender of a link: it makes the frame of each slot.
///
/// `M` is its [`Memory`]. The caller chooses it, because settings differ so much: the rows of the largest take 14 KB, those of small ones a
/// few bytes. [`SENDER_MEMORY`] bytes are enough for any, and [`Settings::sender_memory`] tells how many are needed.
#[derive(Debug)]
pub struct Sender<M = [u8; SENDER_MEMORY]>(Kept<M>);

impl<M: Memory> Sender<M> {
    /// Opens a sender at slot 0, whatever the memory holds.
    pub fn open(settings: Settings, memory: M) -> Result<Sender<M>, Cause> {
        let mut sender = Sender::with(settings, Default::default(), memory)?;
        let Parts { state, rows, .. } = sender.0.parts()?;
        accepted(calls::open_sender(&settings.into(), state, rows))?;
        Ok(sender)
    }

    /// A sender as it was when its state and its rows were saved, with the settings that it was opened with. The memory begins with the
    /// rows.
    pub fn resume(settings: Settings, state: State, memory: M) -> Result<Sender<M>, Cause> {
        let mut sender = Sender::with(settings, state, memory)?;
        // No message is empty: the library refuses this, changes nothing, and tells of a state that is none before it tells of the length.
        match sender.send(&[]) {
            Err(Cause::BadSettings) => Err(Cause::BadSettings),
            _ => Ok(sender),
        }
    }

    /// A sender that keeps this state, with the lengths of these settings.
    fn with(settings: Settings, state: State, memory: M) -> Result<Sender<M>, Cause> {
        Kept::new(state, memory, settings.sender_rows()?, settings.frame_len()?).map(Sender)
    }

    /// Sends a message in the slot due, which then moves on by one: the slot's frame, to be read until the next call.
    pub fn send(&mut self, message: &[u8]) -> Result<&[u8], Cause> {
        let Parts { state, rows, out: frame } = self.0.parts()?;
        accepted(calls::send(state, rows, message, frame))?;
        Ok(frame)
    }

    /// The slot due.
    pub fn slot_due(&self) -> u32 {
        self.0.slot_due()
    }

    /// The state, to be saved together with the rows.
    pub fn state(&self) -> &State {
        &self.0.state
    }

    /// The rows, to be saved together with the state.
    pub fn rows(&self) -> &[u8] {
        self.0.rows()
    }
}
