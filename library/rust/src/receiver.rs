//! The receiver.

use crate::kept::{Kept, Memory, Parts, State};
use crate::settings::{Settings, LAST_SLOT, RECEIVER_MEMORY};
use crate::told::{accepted, Known, Told};
use crate::{calls, frame_slot, Cause};

/// The receiver of a link: it is told of each slot what was heard in it, and tells of each message what became of it.
///
/// `M` is its [`Memory`]. The caller chooses it, because settings differ so much: the rows of the largest take 30 KB, those of small ones a
/// few dozen bytes. [`RECEIVER_MEMORY`] bytes are enough for any, and [`Settings::receiver_memory`] tells how many are needed.
///
/// A message that is handed out stands in this memory, and can be read until the next call. So nobody reads an old one after a loss or a
/// refusal:
///
/// ```compile_fail,E0499
/// # let settings = tob::Settings { window: 4, delay: 3, burst: 2, scattered: 2, lanes: 1 };
/// let mut receiver = tob::Receiver::open(settings, [0; 32])?;
/// let told = receiver.lost()?;
/// receiver.lost()?;
/// println!("{told:?}"); // does not compile
/// # Ok::<(), tob::Cause>(())
/// ```
#[derive(Debug)]
pub struct Receiver<M = [u8; RECEIVER_MEMORY]>(Kept<M>);

/// What became of a frame that was received.
#[derive(Clone, Copy, Debug, PartialEq, Eq)]
pub enum Received {
    /// It was reported, after the slots that it skipped.
    Taken,
    /// Its slot was reported before: it was dropped.
    Late,
}

/// The most slots that a received frame may skip. One that is further ahead is not believed; where it should be, a receiver is opened at
/// its slot.
pub const MOST_SKIPPED: u32 = 4_095;

impl<M: Memory> Receiver<M> {
    /// Opens a receiver at slot 0, whatever the memory holds.
    pub fn open(settings: Settings, memory: M) -> Result<Receiver<M>, Cause> {
        Receiver::open_at(settings, 0, memory)
    }

    /// Opens a receiver at a slot, which is then the slot due, whatever the memory holds. The slots before it, from 0 on, are losses.
    pub fn open_at(settings: Settings, slot: u32, memory: M) -> Result<Receiver<M>, Cause> {
        let mut receiver = Receiver::with(settings, Default::default(), memory)?;
        let Parts { state, rows, .. } = receiver.0.parts()?;
        accepted(calls::open_receiver_at(&settings.into(), slot, state, rows))?;
        Ok(receiver)
    }

    /// A receiver as it was when its state and its rows were saved, with the settings that it was opened with. The memory begins with the
    /// rows. The slots since then are losses, which [`receive`](Receiver::receive) reports.
    pub fn resume(settings: Settings, state: State, memory: M) -> Result<Receiver<M>, Cause> {
        let mut receiver = Receiver::with(settings, state, memory)?;
        // No message has this number: the library refuses this, and tells of a state that is none, or of other lengths, before.
        match receiver.look_up(-1) {
            Err(cause @ (Cause::BadSettings | Cause::BadLength)) => Err(cause),
            _ => Ok(receiver),
        }
    }

    /// A receiver that keeps this state, with the lengths of these settings.
    fn with(settings: Settings, state: State, memory: M) -> Result<Receiver<M>, Cause> {
        Kept::new(state, memory, settings.receiver_rows()?, settings.message_len()?).map(Receiver)
    }

    /// Takes a frame as the radio hands it out: reports the slots that it skips as lost, then the frame itself, and tells of each slot what
    /// its report tells. A late frame is dropped. A frame that skips more than [`MOST_SKIPPED`] slots, or is past the last, is refused with
    /// [`Cause::OtherSlot`]. One that is dropped or refused tells nothing and changes nothing.
    pub fn receive(&mut self, frame: &[u8], mut tell: impl FnMut(u32, Told<'_>)) -> Result<Received, Cause> {
        let due = self.slot_due();
        match self.heard(frame) {
            Ok(told) => tell(due, told),
            Err(Cause::OtherSlot) => {
                let slot = frame_slot(frame)?;
                if slot < due {
                    return Ok(Received::Late);
                }
                if slot - due > MOST_SKIPPED || slot > LAST_SLOT {
                    return Err(Cause::OtherSlot);
                }
                for skipped in due..slot {
                    tell(skipped, self.lost()?);
                }
                tell(slot, self.heard(frame)?);
            }
            Err(cause) => return Err(cause),
        }
        Ok(Received::Taken)
    }

    /// Reports the frame that was heard in the slot due, which then moves on by one.
    pub fn heard(&mut self, frame: &[u8]) -> Result<Told<'_>, Cause> {
        let Parts { state, rows, out: message } = self.0.parts()?;
        Told::read(calls::heard(state, rows, frame, message), message)
    }

    /// Reports that the slot due was lost, which then moves on by one.
    pub fn lost(&mut self) -> Result<Told<'_>, Cause> {
        let Parts { state, rows, out: message } = self.0.parts()?;
        Told::read(calls::lost(state, rows, message), message)
    }

    /// Looks a message up by its number before its last slot is reported: what is known of it so far. It may be asked between any two
    /// reports, as often as wanted, and changes nothing for them.
    pub fn look_up(&mut self, number: i64) -> Result<Known<'_>, Cause> {
        let Parts { state, rows, out: message } = self.0.parts()?;
        Known::read(calls::look_up(state, rows, number, message), message)
    }

    /// The slot due.
    pub fn slot_due(&self) -> u32 {
        self.0.slot_due()
    }

    /// The state, to be saved together with the rows.
    pub fn state(&self) -> &State {
        &self.0.state
    }

    /// The rows, to be saved together with the state.
    pub fn rows(&self) -> &[u8] {
        self.0.rows()
    }
}
