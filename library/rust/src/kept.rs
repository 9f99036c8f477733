//! What either end keeps between its calls.

use core::fmt;

use crate::{calls, Cause};

/// A state, as it may be saved.
pub type State = [u8; 20];

/// What an end keeps its rows in, and behind them what it hands out: `[u8; LEN]` or a `Vec<u8>` to own it, or `&mut [u8]` to borrow it, as
/// from a static. It may be longer than needed.
pub trait Memory: AsRef<[u8]> + AsMut<[u8]> {}

impl<M: AsRef<[u8]> + AsMut<[u8]>> Memory for M {}

/// The state and the memory, with how much of it is rows and how much is for a frame or a message that is handed out.
pub(crate) struct Kept<M> {
    pub state: State,
    memory: M,
    rows: usize,
    out: usize,
}

/// The parts that a call is lent.
pub(crate) struct Parts<'a> {
    pub state: &'a mut State,
    pub rows: &'a mut [u8],
    pub out: &'a mut [u8],
}

impl<M: Memory> Kept<M> {
    /// The state and the memory, if that is long enough for so many bytes of rows and of what is handed out.
    pub fn new(state: State, memory: M, rows: usize, out: usize) -> Result<Kept<M>, Cause> {
        let mut kept = Kept { state, memory, rows, out };
        kept.parts()?;
        Ok(kept)
    }

    /// The parts for a call, or a cause where the memory is too short for them.
    pub fn parts(&mut self) -> Result<Parts<'_>, Cause> {
        let (rows, behind) = self.memory.as_mut().split_at_mut_checked(self.rows).ok_or(Cause::BadLength)?;
        let out = behind.get_mut(..self.out).ok_or(Cause::BadLength)?;
        Ok(Parts { state: &mut self.state, rows, out })
    }

    /// The rows alone.
    pub fn rows(&self) -> &[u8] {
        self.memory.as_ref().get(..self.rows).unwrap_or_default()
    }

    /// The slot due. An open end has a state that it can be read from.
    pub fn slot_due(&self) -> u32 {
        let mut slot = 0;
        let reply = calls::slot_due(&self.state, &mut slot);
        debug_assert_eq!(reply, calls::ACCEPTED);
        slot
    }
}

impl<M> fmt::Debug for Kept<M> {
    fn fmt(&self, f: &mut fmt::Formatter<'_>) -> fmt::Result {
        f.debug_struct("Kept").field("state", &self.state).finish_non_exhaustive()
    }
}
