//! The settings of a link, and the lengths that go with them.

use crate::{calls, Cause};

/// The settings of a link, which are the same at both ends. Whether they are accepted, and every length, the library tells: accepted are
/// those with 1 <= N <= B <= D, D - N + 1 + B <= 16 and 1 <= L <= 64, where D is the smaller of T and W - 1.
#[derive(Clone, Copy, Debug, PartialEq, Eq, Hash)]
pub struct Settings {
    /// W: the stretch of slots that the losses are counted in.
    pub window: u8,
    /// T: how many slots after its own a message is told. It works as W - 1 where that is smaller.
    pub delay: u8,
    /// B: within how many slots in a row all may be lost.
    pub burst: u8,
    /// N: how many slots may be lost that are scattered over the window.
    pub scattered: u8,
    /// L: how many lanes the code runs on.
    pub lanes: u8,
}

/// The last slot.
pub const LAST_SLOT: u32 = 3_999_999_999;
/// The longest message of any settings.
pub const LONGEST_MESSAGE: usize = 15 * 64;
/// The longest frame of any settings.
pub const LONGEST_FRAME: usize = 14 + 16 * 64;
/// The memory that is enough for a sender with any settings.
pub const SENDER_MEMORY: usize = 15 * LONGEST_MESSAGE + LONGEST_FRAME;
/// The memory that is enough for a receiver with any settings.
pub const RECEIVER_MEMORY: usize = 30 * (1 + 16 * 64) + LONGEST_MESSAGE;

impl Settings {
    /// The length of a message.
    pub fn message_len(self) -> Result<usize, Cause> {
        length(calls::message_len(&self.into()))
    }

    /// The length of a frame.
    pub fn frame_len(self) -> Result<usize, Cause> {
        length(calls::frame_len(&self.into()))
    }

    /// The memory of a sender: its rows and a frame.
    pub fn sender_memory(self) -> Result<usize, Cause> {
        Ok(self.sender_rows()? + self.frame_len()?)
    }

    /// The memory of a receiver: its rows and a message.
    pub fn receiver_memory(self) -> Result<usize, Cause> {
        Ok(self.receiver_rows()? + self.message_len()?)
    }

    /// The length of a sender's rows.
    pub(crate) fn sender_rows(self) -> Result<usize, Cause> {
        length(calls::sender_len(&self.into()))
    }

    /// The length of a receiver's rows.
    pub(crate) fn receiver_rows(self) -> Result<usize, Cause> {
        length(calls::receiver_len(&self.into()))
    }
}

/// A length as the library tells it: 0 for settings that are not accepted.
fn length(told: usize) -> Result<usize, Cause> {
    match told {
        0 => Err(Cause::BadSettings),
        _ => Ok(told),
    }
}

/// The five bytes as they stand in a frame.
impl From<Settings> for calls::Settings {
    fn from(settings: Settings) -> calls::Settings {
        [settings.window, settings.delay, settings.burst, settings.scattered, settings.lanes]
    }
}

/// The settings that five bytes of a frame give.
impl From<calls::Settings> for Settings {
    fn from([window, delay, burst, scattered, lanes]: calls::Settings) -> Settings {
        Settings { window, delay, burst, scattered, lanes }
    }
}
