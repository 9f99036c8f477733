//! What is read of frames without an end: the slot of one, and whether two recordings go together.

use crate::settings::Settings;
use crate::told::accepted;
use crate::{calls, Cause};

/// The slot of a frame, read from its header alone.
pub fn frame_slot(frame: &[u8]) -> Result<u32, Cause> {
    let mut slot = 0;
    accepted(calls::frame_slot(frame, &mut slot))?;
    Ok(slot)
}

/// Why the recordings that two aerials made of one meeting cannot be fed to a receiver with these settings, if they cannot. A recording is
/// the frames that were heard, back to back, by rising slots.
pub fn pair_cause(settings: Settings, first: &[u8], second: &[u8]) -> Result<(), Cause> {
    accepted(calls::pair_cause(&settings.into(), first, second))
}
