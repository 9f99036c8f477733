//! Why a call was refused.

use core::error::Error;
use core::fmt;

/// Why a call was refused. It has then changed nothing. Where several causes hold, the one with the smallest number is told.
#[derive(Clone, Copy, Debug, PartialEq, Eq, Hash)]
#[repr(u32)]
pub enum Cause {
    /// The settings are not accepted, or a saved state is not one of this end.
    BadSettings = 1,
    /// A message, a frame or the memory has another length than it should, or a recording is longer than 64 KiB or not a whole number of
    /// frames.
    BadLength = 2,
    /// The last slot, 3,999,999,999, is past.
    PastLastSlot = 3,
    /// A frame has another mark or version.
    OtherMark = 4,
    /// A frame has other settings.
    OtherSettings = 5,
    /// A frame is of another slot than the slot due.
    OtherSlot = 6,
    /// A receiver is to be opened past the last slot.
    LateOpening = 7,
    /// A look-up is of a message whose own slot is still to come, whose last slot is past, or whose number is below 0.
    OutOfReach = 8,
    /// A recording has a slot that is not above the one before it.
    FallingSlots = 9,
    /// Two recordings both have a slot, and any byte of its two frames differs.
    UnlikeFrames = 10,
}

impl Cause {
    /// Every cause, by rising numbers.
    pub const ALL: [Cause; 10] = [
        Cause::BadSettings,
        Cause::BadLength,
        Cause::PastLastSlot,
        Cause::OtherMark,
        Cause::OtherSettings,
        Cause::OtherSlot,
        Cause::LateOpening,
        Cause::OutOfReach,
        Cause::FallingSlots,
        Cause::UnlikeFrames,
    ];

    /// Its number, 1 to 10, as it stands in logs and in `tob.h`.
    pub const fn number(self) -> u32 {
        self as u32
    }

    /// The cause of a number, if it is one.
    pub fn from_number(number: u32) -> Option<Cause> {
        Cause::ALL.into_iter().find(|cause| cause.number() == number)
    }

    /// The cause that a reply tells. Any reply but those of `tob.h` means that another library was linked.
    pub(crate) fn of_reply(reply: u32) -> Cause {
        Cause::from_number(reply).unwrap_or_else(|| panic!("the library replied {reply}, which its header does not list"))
    }
}

impl fmt::Display for Cause {
    fn fmt(&self, f: &mut fmt::Formatter<'_>) -> fmt::Result {
        f.write_str(match self {
            Cause::BadSettings => "the settings are not accepted, or the state is not one of this end",
            Cause::BadLength => "a length is not as it should be",
            Cause::PastLastSlot => "the last slot is past",
            Cause::OtherMark => "the frame has another mark or version",
            Cause::OtherSettings => "the frame has other settings",
            Cause::OtherSlot => "the frame is of another slot than the slot due",
            Cause::LateOpening => "a receiver cannot be opened past the last slot",
            Cause::OutOfReach => "the message is not in reach of a look-up",
            Cause::FallingSlots => "the slots of a recording do not rise",
            Cause::UnlikeFrames => "two recordings have unlike frames of one slot",
        })
    }
}

impl Error for Cause {}
