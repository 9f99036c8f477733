//! What is told of a message, and how the replies of the calls are read.

use crate::{calls, Cause};

/// What the report of a slot tells of the message that is due with it.
#[derive(Clone, Copy, Debug, PartialEq, Eq)]
pub enum Told<'a> {
    /// It is too early for a message.
    NoneYet,
    /// The message is whole, and this is it.
    Whole(&'a [u8]),
    /// The message is lost.
    Lost,
    /// The frames contradict each other.
    Clash,
}

/// What a look-up tells of a message before its last slot is reported.
#[derive(Clone, Copy, Debug, PartialEq, Eq)]
pub enum Known<'a> {
    /// The message is whole, and this is it: it may be shown from now on.
    Whole(&'a [u8]),
    /// The message is not known yet.
    Lost,
    /// The frames contradict each other, and nothing should be shown.
    Clash,
}

impl<'a> Told<'a> {
    /// The reply to a report, with the buffer that it wrote.
    pub(crate) fn read(reply: u32, message: &'a [u8]) -> Result<Told<'a>, Cause> {
        match reply {
            calls::NONE_YET => Ok(Told::NoneYet),
            calls::WHOLE => Ok(Told::Whole(message)),
            calls::LOST => Ok(Told::Lost),
            calls::CLASH => Ok(Told::Clash),
            _ => Err(Cause::of_reply(reply)),
        }
    }
}

impl<'a> Known<'a> {
    /// The reply to a look-up, with the buffer that it wrote.
    pub(crate) fn read(reply: u32, message: &'a [u8]) -> Result<Known<'a>, Cause> {
        match reply {
            calls::WHOLE => Ok(Known::Whole(message)),
            calls::LOST => Ok(Known::Lost),
            calls::CLASH => Ok(Known::Clash),
            _ => Err(Cause::of_reply(reply)),
        }
    }
}

/// The reply to any other call: accepted or refused.
pub(crate) fn accepted(reply: u32) -> Result<(), Cause> {
    match reply {
        calls::ACCEPTED => Ok(()),
        _ => Err(Cause::of_reply(reply)),
    }
}
