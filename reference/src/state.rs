//! "Why a call says no": the states of both ends, the causes, and the checks both ends share.

use crate::settings::Settings;

/// Slots are numbered 0 to 3,999,999,999.
pub const END: u32 = 4_000_000_000;

/// The sender's state: the settings and the slot due.
#[derive(Clone, Copy, Debug, PartialEq, Eq)]
pub struct SenderState {
    pub settings: Settings,
    pub due: u32,
}

impl SenderState {
    /// What a refused opening hands back.
    pub const ZEROS: SenderState = SenderState { settings: Settings::ZEROS, due: 0 };

    /// The state after an accepted opening.
    pub fn opened(settings: Settings) -> SenderState {
        SenderState { settings, due: 0 }
    }

    /// Each accepted send moves the slot due on by one.
    pub fn moved_on(self) -> SenderState {
        SenderState { due: self.due + 1, ..self }
    }

    /// The slot due, for counting back to slots before 0.
    pub fn slot(&self) -> i64 {
        i64::from(self.due)
    }
}

/// The receiver's state: the settings, the opening slot (document 02 §3) and the slot due.
/// A call carries the opening slot along and never asks what it is.
#[derive(Clone, Copy, Debug, PartialEq, Eq)]
pub struct ReceiverState {
    pub settings: Settings,
    pub opened_at: u32,
    pub due: u32,
}

impl ReceiverState {
    /// What a refused opening hands back.
    pub const ZEROS: ReceiverState =
        ReceiverState { settings: Settings::ZEROS, opened_at: 0, due: 0 };

    /// The state after an accepted opening: the slot due starts at the opening slot.
    pub fn opened(settings: Settings, slot: u32) -> ReceiverState {
        ReceiverState { settings, opened_at: slot, due: slot }
    }

    /// Each accepted report moves the slot due on by one.
    pub fn moved_on(self) -> ReceiverState {
        ReceiverState { due: self.due + 1, ..self }
    }

    /// The slot due, for counting back to slots before 0.
    pub fn slot(&self) -> i64 {
        i64::from(self.due)
    }
}

/// The causes, by their numbers. A call meets its own in this order: an opening at a slot 1, 2 and
/// 7, a look-up 1, 2, 3 and 8, the check of a pair of recordings 1, 2, 4, 5, 9 and 10.
#[derive(Clone, Copy, Debug, PartialEq, Eq)]
pub enum Refusal {
    SettingsNotAccepted,
    WrongLength,
    NoSlotLeft,
    MarkOrVersion,
    OtherSettings,
    NotTheSlotDue,
    NoSlotToOpenAt,
    NoMessageToLookUp,
    SlotsNotRising,
    FramesDiffer,
}

impl Refusal {
    /// The number returned.
    pub fn number(self) -> u8 {
        match self {
            Refusal::SettingsNotAccepted => 1,
            Refusal::WrongLength => 2,
            Refusal::NoSlotLeft => 3,
            Refusal::MarkOrVersion => 4,
            Refusal::OtherSettings => 5,
            Refusal::NotTheSlotDue => 6,
            Refusal::NoSlotToOpenAt => 7,
            Refusal::NoMessageToLookUp => 8,
            Refusal::SlotsNotRising => 9,
            Refusal::FramesDiffer => 10,
        }
    }
}

/// A cause that doesn't hold says nothing; one that holds is the refusal.
pub fn refuse_if(holds: bool, refusal: Refusal) -> Result<(), Refusal> {
    if holds { Err(refusal) } else { Ok(()) }
}

/// Cause 1. After it the sizes have a meaning.
pub fn check_settings(settings: &Settings) -> Result<(), Refusal> {
    refuse_if(!settings.accepted(), Refusal::SettingsNotAccepted)
}

/// Cause 2, for one lent thing.
pub fn check_length(lent: &[u8], exact: usize) -> Result<(), Refusal> {
    refuse_if(lent.len() != exact, Refusal::WrongLength)
}

/// Cause 3.
pub fn check_slot_due(due: u32) -> Result<(), Refusal> {
    refuse_if(due >= END, Refusal::NoSlotLeft)
}

/// Cause 7, of document 02 §3.
pub fn check_opening_slot(slot: u32) -> Result<(), Refusal> {
    refuse_if(slot >= END, Refusal::NoSlotToOpenAt)
}

/// Cause 8, of document 02 §6: a look-up is of the last T messages before the slot due, as far as
/// they are 0 or above.
pub fn check_number(state: &ReceiverState, number: i64) -> Result<(), Refusal> {
    let due = state.slot();
    let first = (due - state.settings.t() as i64).max(0);
    refuse_if(number < first || number >= due, Refusal::NoMessageToLookUp)
}

/// The bytes of the row of a slot: row slot mod count, the remainder from 0 up.
pub fn row(slot: i64, count: usize, length: usize) -> std::ops::Range<usize> {
    let start = slot.rem_euclid(count as i64) as usize * length;
    start..start + length
}
