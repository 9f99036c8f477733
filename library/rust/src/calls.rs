//! The calls as C has them: any slices at all, and one number for what became of them. `../tob.h` says what each does, what it answers,
//! and how long its buffers are.
//!
//! What the library asks of a caller, Rust's references give: a slice's pointer is never null, not even of an empty one, and is valid for
//! its length; and what is lent for writing overlaps nothing else of the call, and nobody else reads or writes it meanwhile.

/// The settings: W, T, B, N, L.
pub type Settings = [u8; 5];

/// The reply to an opening, a send, a pair of recordings or the reading of a slot that is accepted. Refusals reply the numbers of
/// [`Cause`](crate::Cause).
pub const ACCEPTED: u32 = 0;

/// The reply to a report that is accepted, where it is too early for a message.
pub const NONE_YET: u32 = 16;
/// The reply to a report or a look-up that is accepted, where the message is whole.
pub const WHOLE: u32 = 17;
/// The same where the message is lost.
pub const LOST: u32 = 18;
/// The same where the frames contradict each other.
pub const CLASH: u32 = 19;

mod c {
    extern "C" {
        pub fn tob_state_len() -> usize;
        pub fn tob_message_len(settings: *const u8) -> usize;
        pub fn tob_frame_len(settings: *const u8) -> usize;
        pub fn tob_sender_len(settings: *const u8) -> usize;
        pub fn tob_receiver_len(settings: *const u8) -> usize;
        pub fn tob_open_sender(settings: *const u8, state: *mut u8, state_len: usize, rows: *mut u8, rows_len: usize) -> u32;
        pub fn tob_open_receiver(settings: *const u8, state: *mut u8, state_len: usize, rows: *mut u8, rows_len: usize) -> u32;
        pub fn tob_open_receiver_at(
            settings: *const u8,
            slot: u32,
            state: *mut u8,
            state_len: usize,
            rows: *mut u8,
            rows_len: usize,
        ) -> u32;
        pub fn tob_send(
            state: *mut u8,
            state_len: usize,
            rows: *mut u8,
            rows_len: usize,
            message: *const u8,
            message_len: usize,
            frame: *mut u8,
            frame_len: usize,
        ) -> u32;
        pub fn tob_heard(
            state: *mut u8,
            state_len: usize,
            rows: *mut u8,
            rows_len: usize,
            frame: *const u8,
            frame_len: usize,
            message: *mut u8,
            message_len: usize,
        ) -> u32;
        pub fn tob_lost(
            state: *mut u8,
            state_len: usize,
            rows: *mut u8,
            rows_len: usize,
            message: *mut u8,
            message_len: usize,
        ) -> u32;
        pub fn tob_look_up(
            state: *const u8,
            state_len: usize,
            rows: *const u8,
            rows_len: usize,
            number: i64,
            message: *mut u8,
            message_len: usize,
        ) -> u32;
        pub fn tob_pair_cause(
            settings: *const u8,
            first: *const u8,
            first_len: usize,
            second: *const u8,
            second_len: usize,
        ) -> u32;
        pub fn tob_slot_due(state: *const u8, state_len: usize, slot: *mut u32) -> u32;
        pub fn tob_frame_slot(frame: *const u8, frame_len: usize, slot: *mut u32) -> u32;
    }
}

/// The length of a state.
pub fn state_len() -> usize {
    // SAFETY: the call takes nothing.
    unsafe { c::tob_state_len() }
}

/// The length of a message, or 0 for settings that are not accepted.
pub fn message_len(settings: &Settings) -> usize {
    // SAFETY: the settings are five bytes, and are only read.
    unsafe { c::tob_message_len(settings.as_ptr()) }
}

/// The length of a frame, or 0 for settings that are not accepted.
pub fn frame_len(settings: &Settings) -> usize {
    // SAFETY: the settings are five bytes, and are only read.
    unsafe { c::tob_frame_len(settings.as_ptr()) }
}

/// The length of a sender's rows, or 0 for settings that are not accepted.
pub fn sender_len(settings: &Settings) -> usize {
    // SAFETY: the settings are five bytes, and are only read.
    unsafe { c::tob_sender_len(settings.as_ptr()) }
}

/// The length of a receiver's rows, or 0 for settings that are not accepted.
pub fn receiver_len(settings: &Settings) -> usize {
    // SAFETY: the settings are five bytes, and are only read.
    unsafe { c::tob_receiver_len(settings.as_ptr()) }
}

/// Opens a sender.
pub fn open_sender(settings: &Settings, state: &mut [u8], rows: &mut [u8]) -> u32 {
    // SAFETY: the settings are five bytes, and are only read; the state and the rows are whole slices, and lent for this call alone.
    unsafe { c::tob_open_sender(settings.as_ptr(), state.as_mut_ptr(), state.len(), rows.as_mut_ptr(), rows.len()) }
}

/// Opens a receiver at slot 0.
pub fn open_receiver(settings: &Settings, state: &mut [u8], rows: &mut [u8]) -> u32 {
    // SAFETY: the settings are five bytes, and are only read; the state and the rows are whole slices, and lent for this call alone.
    unsafe { c::tob_open_receiver(settings.as_ptr(), state.as_mut_ptr(), state.len(), rows.as_mut_ptr(), rows.len()) }
}

/// Opens a receiver at a slot.
pub fn open_receiver_at(settings: &Settings, slot: u32, state: &mut [u8], rows: &mut [u8]) -> u32 {
    // SAFETY: the settings are five bytes, and are only read; the state and the rows are whole slices, and lent for this call alone.
    unsafe { c::tob_open_receiver_at(settings.as_ptr(), slot, state.as_mut_ptr(), state.len(), rows.as_mut_ptr(), rows.len()) }
}

/// Sends a message in the slot due.
pub fn send(state: &mut [u8], rows: &mut [u8], message: &[u8], frame: &mut [u8]) -> u32 {
    // SAFETY: whole slices; the state, the rows and the frame are lent for this call alone, and the message is only read.
    unsafe {
        c::tob_send(
            state.as_mut_ptr(),
            state.len(),
            rows.as_mut_ptr(),
            rows.len(),
            message.as_ptr(),
            message.len(),
            frame.as_mut_ptr(),
            frame.len(),
        )
    }
}

/// Reports the frame that was heard in the slot due.
pub fn heard(state: &mut [u8], rows: &mut [u8], frame: &[u8], message: &mut [u8]) -> u32 {
    // SAFETY: whole slices; the state, the rows and the message are lent for this call alone, and the frame is only read.
    unsafe {
        c::tob_heard(
            state.as_mut_ptr(),
            state.len(),
            rows.as_mut_ptr(),
            rows.len(),
            frame.as_ptr(),
            frame.len(),
            message.as_mut_ptr(),
            message.len(),
        )
    }
}

/// Reports that the slot due was lost.
pub fn lost(state: &mut [u8], rows: &mut [u8], message: &mut [u8]) -> u32 {
    // SAFETY: whole slices, all lent for this call alone.
    unsafe { c::tob_lost(state.as_mut_ptr(), state.len(), rows.as_mut_ptr(), rows.len(), message.as_mut_ptr(), message.len()) }
}

/// Looks a message up by its number, before its last slot is reported.
pub fn look_up(state: &[u8], rows: &[u8], number: i64, message: &mut [u8]) -> u32 {
    // SAFETY: whole slices; the message is lent for this call alone, and the state and the rows are only read.
    unsafe {
        c::tob_look_up(
            state.as_ptr(),
            state.len(),
            rows.as_ptr(),
            rows.len(),
            number,
            message.as_mut_ptr(),
            message.len(),
        )
    }
}

/// Checks two recordings of one meeting, that of the first aerial and that of the second.
pub fn pair_cause(settings: &Settings, first: &[u8], second: &[u8]) -> u32 {
    // SAFETY: the settings are five bytes, the recordings are whole slices, and all are only read.
    unsafe { c::tob_pair_cause(settings.as_ptr(), first.as_ptr(), first.len(), second.as_ptr(), second.len()) }
}

/// Reads the slot due from the state of either end.
pub fn slot_due(state: &[u8], slot: &mut u32) -> u32 {
    // SAFETY: the state is a whole slice, and only read; the slot is lent for this call alone.
    unsafe { c::tob_slot_due(state.as_ptr(), state.len(), slot) }
}

/// Reads the slot of a frame from its header.
pub fn frame_slot(frame: &[u8], slot: &mut u32) -> u32 {
    // SAFETY: the frame is a whole slice, and only read; the slot is lent for this call alone.
    unsafe { c::tob_frame_slot(frame.as_ptr(), frame.len(), slot) }
}
