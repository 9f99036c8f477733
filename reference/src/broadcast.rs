//! A broadcast: the sender's frames for a list of messages, one a slot from slot 0 on,
//! and what may become of them on their way into a recording.

use crate::frame::{self, message_length};
use crate::patterns::Draws;
use crate::sender;
use crate::settings::Settings;
use crate::state::SenderState;

/// Frames back to back.
pub type Frames = Vec<Vec<u8>>;

/// The sender's frames for these messages.
pub fn of(settings: Settings, messages: &[Vec<u8>]) -> Frames {
    from(settings, 0, messages)
}

/// The same from a later slot on, when every message before it is zeros: the sender's rows are
/// then as the opening left them, and only the slot due is another.
pub fn from(settings: Settings, slot: u32, messages: &[Vec<u8>]) -> Frames {
    let mut rows = vec![0; sender::rows_length(&settings)];
    let (state, opened) = sender::open(settings, &mut rows);
    assert_eq!(opened, Ok(()));
    let mut state = SenderState { due: slot, ..state };
    let mut frames = vec![vec![0; frame::length(&settings)]; messages.len()];
    for (frame, message) in frames.iter_mut().zip(messages) {
        let sent;
        (state, sent) = sender::send(state, &mut rows, message, frame);
        assert_eq!(sent, Ok(()));
    }
    frames
}

/// A broadcast of so many messages, every byte drawn.
pub fn drawn(draws: &mut Draws, settings: Settings, slots: usize) -> Frames {
    let length = message_length(&settings);
    let messages: Vec<Vec<u8>> = (0..slots).map(|_| draws.bytes(length)).collect();
    of(settings, &messages)
}

/// The frames of all slots but these, of a broadcast.
pub fn without(frames: &[Vec<u8>], lost: impl IntoIterator<Item = usize>) -> Frames {
    let lost: Vec<usize> = lost.into_iter().collect();
    let heard = frames.iter().enumerate().filter(|(slot, _)| !lost.contains(slot));
    heard.map(|(_, frame)| frame.clone()).collect()
}

/// The frame with its slot replaced.
pub fn set_slot(frame: &mut [u8], slot: u32) {
    frame[10..14].copy_from_slice(&slot.to_be_bytes());
}

/// The frame with its W, T, B, N and L replaced.
pub fn set_settings(frame: &mut [u8], s: &Settings) {
    frame[5..10].copy_from_slice(&[s.window, s.delay, s.burst, s.scattered, s.lanes]);
}
