//! "Slots, messages, frames": the 14 bytes of a frame's header, and its body.

use crate::settings::Settings;
use crate::state::{refuse_if, Refusal};

/// The mark 54 4F 42 hex.
pub const MARK: [u8; 3] = [0x54, 0x4F, 0x42];
/// The version, 16 bits.
pub const VERSION: u16 = 1;
/// Mark, version, W, T, B, N, L and slot.
pub const HEADER: usize = 14;

/// The length of a message, k × L.
pub fn message_length(settings: &Settings) -> usize {
    settings.k() * settings.lanes as usize
}

/// The length of a body, n × L.
pub fn body_length(settings: &Settings) -> usize {
    settings.n() * settings.lanes as usize
}

/// The length of a frame, 14 + n × L.
pub fn length(settings: &Settings) -> usize {
    HEADER + body_length(settings)
}

/// The place of symbol i of lane v in a message, and of symbol p of lane v in a body.
pub fn place(settings: &Settings, symbol: usize, lane: usize) -> usize {
    symbol * settings.lanes as usize + lane
}

/// The frame of a slot, with this body.
pub fn of(s: &Settings, slot: u32, body: &[u8]) -> Vec<u8> {
    let mut frame = Vec::new();
    frame.extend(MARK);
    frame.extend(VERSION.to_be_bytes());
    frame.extend([s.window, s.delay, s.burst, s.scattered, s.lanes]);
    frame.extend(slot.to_be_bytes());
    frame.extend(body);
    frame
}

// The readers below are for frames of 14 bytes or more.

pub fn mark(frame: &[u8]) -> [u8; 3] {
    [frame[0], frame[1], frame[2]]
}

pub fn version(frame: &[u8]) -> u16 {
    u16::from_be_bytes([frame[3], frame[4]])
}

pub fn settings(frame: &[u8]) -> Settings {
    Settings {
        window: frame[5],
        delay: frame[6],
        burst: frame[7],
        scattered: frame[8],
        lanes: frame[9],
    }
}

pub fn slot(frame: &[u8]) -> u32 {
    u32::from_be_bytes([frame[10], frame[11], frame[12], frame[13]])
}

pub fn body(frame: &[u8]) -> &[u8] {
    &frame[HEADER..]
}

/// Causes 4 and 5: what the frame says of itself beside the receiver's settings.
pub fn check_kind(frame: &[u8], of_receiver: &Settings) -> Result<(), Refusal> {
    let differs = mark(frame) != MARK || version(frame) != VERSION;
    refuse_if(differs, Refusal::MarkOrVersion)?;
    refuse_if(settings(frame) != *of_receiver, Refusal::OtherSettings)
}
