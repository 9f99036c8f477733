//! What the tests share: settings, and the frames of a sender.
#![allow(dead_code)] // each test file takes a part of it

use tob::{Receiver, Sender, Settings};

/// The settings of document 01's figures.
pub const ONE_LANE: Settings = Settings { window: 4, delay: 3, burst: 2, scattered: 2, lanes: 1 };
/// The same in two lanes.
pub const TWO_LANES: Settings = Settings { lanes: 2, ..ONE_LANE };

/// Enough memory for either end with these settings.
pub const MEMORY: usize = 64;

/// A receiver with one lane, at slot 0.
pub fn receiver() -> Receiver<[u8; MEMORY]> {
    Receiver::open(ONE_LANE, [0; MEMORY]).unwrap()
}

/// The frames of these messages from slot 0 on.
pub fn sent(settings: Settings, messages: &[&[u8]]) -> Vec<Vec<u8>> {
    let mut sender = Sender::open(settings, [0xAA; MEMORY]).unwrap();
    messages.iter().map(|message| sender.send(message).unwrap().to_vec()).collect()
}

/// The frames of the messages of document 01's figure 9: 01 00, 00 01, and zeros.
pub fn figure_nine() -> Vec<Vec<u8>> {
    sent(ONE_LANE, &[&[1, 0], &[0, 1], &[0, 0], &[0, 0], &[0, 0], &[0, 0]])
}

/// The frame of a slot with one lane, where all messages are zeros.
pub fn silent(slot: u32) -> Vec<u8> {
    [&b"TOB"[..], &[0, 1], &[4, 3, 2, 2, 1], &slot.to_be_bytes(), &[0; 4]].concat()
}
