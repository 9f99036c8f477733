//! Two lanes that differ, worked out by hand: whole frames, the rows of both ends, and the messages
//! handed out. The receiver hears the frames written here and not the sender's, so that two ends
//! which only agree with each other fail.
//!
//! The settings are the card's, with L = 2. Symbol i of lane v is byte 2i + v of a message, so
//! lane 0 has case 9's messages, 1 0 and then 0 1, and lane 1 has 1 0 and then 0 0. Everything
//! else is zeros, and in each lane one codeword is not: the one starting at slot 0, of symbol 0 of
//! message 0 and symbol 1 of message 1. Its first symbols are 1 1 in lane 0 and 1 0 in lane 1. By
//! figure 6 the parity in lane 1 is 3 27, and in lane 0 it is 3 + 2 and 27 + 3, the 1 24 that
//! figure 9 has. Symbol p of it travels in slot p, at body bytes 2p and 2p + 1.

#![forbid(unsafe_code)]

use reference::play::hex;
use reference::receiver::{self, Reply};
use reference::sender;
use reference::settings::Settings;
use reference::state::ReceiverState;

/// Bytes that no call of these tests writes.
const FILL: u8 = 0xA5;

const SETTINGS: Settings = Settings { window: 4, delay: 3, burst: 2, scattered: 2, lanes: 2 };

/// The messages of slots 0 to 5: symbol 0 of both lanes, and then symbol 1.
const MESSAGES: [&str; 6] =
    ["0101 0000", "0000 0100", "0000 0000", "0000 0000", "0000 0000", "0000 0000"];

/// The frames of slots 0 to 5: mark and version, settings, slot, and the four symbols.
const FRAMES: [&str; 6] = [
    "544f420001 0403020202 00000000 0101 0000 0000 0000",
    "544f420001 0403020202 00000001 0000 0100 0000 0000",
    "544f420001 0403020202 00000002 0000 0000 0103 0000",
    "544f420001 0403020202 00000003 0000 0000 0000 181b",
    "544f420001 0403020202 00000004 0000 0000 0000 0000",
    "544f420001 0403020202 00000005 0000 0000 0000 0000",
];

/// The bytes that a text in hex stands for; spaces are for reading.
fn bytes(text: &str) -> Vec<u8> {
    let digits = text.replace(' ', "");
    let byte = |at: usize| u8::from_str_radix(&digits[at..at + 2], 16).expect("hex");
    (0..digits.len()).step_by(2).map(byte).collect()
}

/// Rows of a length, in hex, with a space between them.
fn in_rows(rows: &[u8], length: usize) -> String {
    rows.chunks(length).map(hex).collect::<Vec<String>>().join(" ")
}

#[test]
fn the_sender_has_these_frames_and_rows() {
    // Message t is in row t mod 3: message 3 is written over message 0.
    let rows_after = [
        "01010000 00000000 00000000",
        "01010000 00000100 00000000",
        "01010000 00000100 00000000",
        "00000000 00000100 00000000",
        "00000000 00000000 00000000",
        "00000000 00000000 00000000",
    ];
    let mut rows = vec![FILL; 3 * 4];
    let (mut state, opened) = sender::open(SETTINGS, &mut rows);
    assert_eq!(opened, Ok(()));
    for slot in 0..6 {
        let mut frame = vec![FILL; 14 + 8];
        let sent;
        (state, sent) = sender::send(state, &mut rows, &bytes(MESSAGES[slot]), &mut frame);
        assert_eq!(sent, Ok(()));
        assert_eq!(hex(&frame), FRAMES[slot].replace(' ', ""));
        assert_eq!(in_rows(&rows, 4), rows_after[slot]);
    }
}

/// A receiver with its rows.
struct Receiver {
    state: ReceiverState,
    rows: Vec<u8>,
}

impl Receiver {
    fn open() -> Receiver {
        let mut rows = vec![FILL; 5 * 9];
        let (state, opened) = receiver::open(SETTINGS, 0, &mut rows);
        assert_eq!(opened, Ok(()));
        Receiver { state, rows }
    }

    /// What is replied when the frame of the slot due is heard, or lost, with the message buffer.
    fn report(&mut self, lost: bool) -> (Reply, String) {
        let frame = bytes(FRAMES[self.state.due as usize]);
        let mut message = vec![FILL; 4];
        let (state, reply) = if lost {
            receiver::report_loss(self.state, &mut self.rows, &mut message)
        } else {
            receiver::report_frame(self.state, &mut self.rows, &frame, &mut message)
        };
        self.state = state;
        (reply.expect("an accepted report"), in_rows(&message, 2))
    }
}

/// None yet three times, and then messages 0 to 2, whole as sent.
fn every_message_whole() -> Vec<(Reply, String)> {
    let none = (Reply::NoneYet, "0000 0000");
    let whole = |t: usize| (Reply::Whole, MESSAGES[t]);
    let replies = [none, none, none, whole(0), whole(1), whole(2)];
    replies.map(|(reply, message)| (reply, message.to_string())).to_vec()
}

#[test]
fn a_receiver_that_hears_all_has_these_rows_and_messages() {
    let mut receiver = Receiver::open();
    let mut replies: Vec<_> = (0..5).map(|_| receiver.report(false)).collect();
    // Slot t is in row t mod 5: a mark of 1, and the body.
    let rows = "010101000000000000 010000010000000000 010000000001030000 01000000000000181b \
        010000000000000000";
    assert_eq!(in_rows(&receiver.rows, 9), rows);
    replies.push(receiver.report(false));
    assert_eq!(replies, every_message_whole());
    // Slot 5 is written over slot 0.
    assert_eq!(in_rows(&receiver.rows[..9], 9), "010000000000000000");
}

#[test]
fn slots_0_and_1_lost_are_repaired_in_each_lane() {
    // Positions 2 and 3 of the codeword that starts at slot 0 are left: a times 0 16 and b times
    // 2 3. In lane 0 they say 2b = 1 and 16a + 3b = 24, so b is 9 and a is 1; in lane 1 they say
    // 2b = 3 and 16a + 3b = 27, so b is 8 and a is 1. Position 1, 8a + b, is 1 and 0.
    let mut receiver = Receiver::open();
    let mut replies: Vec<_> = (0..5).map(|slot| receiver.report(slot < 2)).collect();
    let rows = "000000000000000000 000000000000000000 010000000001030000 01000000000000181b \
        010000000000000000";
    assert_eq!(in_rows(&receiver.rows, 9), rows);
    replies.push(receiver.report(false));
    assert_eq!(replies, every_message_whole());
}
