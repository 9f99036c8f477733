//! The two ends: "Figures on the card" 9 to 12, what the rows say, clash before lost, each refusal,
//! and the last slot.

#![forbid(unsafe_code)]

use reference::frame;
use reference::receiver::{self, Reply};
use reference::sender;
use reference::settings::Settings;
use reference::state::{ReceiverState, Refusal, SenderState, END};

/// Bytes that no call of these tests writes, to see that a refused one changed nothing.
const FILL: u8 = 0xA5;

/// (3,2,2) with L = 1: messages of 2 bytes, bodies of 4.
fn card() -> Settings {
    Settings::of_code(3, 2, 2)
}

/// A sender with its rows.
struct Sender {
    state: SenderState,
    rows: Vec<u8>,
}

impl Sender {
    fn open(settings: Settings) -> Sender {
        let mut rows = vec![FILL; sender::rows_length(&settings)];
        let (state, opened) = sender::open(settings, &mut rows);
        assert_eq!((state, opened), (SenderState { settings, due: 0 }, Ok(())));
        assert!(rows.iter().all(|&byte| byte == 0));
        Sender { state, rows }
    }

    fn send(&mut self, message: &[u8]) -> Vec<u8> {
        let mut frame = vec![FILL; frame::length(&self.state.settings)];
        let due = self.state.due;
        let (state, sent) = sender::send(self.state, &mut self.rows, message, &mut frame);
        assert_eq!((state.due, sent), (due + 1, Ok(())));
        self.state = state;
        frame
    }
}

/// A receiver opened at slot 0, with its rows; a report gives the reply and the message buffer.
struct Receiver {
    state: ReceiverState,
    rows: Vec<u8>,
}

impl Receiver {
    fn open(settings: Settings) -> Receiver {
        let mut rows = vec![FILL; receiver::rows_length(&settings)];
        let (state, opened) = receiver::open(settings, 0, &mut rows);
        let at_0 = ReceiverState { settings, opened_at: 0, due: 0 };
        assert_eq!((state, opened), (at_0, Ok(())));
        for row in rows.chunks(receiver::row_length(&settings)) {
            assert!(row[0] == 1 && row[1..].iter().all(|&byte| byte == 0));
        }
        Receiver { state, rows }
    }

    /// A frame, or `None` for a loss.
    fn report(&mut self, heard: Option<&[u8]>) -> (Reply, Vec<u8>) {
        let mut message = vec![FILL; frame::message_length(&self.state.settings)];
        let (state, reply) = match heard {
            Some(frame) => {
                receiver::report_frame(self.state, &mut self.rows, frame, &mut message)
            }
            None => receiver::report_loss(self.state, &mut self.rows, &mut message),
        };
        assert_eq!(state.due, self.state.due + 1);
        self.state = state;
        (reply.expect("an accepted report"), message)
    }
}

/// Message 0 is 01 00 in hex, message 1 is 00 01, the rest are zeros.
fn frames_of_case_9(count: usize) -> Vec<Vec<u8>> {
    let mut sender = Sender::open(card());
    let message = |slot: usize| [[1, 0], [0, 1]].get(slot).copied().unwrap_or([0, 0]);
    (0..count).map(|slot| sender.send(&message(slot))).collect()
}

/// The replies when the frames of these slots are lost.
fn replies(frames: &[Vec<u8>], lost: &[usize]) -> Vec<(Reply, Vec<u8>)> {
    let mut receiver = Receiver::open(frame::settings(&frames[0]));
    let heard = |slot: usize| (!lost.contains(&slot)).then_some(&frames[slot][..]);
    (0..frames.len()).map(|slot| receiver.report(heard(slot))).collect()
}

/// The reply to the last of these frames, all of them heard.
fn last_reply(receiver: &mut Receiver, frames: &[Vec<u8>]) -> (Reply, Vec<u8>) {
    let replies: Vec<_> = frames.iter().map(|frame| receiver.report(Some(frame))).collect();
    replies[frames.len() - 1].clone()
}

fn nothing(reply: Reply) -> (Reply, Vec<u8>) {
    (reply, vec![0, 0])
}

fn whole(message: [u8; 2]) -> (Reply, Vec<u8>) {
    (Reply::Whole, message.to_vec())
}

#[test]
fn figure_9_the_frames() {
    let frames = frames_of_case_9(5);
    let bodies = [[1, 0, 0, 0], [0, 1, 0, 0], [0, 0, 1, 0], [0, 0, 0, 0x18], [0, 0, 0, 0]];
    for (slot, body) in bodies.iter().enumerate() {
        let header = [0x54, 0x4F, 0x42, 0, 1, 4, 3, 2, 2, 1, 0, 0, 0, slot as u8];
        assert_eq!(frames[slot], [&header[..], body].concat());
    }
}

#[test]
fn with_nothing_lost_every_message_is_whole() {
    let replies = replies(&frames_of_case_9(6), &[]);
    assert_eq!(replies[..3], [0, 1, 2].map(|_| nothing(Reply::NoneYet)));
    assert_eq!(replies[3..], [whole([1, 0]), whole([0, 1]), whole([0, 0])]);
}

#[test]
fn figure_10_slots_0_and_1_lost() {
    let replies = replies(&frames_of_case_9(6), &[0, 1]);
    assert_eq!(replies[3..], [whole([1, 0]), whole([0, 1]), whole([0, 0])]);
}

#[test]
fn figure_11_slots_0_to_2_lost() {
    let replies = replies(&frames_of_case_9(6), &[0, 1, 2]);
    assert_eq!(replies[3..], [nothing(Reply::Lost), nothing(Reply::Lost), whole([0, 0])]);
}

#[test]
fn figure_12_a_damaged_body() {
    let mut frames = frames_of_case_9(6);
    frames[2][frame::HEADER..].copy_from_slice(&[0, 0, 2, 0]);
    let replies = replies(&frames, &[]);
    assert_eq!(replies[3..], [nothing(Reply::Clash), nothing(Reply::Clash), whole([0, 0])]);
}

#[test]
fn a_loss_writes_zeros_over_the_whole_row() {
    let mut receiver = Receiver::open(card());
    receiver.rows.fill(FILL);
    receiver.report(None);
    let length = receiver::row_length(&card());
    assert!(receiver.rows[..length].iter().all(|&byte| byte == 0));
    assert!(receiver.rows[length..].iter().all(|&byte| byte == FILL));
}

#[test]
fn a_row_is_received_exactly_if_its_first_byte_is_1() {
    // The codewords of message 0 start at slots −1 and 0; slot −1 sits in row 4 of 5. Its symbol 0
    // is made another than the zero sent: received, no word fits, and lost, it is repaired.
    let frames = frames_of_case_9(4);
    for mark in 0..=255 {
        let mut receiver = Receiver::open(card());
        let row = &mut receiver.rows[4 * receiver::row_length(&card())..];
        row[..2].copy_from_slice(&[mark, 9]);
        let expected = if mark == 1 { nothing(Reply::Clash) } else { whole([1, 0]) };
        assert_eq!(last_reply(&mut receiver, &frames), expected, "{mark}");
    }
}

#[test]
fn a_clash_comes_before_a_loss() {
    // By figure 8 symbol 2 of a word of (2,2,1) is 16 times symbol 0, and symbol 3 is 16 times
    // symbol 1. All that is sent is zeros; slots 1 and 3 are lost, and with them both symbols of
    // message 1 in either lane.
    let settings = Settings { lanes: 2, ..Settings::of_code(2, 2, 1) };
    let mut frames: Vec<Vec<u8>> = (0..4).map(|slot| frame::of(&settings, slot, &[0; 8])).collect();
    let of_message_1 = |frames: &[Vec<u8>]| replies(frames, &[1, 3])[3].clone();
    assert_eq!(of_message_1(&frames), (Reply::Lost, vec![0; 4]));
    // The codeword that starts at slot 0 has symbol 0 in slot 0, and symbol 2 in slot 2, where one
    // lane now says otherwise: nothing fits there, while the other three codewords are still lost.
    for lane in 0..2 {
        frames[2][frame::HEADER + 4 + lane] = 1;
        assert_eq!(of_message_1(&frames), (Reply::Clash, vec![0; 4]), "{lane}");
        frames[2][frame::HEADER + 4 + lane] = 0;
    }
}

#[test]
fn rows_of_messages_before_0_are_in_the_frame() {
    // Symbol 2 of slot 0 is of the codeword with messages −2 and −1; row 1 holds −2.
    let mut sender = Sender::open(card());
    sender.rows[2] = 1;
    assert_eq!(sender.send(&[0, 0])[frame::HEADER..], [0, 0, 3, 0]);
}

#[test]
fn every_lane_is_a_code_of_its_own() {
    let settings = Settings { lanes: 3, ..card() };
    let (mut sender, mut receiver) = (Sender::open(settings), Receiver::open(settings));
    let sent: Vec<Vec<u8>> = (0..9).map(|t| (0..6).map(|i| t * 25 + i * 7).collect()).collect();
    for slot in 0..9 {
        let frame = sender.send(&sent[slot]);
        let (reply, message) = receiver.report((slot != 2 && slot != 3).then_some(&frame));
        if slot >= 3 {
            assert_eq!((reply, &message), (Reply::Whole, &sent[slot - 3]));
        }
    }
}

#[test]
fn without_a_whole_message_the_buffer_is_zeros_in_every_lane() {
    let mut sender = Sender::open(Settings { lanes: 3, ..card() });
    let frames: Vec<Vec<u8>> = (0..4).map(|_| sender.send(&[9; 6])).collect();
    let mut damaged = frames.clone();
    damaged[2][frame::HEADER + 6] ^= 1;
    let zeros = |reply: Reply| (reply, vec![0; 6]);
    let none = [0, 1, 2].map(|_| zeros(Reply::NoneYet));
    assert_eq!(replies(&frames, &[0, 1, 2]), [&none[..], &[zeros(Reply::Lost)]].concat());
    assert_eq!(replies(&damaged, &[]), [&none[..], &[zeros(Reply::Clash)]].concat());
}

/// Settings that are not accepted, as N is 0.
fn refused_settings() -> Settings {
    Settings { scattered: 0, ..card() }
}

#[test]
fn a_senders_openings_are_refused_with_a_state_of_zeros() {
    let zeros = SenderState { settings: Settings::ZEROS, due: 0 };
    let exact = sender::rows_length(&card());
    for (settings, length, number) in [
        (refused_settings(), exact, 1),
        (refused_settings(), exact + 1, 1),
        (card(), exact - 1, 2),
        (card(), exact + 1, 2),
    ] {
        let mut rows = vec![FILL; length];
        let (state, opened) = sender::open(settings, &mut rows);
        assert_eq!((state, opened.map_err(Refusal::number)), (zeros, Err(number)));
        assert_eq!(rows, vec![FILL; length]);
    }
}

/// The number with which a send is refused, nothing having changed.
fn refused_send(state: SenderState, lengths: [usize; 3]) -> u8 {
    let [mut rows, message, mut frame] = lengths.map(|length| vec![FILL; length]);
    let (after, sent) = sender::send(state, &mut rows, &message, &mut frame);
    assert_eq!((after, [rows, message, frame]), (state, lengths.map(|length| vec![FILL; length])));
    sent.expect_err("a refusal").number()
}

#[test]
fn sends_are_refused() {
    let open = SenderState { settings: card(), due: 0 };
    let exact = [6, 2, 18];
    let ended = SenderState { due: 4_000_000_000, ..open };
    assert_eq!(refused_send(SenderState { settings: refused_settings(), ..ended }, [0; 3]), 1);
    for thing in 0..3 {
        let mut lengths = exact;
        lengths[thing] += 1;
        assert_eq!(refused_send(ended, lengths), 2);
        lengths[thing] -= 2;
        assert_eq!(refused_send(ended, lengths), 2);
    }
    assert_eq!(refused_send(ended, exact), 3);
    assert_eq!(refused_send(SenderState { due: u32::MAX, ..open }, exact), 3);
}

/// The number with which a report is refused, nothing having changed.
fn refused_report(state: ReceiverState, rows: usize, heard: Option<&[u8]>, message: usize) -> u8 {
    let [mut rows, mut message] = [rows, message].map(|length| vec![FILL; length]);
    let before = (state, rows.clone(), message.clone());
    let (after, reply) = match heard {
        Some(frame) => receiver::report_frame(state, &mut rows, frame, &mut message),
        None => receiver::report_loss(state, &mut rows, &mut message),
    };
    assert_eq!((after, rows, message), before);
    reply.expect_err("a refusal").number()
}

#[test]
fn loss_reports_are_refused() {
    let ended = ReceiverState { settings: card(), opened_at: 0, due: 4_000_000_000 };
    let bad = ReceiverState { settings: refused_settings(), ..ended };
    assert_eq!(refused_report(bad, 0, None, 0), 1);
    for (rows, message) in [(24, 2), (26, 2), (25, 1), (25, 3)] {
        assert_eq!(refused_report(ended, rows, None, message), 2);
    }
    assert_eq!(refused_report(ended, 25, None, 2), 3);
}

#[test]
fn frame_reports_are_refused_for_the_first_cause() {
    let open = ReceiverState { settings: card(), opened_at: 0, due: 0 };
    let ended = ReceiverState { due: 4_000_000_000, ..open };
    let bad = ReceiverState { settings: refused_settings(), ..ended };
    // Every later cause holds as well, and the frame loses them one by one.
    let mut frame = frames_of_case_9(2).remove(1);
    frame[2] += 1;
    frame[5] += 1;
    assert_eq!(refused_report(bad, 0, Some(&frame[1..]), 0), 1);
    assert_eq!(refused_report(ended, 25, Some(&frame[1..]), 2), 2);
    assert_eq!(refused_report(ended, 25, Some(&[&frame[..], &[0]].concat()), 2), 2);
    for (rows, message) in [(24, 2), (26, 2), (25, 1), (25, 3)] {
        assert_eq!(refused_report(ended, rows, Some(&frame), message), 2);
    }
    assert_eq!(refused_report(ended, 25, Some(&frame), 2), 3);
    assert_eq!(refused_report(open, 25, Some(&frame), 2), 4);
    frame[2] -= 1;
    for version in [[0, 0], [1, 1], [1, 0], [0, 2]] {
        frame[3..5].copy_from_slice(&version);
        assert_eq!(refused_report(open, 25, Some(&frame), 2), 4);
    }
    frame[3..5].copy_from_slice(&[0, 1]);
    assert_eq!(refused_report(open, 25, Some(&frame), 2), 5);
    frame[5] -= 1;
    for place in 5..10 {
        frame[place] += 1;
        assert_eq!(refused_report(open, 25, Some(&frame), 2), 5);
        frame[place] -= 1;
    }
    assert_eq!(refused_report(open, 25, Some(&frame), 2), 6);
    assert_eq!(refused_report(ReceiverState { due: 2, ..open }, 25, Some(&frame), 2), 6);
}

#[test]
fn a_frame_is_refused_with_6_if_any_bit_of_its_slot_differs() {
    let due = 0x1234_5678;
    let state = ReceiverState { settings: card(), opened_at: 0, due };
    for bit in 0..32 {
        let other = frame::of(&card(), due ^ (1 << bit), &[0; 4]);
        assert_eq!(refused_report(state, 25, Some(&other), 2), 6, "{bit}");
    }
    let mut receiver = Receiver::open(card());
    receiver.state = state;
    let heard = frame::of(&card(), due, &[0; 4]);
    assert_eq!(heard[10..14], [0x12, 0x34, 0x56, 0x78]);
    assert_eq!(receiver.report(Some(&heard)), whole([0, 0]));
}

#[test]
fn the_last_slot_is_accepted_and_no_slot_follows_it() {
    let (mut sender, mut receiver) = (Sender::open(card()), Receiver::open(card()));
    sender.state.due = 3_999_999_996;
    receiver.state.due = 3_999_999_996;
    for sent in [[5, 6], [7, 8], [9, 10], [11, 12]] {
        let frame = sender.send(&sent);
        let (reply, message) = receiver.report(Some(&frame));
        if receiver.state.due == END {
            assert_eq!(frame[10..14], 3_999_999_999_u32.to_be_bytes());
            assert_eq!((reply, message), whole([5, 6]));
        }
    }
    assert_eq!((sender.state.due, receiver.state.due), (4_000_000_000, 4_000_000_000));
    assert_eq!(refused_send(sender.state, [6, 2, 18]), 3);
    assert_eq!(refused_report(receiver.state, 25, None, 2), 3);
    let mut frame = Sender::open(card()).send(&[0, 0]);
    frame[10..14].copy_from_slice(&4_000_000_000_u32.to_be_bytes());
    assert_eq!(refused_report(receiver.state, 25, Some(&frame), 2), 3);
    receiver.state.due = 3_999_999_999;
    assert_eq!(receiver.report(None).0, Reply::Whole);
}
