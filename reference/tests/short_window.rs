//! Document 02 §5: a window shorter than the T that was set. Two ends whose settings make the same
//! delay work alike but for the T in their frames and states, and document 01's settings are as
//! they were.

#![forbid(unsafe_code)]

use reference::broadcast::{self, Frames};
use reference::field::{Byte, Narrow};
use reference::frame;
use reference::matrix::Matrix;
use reference::patterns::Draws;
use reference::receiver::{self, Reply};
use reference::sender;
use reference::settings::{every_code, Settings};
use reference::state::{ReceiverState, Refusal};

/// Bytes that no call of these tests writes, to see that a refused one changed nothing.
const FILL: u8 = 0xA5;

/// The delay, k, n and d, and what both ends lend: message, frame, the sender's rows, the
/// receiver's rows and one of them.
fn sizes(s: &Settings) -> [usize; 9] {
    let [message, frame] = [frame::message_length(s), frame::length(s)];
    let rows = [sender::rows_length(s), receiver::rows_length(s), receiver::row_length(s)];
    [s.t(), s.k(), s.n(), s.d(), message, frame, rows[0], rows[1], rows[2]]
}

/// The same by the formulas of document 01.
fn sizes_by_01(t: usize, b: usize, scattered: usize, lanes: usize) -> [usize; 9] {
    let k = t - scattered + 1;
    let n = k + b;
    let (message, frame, row) = (k * lanes, 14 + n * lanes, 1 + n * lanes);
    [t, k, n, b - scattered + 1, message, frame, (n - 1) * message, (k + t) * row, row]
}

/// An entry of G by document 01, with T as set.
fn entry_by_01(t: usize, b: usize, scattered: usize, i: usize, j: usize) -> Byte {
    if i <= b - scattered && j >= t {
        return if j == t + i { Byte(16) } else { Byte(0) };
    }
    let narrow = |sum: usize| Narrow(sum as u8);
    let factor = |p: usize| narrow(j ^ p).divided_by(narrow(i ^ p));
    let points = (0..i).chain(i + scattered..t);
    points.map(factor).fold(Narrow(1), Narrow::times).widen()
}

/// Every (T, B, N) that document 01 accepts.
fn every_code_by_01() -> Vec<[usize; 3]> {
    let losses = |t: usize| (1..=t).flat_map(move |b| (1..=b).map(move |n| [t, b, n]));
    (1..=15).flat_map(losses).filter(|[t, b, n]| t + 1 + b - n <= 16).collect()
}

#[test]
fn settings_that_document_01_accepts_are_as_they_were() {
    assert_eq!(every_code_by_01().len(), 372);
    for [t, b, n] in every_code_by_01() {
        let code = Settings::of_code(t as u8, b as u8, n as u8);
        for window in code.delay + 1..=255 {
            for lanes in 1..=64 {
                let settings = Settings { window, lanes, ..code };
                assert!(settings.accepted());
                assert_eq!(sizes(&settings), sizes_by_01(t, b, n, lanes.into()), "{settings:?}");
            }
        }
        for window in [code.delay + 1, code.delay + 2, 255] {
            let matrix = Matrix::of(&Settings { window, ..code });
            for (i, j) in (0..matrix.k()).flat_map(|i| (0..matrix.n()).map(move |j| (i, j))) {
                assert_eq!(matrix.entry(i, j), entry_by_01(t, b, n, i, j), "{code:?} {i} {j}");
            }
        }
    }
}

#[test]
fn any_t_above_the_window_makes_the_same_sizes_and_matrix() {
    for code in every_code() {
        for delay in code.delay..=255 {
            let settings = Settings { delay, ..code };
            assert!(settings.accepted());
            assert_eq!(sizes(&settings), sizes(&code), "{settings:?}");
        }
        assert_eq!(Matrix::of(&Settings { delay: 255, ..code }), Matrix::of(&code));
    }
}

/// A receiver with its rows and its message buffer.
struct Receiver {
    state: ReceiverState,
    rows: Vec<u8>,
    buffer: Vec<u8>,
}

impl Receiver {
    fn open(settings: Settings, slot: u32) -> Receiver {
        let mut rows = vec![FILL; receiver::rows_length(&settings)];
        let (state, opened) = receiver::open(settings, slot, &mut rows);
        assert_eq!(opened, Ok(()));
        assert_eq!(state, ReceiverState { settings, opened_at: slot, due: slot });
        Receiver { state, rows, buffer: vec![FILL; frame::message_length(&settings)] }
    }

    /// A frame, or `None` for a loss.
    fn report(&mut self, heard: Option<&[u8]>) -> Result<Reply, Refusal> {
        let (state, reply) = match heard {
            Some(frame) => {
                receiver::report_frame(self.state, &mut self.rows, frame, &mut self.buffer)
            }
            None => receiver::report_loss(self.state, &mut self.rows, &mut self.buffer),
        };
        self.state = state;
        reply
    }

    /// The frame is refused with 5, and nothing changes.
    fn refuses(&mut self, frame: &[u8]) {
        let before = (self.state, self.rows.clone(), self.buffer.clone());
        assert_eq!(self.report(Some(frame)).map_err(Refusal::number), Err(5));
        assert_eq!((self.state, self.rows.clone(), self.buffer.clone()), before);
    }
}

/// The frames of two senders for the same messages, from a slot on: alike in every byte but
/// byte 6, which is T as set.
fn frames_of_both(both: [Settings; 2], slot: u32, messages: &[Vec<u8>]) -> [Frames; 2] {
    let frames = both.map(|settings| broadcast::from(settings, slot, messages));
    for (first, second) in frames[0].iter().zip(&frames[1]) {
        let without_t = |frame: &[u8]| [&frame[..6], &frame[7..]].concat();
        assert_eq!((first[6], second[6]), (both[0].delay, both[1].delay));
        assert_eq!(without_t(first), without_t(second));
    }
    frames
}

/// The replies of two receivers, opened at a slot, to these losses and to the other frames of
/// their own senders: they are alike, and so are message buffers, rows and slots. Each first
/// refuses the frame of the other's sender.
fn replies_of_both(
    both: [Settings; 2],
    slot: u32,
    frames: &[Frames; 2],
    lost: &[bool],
) -> Vec<(Reply, Vec<u8>)> {
    let mut receivers = both.map(|settings| Receiver::open(settings, slot));
    let mut replies = Vec::new();
    for (at, &is_lost) in lost.iter().enumerate() {
        let both_reply = [0, 1].map(|this| {
            receivers[this].refuses(&frames[1 - this][at]);
            receivers[this].report((!is_lost).then_some(&frames[this][at]))
        });
        let [first, second] = &receivers;
        assert_eq!((first.state.settings, second.state.settings), (both[0], both[1]));
        assert_eq!((first.state.opened_at, first.state.due), (slot, slot + at as u32 + 1));
        assert_eq!(first.state, ReceiverState { settings: both[0], ..second.state });
        assert_eq!((&first.rows, &first.buffer), (&second.rows, &second.buffer));
        assert_eq!(both_reply[0], both_reply[1]);
        replies.push((both_reply[0].expect("an accepted report"), first.buffer.clone()));
    }
    replies
}

#[test]
fn the_example_of_document_02_works_as_t_2() {
    let both = [2, 9].map(|delay| Settings { window: 3, ..Settings::of_code(delay, 2, 1) });
    let messages: Vec<Vec<u8>> = (1..9).map(|byte| vec![byte, 16 * byte]).collect();
    let mut frames = frames_of_both(both, 0, &messages);
    let lost = |slots: &[usize]| -> Vec<bool> { (0..8).map(|at| slots.contains(&at)).collect() };
    // Two bursts of B losses, W − 1 slots apart: every message is whole, at the delay of 2.
    let replies = replies_of_both(both, 0, &frames, &lost(&[0, 1, 4, 5]));
    assert_eq!(replies[..2], [0, 1].map(|_| (Reply::NoneYet, vec![0, 0])));
    let whole = messages[..6].iter().map(|message| (Reply::Whole, message.clone()));
    assert!(replies[2..].iter().cloned().eq(whole));
    // Three losses: slot 2 would have told message 0. And then a damaged body.
    let replies = replies_of_both(both, 0, &frames, &lost(&[0, 1, 2]));
    let outcomes: Vec<Reply> = replies[2..5].iter().map(|(reply, _)| *reply).collect();
    assert_eq!(outcomes, [Reply::Lost, Reply::Whole, Reply::Whole]);
    frames.iter_mut().for_each(|frames| frames[2][frame::HEADER + 2] ^= 1);
    assert_eq!(replies_of_both(both, 0, &frames, &[false; 8])[2].0, Reply::Clash);
}

#[test]
fn t_of_255_works_as_the_delay_of_every_code() {
    let mut draws = Draws::from(20261132);
    let mut met = [0; 4];
    for code in every_code() {
        let both = [code, Settings { delay: 255, ..code }];
        let late = [0, 1, receiver::row_count(&code) as u32, 2_000_000_000][draws.below(4)];
        let slots = code.t() + 5;
        let length = frame::message_length(&code);
        let messages: Vec<Vec<u8>> = (0..slots).map(|_| draws.bytes(length)).collect();
        let mut frames = frames_of_both(both, late, &messages);
        if draws.below(2) == 0 {
            let (at, place) = (draws.below(slots), frame::HEADER + draws.below(code.n()));
            frames.iter_mut().for_each(|frames| frames[at][place] ^= 1);
        }
        let once_in = 2 + draws.below(8);
        let lost: Vec<bool> = (0..slots).map(|_| draws.below(once_in) == 0).collect();
        for (reply, _) in replies_of_both(both, late, &frames, &lost) {
            met[reply as usize] += 1;
        }
    }
    assert!(met.iter().all(|&times| times > 100), "{met:?}");
}
