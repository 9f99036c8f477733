//! The Rust versions beside the reference: each call from copies of the same state and rows.

use bench::alike;
use bench::engine::{self, Engine, STATE_LEN};
use bench::link::receiver::receiver_len;
use bench::link::sender::sender_len;
use bench::link::shape;
use reference::patterns::Draws;
use reference::receiver::Reply;
use reference::settings::{every_code, Settings};
use reference::state::{ReceiverState, Refusal, SenderState};
use reference::{frame, receiver, sender};

/// The versions.
const VERSIONS: [Engine; 2] = [engine::plain(), engine::planes()];

/// Both ends of a version, and what the link does to it.
struct Link {
    version: Engine,
    settings: Settings,
    sender: (engine::State, Vec<u8>),
    receiver: (engine::State, Vec<u8>),
    draws: Draws,
}

/// The settings as the calls take them.
fn five(s: &Settings) -> engine::Settings {
    [s.window, s.delay, s.burst, s.scattered, s.lanes]
}

/// The slot due of a state that keeps nothing else but these settings.
fn due(settings: Settings, state: &engine::State) -> u32 {
    assert_eq!((&state[..5], &state[9..]), (&five(&settings)[..], &[0; STATE_LEN - 9][..]));
    shape::due(state)
}

/// A sender's state as the reference has it.
fn sending(settings: Settings, state: &engine::State) -> SenderState {
    SenderState { settings, due: due(settings, state) }
}

/// A receiver's, which was opened at slot 0.
fn receiving(settings: Settings, state: &engine::State) -> ReceiverState {
    ReceiverState { settings, opened_at: 0, due: due(settings, state) }
}

/// The reply as a number.
fn number<T>(result: Result<T, Refusal>, accepted: impl Fn(T) -> u32) -> u32 {
    result.map_or_else(|refusal| u32::from(refusal.number()), accepted)
}

/// The verdict as a number.
fn verdict(reply: Reply) -> u32 {
    match reply {
        Reply::NoneYet => 16,
        Reply::Whole => 17,
        Reply::Lost => 18,
        Reply::Clash => 19,
    }
}

impl Link {
    /// Opened afresh by both, at this slot due.
    fn open(version: Engine, settings: Settings, due: u32, draws: Draws) -> Link {
        let five = five(&settings);
        let mut link = Link {
            version,
            settings,
            sender: ([9; STATE_LEN], vec![9; sender_len(&five)]),
            receiver: ([9; STATE_LEN], vec![9; receiver_len(&five)]),
            draws,
        };
        let (mut a, mut b) = (link.sender.1.clone(), link.receiver.1.clone());
        let (one, other) = (sender::open(settings, &mut a), receiver::open(settings, 0, &mut b));
        assert_eq!((version.open_sender)(&five, &mut link.sender.0, &mut link.sender.1), number(one.1, |()| 0));
        assert_eq!((version.open_receiver)(&five, &mut link.receiver.0, &mut link.receiver.1), number(other.1, |()| 0));
        assert_eq!((sending(settings, &link.sender.0), receiving(settings, &link.receiver.0)), (one.0, other.0));
        assert!(link.sender.1 == a && link.receiver.1 == b);
        shape::set_due(&mut link.sender.0, due);
        shape::set_due(&mut link.receiver.0, due);
        link
    }

    /// Sends drawn bytes; with the reference beside it if asked.
    fn send(&mut self, compared: bool) -> Vec<u8> {
        let message = self.draws.bytes(shape::message_len(&five(&self.settings)));
        let mut frame = vec![9; shape::frame_len(&five(&self.settings))];
        let (mut rows, mut other) = (self.sender.1.clone(), frame.clone());
        let before = sending(self.settings, &self.sender.0);
        let (state, buffer) = &mut self.sender;
        let reply = (self.version.send)(state, buffer, &message, &mut frame);
        if compared {
            let (after, sent) = sender::send(before, &mut rows, &message, &mut other);
            assert_eq!((reply, sending(self.settings, &self.sender.0)), (number(sent, |()| 0), after));
            assert!(frame == other && self.sender.1 == rows, "{:?}", self.settings);
        }
        frame
    }

    /// Reports the slot due; with the reference beside it if asked.
    fn report(&mut self, frame: Option<&[u8]>, compared: bool) -> u32 {
        let mut message = vec![9; shape::message_len(&five(&self.settings))];
        let (mut rows, mut other) = (self.receiver.1.clone(), message.clone());
        let before = receiving(self.settings, &self.receiver.0);
        let (state, buffer) = &mut self.receiver;
        let reply = match frame {
            Some(frame) => (self.version.heard)(state, buffer, frame, &mut message),
            None => (self.version.lost)(state, buffer, &mut message),
        };
        if compared {
            let (after, said) = match frame {
                Some(frame) => receiver::report_frame(before, &mut rows, frame, &mut other),
                None => receiver::report_loss(before, &mut rows, &mut other),
            };
            assert_eq!((reply, receiving(self.settings, &self.receiver.0)), (number(said, verdict), after));
            assert!(message == other && self.receiver.1 == rows, "{:?}", self.settings);
        }
        reply
    }

    /// So many slots, one in `odds` lost and one in 40 damaged; one in `each` compared.
    fn run(&mut self, slots: usize, odds: usize, each: usize, met: &mut [usize; 32]) {
        for _ in 0..slots {
            let compared = self.draws.below(each) == 0;
            let mut frame = self.send(compared);
            if self.draws.below(40) == 0 {
                let at = 14 + self.draws.below(frame.len() - 14);
                frame[at] ^= 1 + self.draws.below(255) as u8;
            }
            let lost = self.draws.below(odds) == 0;
            let reply = self.report((!lost).then_some(&frame), compared);
            met[reply as usize] += usize::from(compared);
        }
    }
}

/// Every accepted code with so many lanes, and T set as this says of its delay; one call in `each` is compared.
fn every(lanes: u8, set: fn(u8) -> u8, slots: usize, each: usize, least: usize) {
    for version in VERSIONS {
        let mut met = [0; 32];
        for (number, code) in every_code().into_iter().enumerate() {
            let due = [0, 100, 3_999_000_000][number % 3];
            let settings = Settings { delay: set(code.delay), lanes, ..code };
            let mut link = Link::open(version, settings, due, Draws::from(number as u64 + 1));
            for odds in [2, 4, 10] {
                link.run(slots, odds, each, &mut met);
            }
        }
        println!("{}, {lanes} lanes: {met:?}", version.name);
        assert!(met[17..20].iter().all(|&count| count >= least), "{}: {met:?}", version.name);
    }
}

#[test]
fn one_lane() {
    every(1, |delay| delay, 30, 2, 500);
}

#[test]
fn three_lanes() {
    every(3, |delay| delay, 30, 8, 200);
}

#[test]
fn nine_to_sixty_three_lanes() {
    for lanes in [9, 16, 63] {
        every(lanes, |delay| delay, 16, 200, 5);
    }
}

#[test]
fn sixty_four_lanes() {
    every(64, |delay| delay, 30, 60, 20);
}

#[test]
fn windows_at_or_below_t() {
    every(1, |delay| delay + 1, 20, 4, 100);
    every(2, |_| 255, 20, 4, 100);
    every(64, |_| 255, 30, 120, 5);
}

#[test]
fn broadcasts_are_alike_where_the_window_makes_the_delay() {
    let versions: Vec<Engine> = engine::ours().into_iter().chain(VERSIONS).collect();
    for settings in [[3, 9, 2, 1, 1], [9, 9, 8, 1, 2], [12, 255, 8, 4, 3]] {
        let [whole, lost, _] = alike::check(&versions, &settings, 80);
        assert!(whole > 0 && lost > 0, "{settings:?}: {whole} whole, {lost} lost");
    }
}

#[test]
fn unlost_true_broadcasts_are_whole() {
    let both = VERSIONS.into_iter().flat_map(|version| every_code().into_iter().map(move |code| (version, code)));
    for (version, code) in both {
        for delay in [code.delay, 255] {
            let mut link = Link::open(version, Settings { delay, lanes: 8, ..code }, 0, Draws::start());
            for slot in 0..3 * code.n() {
                let frame = link.send(false);
                let expected = if slot < code.t() { 16 } else { 17 };
                assert_eq!(link.report(Some(&frame), false), expected);
            }
        }
    }
}

#[test]
fn lengths_for_every_window_and_delay() {
    let mut accepted = 0;
    for [window, delay] in (0..=u16::MAX).map(u16::to_be_bytes) {
        for [burst, scattered, lanes] in [[1, 1, 1], [2, 1, 64], [3, 3, 5], [8, 1, 2], [15, 15, 3], [2, 2, 65]] {
            let settings = Settings { window, delay, burst, scattered, lanes };
            let five = five(&settings);
            let found = [shape::message_len(&five), shape::frame_len(&five), sender_len(&five), receiver_len(&five)];
            assert_eq!(found, lengths(&settings), "{settings:?}");
            accepted += usize::from(found != [0; 4]);
        }
    }
    assert!(accepted > 10_000, "{accepted}");
}

/// The same lengths by the reference: 0 for settings that are not accepted.
fn lengths(s: &Settings) -> [usize; 4] {
    if !s.accepted() {
        return [0; 4];
    }
    [frame::message_length(s), frame::length(s), sender::rows_length(s), receiver::rows_length(s)]
}

#[test]
fn refusals_in_the_order_of_checking() {
    VERSIONS.into_iter().for_each(refusals);
}

/// The refusals of one version.
fn refusals(version: Engine) {
    let settings = Settings { window: 5, delay: 4, burst: 2, scattered: 2, lanes: 3 };
    let mut link = Link::open(version, settings, 0, Draws::start());
    let good = link.send(true);
    for byte in 0..14 {
        let mut frame = good.clone();
        frame[byte] ^= 1;
        let expected = [4, 4, 4, 4, 4, 5, 5, 5, 5, 5, 6, 6, 6, 6][byte];
        assert_eq!(link.report(Some(&frame), true), expected);
    }
    assert_eq!(link.report(Some(&good[..20]), true), 2);
    shape::set_due(&mut link.receiver.0, 4_000_000_000);
    shape::set_due(&mut link.sender.0, 4_000_000_000);
    assert_eq!((link.report(Some(&good), true), link.report(None, true)), (3, 3));
    link.send(true);
    assert_eq!(link.report(Some(&good[..20]), true), 2);
    let mut state = [9; STATE_LEN];
    // A window of 4 makes the delay 3, which has other lengths; one of 2 makes it 1, which is below B.
    for (window, expected) in [(4, 2), (2, 1)] {
        link.receiver.0[0] = window;
        link.settings.window = window;
        assert_eq!(link.report(Some(&good), true), expected);
        assert_eq!((version.open_receiver)(&[window, 4, 2, 2, 3], &mut state, &mut []), expected);
    }
    assert_eq!(((version.open_sender)(&five(&settings), &mut state, &mut []), state), (2, [0; STATE_LEN]));
}
