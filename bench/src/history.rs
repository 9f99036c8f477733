//! What came before a call that is timed, played by the plain version: the self-check has shown that all versions hold
//! the same rows.

use crate::engine::{plain, Engine, Settings, State, STATE_LEN};
use crate::link::{receiver, reply, sender, shape};
use crate::operation::Losses;
use reference::patterns::Draws;
use std::ops::Range;

/// The sizes of settings that are timed.
pub fn sizes(settings: &Settings) -> shape::Shape {
    shape::Shape::of(settings).expect("accepted settings")
}

/// Two turns of a receiver's rows.
fn two_turns(settings: &Settings) -> u32 {
    2 * (2 * sizes(settings).delay as u32 + 1)
}

/// A sender and its last frame.
pub struct Sender {
    engine: Engine,
    state: State,
    pub rows: Vec<u8>,
    pub frame: Vec<u8>,
    /// The length of a message.
    length: usize,
    draws: Draws,
}

impl Sender {
    /// Opened afresh, at this slot due.
    pub fn open(engine: Engine, settings: &Settings, due: u32) -> Sender {
        let (mut state, mut rows) = ([0; STATE_LEN], vec![0; sender::sender_len(settings)]);
        assert_eq!((engine.open_sender)(settings, &mut state, &mut rows), 0);
        engine.set_due(&mut state, due);
        let frame = vec![0; shape::frame_len(settings)];
        Sender { engine, state, rows, frame, length: shape::message_len(settings), draws: Draws::start() }
    }

    /// Sends a message in the slot due.
    fn send(&mut self, message: &[u8]) {
        assert_eq!((self.engine.send)(&mut self.state, &mut self.rows, message, &mut self.frame), 0);
    }

    /// Sends drawn bytes.
    pub fn send_drawn(&mut self) {
        let message = self.draws.bytes(self.length);
        self.send(&message);
    }
}

/// A sender's rows, the slot due, and the message to be sent, which its row holds already.
pub struct Sending {
    pub rows: Vec<u8>,
    pub due: u32,
    pub message: Vec<u8>,
    /// Where the row begins that a send writes.
    pub row: usize,
}

impl Sending {
    /// The sender has sent the same messages over and over, from this slot on.
    pub fn from(settings: &Settings, due: u32) -> Sending {
        let (mut sender, count) = (Sender::open(plain(), settings, due), two_turns(settings));
        let period = sizes(settings).n - 1;
        let messages: Vec<Vec<u8>> = (0..period).map(|_| sender.draws.bytes(sender.length)).collect();
        for slot in 0..count {
            sender.send(&messages[slot as usize % period]);
        }
        let (message, due) = (messages[count as usize % period].clone(), due + count);
        Sending { rows: sender.rows, due, message, row: due as usize % period * sender.length }
    }
}

/// A receiver's rows of slots t − k + 1 to t + T − 1, and the frame of slot t + T, which is due.
pub struct Reporting {
    pub settings: Settings,
    pub rows: Vec<u8>,
    pub due: u32,
    pub frame: Vec<u8>,
    /// Whether the slot due is heard.
    pub heard: bool,
}

impl Reporting {
    /// The receiver has heard drawn messages from this slot on, so that its rows have gone round more than twice.
    pub fn from(settings: &Settings, due: u32) -> Reporting {
        let (maker, mut sender) = (plain(), Sender::open(plain(), settings, due));
        let (mut state, mut rows) = ([0; STATE_LEN], vec![0; receiver::receiver_len(settings)]);
        assert_eq!((maker.open_receiver)(settings, &mut state, &mut rows), 0);
        maker.set_due(&mut state, due);
        let mut message = vec![0; sender.length];
        let count = two_turns(settings) + sizes(settings).delay as u32;
        for _ in 0..count {
            sender.send_drawn();
            assert!((maker.heard)(&mut state, &mut rows, &sender.frame, &mut message) >= reply::NONE_YET);
        }
        sender.send_drawn();
        Reporting { settings: *settings, rows, due: due + count, frame: sender.frame, heard: true }
    }

    /// The slots that the report looks at: as many as there are rows.
    fn slots(&self) -> usize {
        let sizes = sizes(&self.settings);
        sizes.k + sizes.delay
    }

    /// The row of slot t − k + 1 + x: slot t + T is the last of them.
    fn row(&self, x: usize) -> Range<usize> {
        let length = 1 + sizes(&self.settings).body();
        let start = (self.due as usize + 1 + x) % self.slots() * length;
        start..start + length
    }

    /// Where the row begins that the report writes.
    pub fn row_due(&self) -> usize {
        self.row(self.slots() - 1).start
    }

    /// The same after these losses, with what their reports would have left: rows of zeros. That of the slot due is
    /// still to come.
    pub fn without(&self, losses: Losses) -> Reporting {
        let (mut rows, last) = (self.rows.clone(), self.slots() - 1);
        for x in (0..last).filter(|x| losses >> x & 1 == 1) {
            rows[self.row(x)].fill(0);
        }
        let heard = losses >> last & 1 == 0;
        Reporting { settings: self.settings, rows, due: self.due, frame: self.frame.clone(), heard }
    }

    /// The same with another byte in slot t: the last symbol of its message, in the last lane, which belongs to the
    /// codeword that begins at slot t − k + 1 and to no other.
    pub fn damaged(mut self) -> Reporting {
        let sizes = sizes(&self.settings);
        let own = self.row(sizes.k - 1);
        self.rows[own][sizes.message()] ^= 1;
        self
    }
}
