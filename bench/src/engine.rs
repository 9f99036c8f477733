//! The versions that are timed beside each other, behind the same calls.

use crate::link::{receiver, sender};
use crate::{plain, planes};

pub use crate::link::shape::{Settings, State, STATE_LEN};

/// A send (with a message, then a frame) or a report of a frame (with a frame, then a message).
pub type Send = fn(&mut State, &mut [u8], &[u8], &mut [u8]) -> u32;
/// A report of a loss.
pub type Lost = fn(&mut State, &mut [u8], &mut [u8]) -> u32;
/// A look-up of the message with a number.
pub type LookUp = fn(&State, &[u8], i64, &mut [u8]) -> u32;

/// The calls of one version.
#[derive(Clone, Copy)]
pub struct Engine {
    pub name: &'static str,
    pub open_sender: fn(&Settings, &mut State, &mut [u8]) -> u32,
    pub open_receiver: fn(&Settings, &mut State, &mut [u8]) -> u32,
    pub send: Send,
    pub heard: Send,
    pub lost: Lost,
    /// Ours alone has it.
    pub look_up: Option<LookUp>,
    /// The bytes of the slot due in a state, highest first.
    pub due: [usize; 4],
}

impl Engine {
    /// The state with another slot due.
    pub fn set_due(&self, state: &mut State, due: u32) {
        for (place, byte) in self.due.iter().zip(due.to_be_bytes()) {
            state[*place] = byte;
        }
    }
}

/// The plain Rust version, with tables.
pub const fn plain() -> Engine {
    rust("plain", plain::send, plain::heard, plain::lost)
}

/// The Rust version that goes further.
pub const fn planes() -> Engine {
    rust("planes", planes::send, planes::heard, planes::lost)
}

/// A Rust version: openings and the state are the same in all.
const fn rust(name: &'static str, send: Send, heard: Send, lost: Lost) -> Engine {
    let (open_sender, open_receiver) = (sender::open_sender, receiver::open_receiver);
    Engine { name, open_sender, open_receiver, send, heard, lost, look_up: None, due: [5, 6, 7, 8] }
}

/// Our library, when it is linked.
#[cfg(not(feature = "ours"))]
pub fn ours() -> Option<Engine> {
    None
}

/// Our library, when it is linked.
#[cfg(feature = "ours")]
pub fn ours() -> Option<Engine> {
    assert_eq!(tob::calls::state_len(), std::mem::size_of::<State>());
    let mut engine = Engine {
        name: "ours",
        open_sender: |settings, state, rows| tob::calls::open_sender(settings, state, rows),
        open_receiver: |settings, state, rows| tob::calls::open_receiver(settings, state, rows),
        send: |state, rows, message, frame| tob::calls::send(state, rows, message, frame),
        heard: |state, rows, frame, message| tob::calls::heard(state, rows, frame, message),
        lost: |state, rows, message| tob::calls::lost(state, rows, message),
        look_up: Some(|state, rows, number, message| tob::calls::look_up(state, rows, number, message)),
        due: [0; 4],
    };
    engine.due = places_of_due(&engine);
    Some(engine)
}

/// Where a state holds the slot due, found by sending: the byte that moves first is the lowest, and the one that moves
/// at slot 256 the next higher.
#[cfg(feature = "ours")]
fn places_of_due(engine: &Engine) -> [usize; 4] {
    let settings = [2, 1, 1, 1, 1];
    let (mut state, mut rows, mut frame) = ([0; STATE_LEN], [0; 1], [0; 16]);
    assert_eq!((engine.open_sender)(&settings, &mut state, &mut rows), 0);
    let mut moved = Vec::new();
    for _ in 0..256 {
        let before = state;
        assert_eq!((engine.send)(&mut state, &mut rows, &[0], &mut frame), 0);
        moved.extend((0..STATE_LEN).filter(|&place| before[place] != state[place] && state[place] == 1));
    }
    let [low, next] = moved[..] else { panic!("the slot due does not count up in the state: {moved:?}") };
    if next < low { [low - 3, low - 2, next, low] } else { [low + 3, low + 2, next, low] }
}
