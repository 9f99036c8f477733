//! Before anything is timed: all versions and the reference give the same frames, replies, messages and rows.

use crate::engine::{Engine, Settings, State, STATE_LEN};
use reference::patterns::Draws;
use reference::receiver::{self, Reply};
use reference::{frame, sender, settings, state};

/// Both ends of one version, or of the reference.
struct Ends {
    version: Option<Engine>,
    states: [State; 2],
    plain: (state::SenderState, state::ReceiverState),
    rows: [Vec<u8>; 2],
}

/// The settings as the reference has them.
fn plain(&[window, delay, burst, scattered, lanes]: &Settings) -> settings::Settings {
    settings::Settings { window, delay, burst, scattered, lanes }
}

impl Ends {
    /// Both ends opened; the reference's state and rows are made in any case.
    fn open(version: Option<Engine>, settings: &Settings) -> Ends {
        let code = plain(settings);
        let mut rows = [vec![0; sender::rows_length(&code)], vec![0; receiver::rows_length(&code)]];
        let mut states = [[0; STATE_LEN]; 2];
        let plain = (sender::open(code, &mut rows[0]).0, receiver::open(code, 0, &mut rows[1]).0);
        if let Some(engine) = version {
            assert_eq!((engine.open_sender)(settings, &mut states[0], &mut rows[0]), 0);
            assert_eq!((engine.open_receiver)(settings, &mut states[1], &mut rows[1]), 0);
        }
        Ends { version, states, plain, rows }
    }

    /// The frame of the slot due.
    fn send(&mut self, message: &[u8]) -> Vec<u8> {
        let mut frame = vec![0; frame::length(&self.plain.0.settings)];
        if let Some(engine) = self.version {
            assert_eq!((engine.send)(&mut self.states[0], &mut self.rows[0], message, &mut frame), 0);
        } else {
            let (state, sent) = sender::send(self.plain.0, &mut self.rows[0], message, &mut frame);
            assert_eq!(sent, Ok(()));
            self.plain.0 = state;
        }
        frame
    }

    /// The reply to a report of the slot due, and the message.
    fn report(&mut self, heard: Option<&[u8]>) -> (u32, Vec<u8>) {
        let mut message = vec![9; frame::message_length(&self.plain.1.settings)];
        let (state, rows) = (&mut self.states[1], &mut self.rows[1][..]);
        let reply = match (self.version, heard) {
            (Some(engine), Some(frame)) => (engine.heard)(state, rows, frame, &mut message),
            (Some(engine), None) => (engine.lost)(state, rows, &mut message),
            (None, _) => self.report_plain(heard, &mut message),
        };
        (reply, message)
    }

    /// The same by the reference.
    fn report_plain(&mut self, heard: Option<&[u8]>, message: &mut [u8]) -> u32 {
        let (state, reply) = match heard {
            Some(frame) => receiver::report_frame(self.plain.1, &mut self.rows[1], frame, message),
            None => receiver::report_loss(self.plain.1, &mut self.rows[1], message),
        };
        self.plain.1 = state;
        match reply {
            Err(refusal) => u32::from(refusal.number()),
            Ok(Reply::NoneYet) => 16,
            Ok(Reply::Whole) => 17,
            Ok(Reply::Lost) => 18,
            Ok(Reply::Clash) => 19,
        }
    }
}

/// So many slots go on without the reference.
const LONGER: usize = 600;

/// How often a reply was given that two versions share: whole, lost and clash.
pub type Met = [usize; 3];

/// Plays a broadcast with losses and a few damaged bytes on all versions; panics at the first difference.
/// The reference is slow, so it takes part in the first `slots` slots only.
pub fn check(engines: &[Engine], settings: &Settings, slots: usize) -> Met {
    let mut draws = Draws::start();
    let versions = [None].into_iter().chain(engines.iter().copied().map(Some));
    let mut all: Vec<Ends> = versions.map(|version| Ends::open(version, settings)).collect();
    let mut met = [0; 3];
    for slot in 0..slots + LONGER {
        if slot == slots {
            all.remove(0);
        }
        let message = draws.bytes(frame::message_length(&plain(settings)));
        let frames: Vec<Vec<u8>> = all.iter_mut().map(|ends| ends.send(&message)).collect();
        assert!(frames.iter().all(|frame| *frame == frames[0]), "frames differ at slot {slot} of {settings:?}");
        let mut frame = frames[0].clone();
        if draws.below(50) == 0 {
            let at = 14 + draws.below(frame.len() - 14);
            frame[at] ^= 1 + draws.below(255) as u8;
        }
        let lost = draws.below(if slot % 100 < 60 { 4 } else { 20 }) == 0;
        let said: Vec<_> = all.iter_mut().map(|ends| ends.report((!lost).then_some(&frame))).collect();
        assert!(said.iter().all(|one| *one == said[0]), "reports differ at slot {slot} of {settings:?}");
        assert!(all.iter().all(|ends| ends.rows == all[0].rows), "rows differ at slot {slot} of {settings:?}");
        if let 17..=19 = said[0].0 {
            met[said[0].0 as usize - 17] += 1;
        }
    }
    met
}
