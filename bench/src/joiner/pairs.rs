//! The pairs of recordings that are timed: as many frames of one meeting as fit, the sender's own.

use crate::engine::plain;
use crate::history::Sender;
use crate::link::shape::{frame_len, Settings};
use crate::plain::joiner::LONGEST;
use reference::patterns::Draws;

/// W, T, B, N, L: frames of 16, 30, 78, 526 and 1,038 bytes.
pub const SETTINGS: [Settings; 5] =
    [[2, 1, 1, 1, 1], [12, 6, 3, 2, 2], [12, 6, 3, 2, 8], [16, 15, 1, 1, 32], [16, 8, 8, 1, 64]];

/// Which slots each aerial hears.
#[derive(Clone, Copy, Debug, PartialEq, Eq)]
pub enum Hearing {
    OwnLosses,
    Same,
    InTurns,
}

pub const HEARINGS: [Hearing; 3] = [Hearing::OwnLosses, Hearing::Same, Hearing::InTurns];

impl Hearing {
    /// The kind of pair as it is printed.
    pub fn name(self) -> &'static str {
        match self {
            Hearing::OwnLosses => "own losses",
            Hearing::Same => "the same",
            Hearing::InTurns => "in turns",
        }
    }

    /// Whether the first and whether the second aerial hears a slot.
    fn heard(self, draws: &mut Draws, slot: u32) -> [bool; 2] {
        match self {
            Hearing::OwnLosses => [0, 1].map(|_| draws.below(20) != 0),
            Hearing::Same => [true; 2],
            Hearing::InTurns => [0, 1].map(|odd| slot % 2 == odd),
        }
    }
}

/// A pair of recordings.
#[derive(Clone)]
pub struct Pair {
    pub settings: Settings,
    pub both: [Vec<u8>; 2],
    /// One more than the last slot.
    pub slots: u32,
}

impl Pair {
    /// Two full recordings, from slot 0 on.
    pub fn full(settings: Settings, hearing: Hearing) -> Pair {
        let (mut sender, mut draws) = (Sender::open(plain(), &settings, 0), Draws::start());
        let full = LONGEST - LONGEST % sender.frame.len();
        let (mut both, mut slots) = ([Vec::with_capacity(full), Vec::with_capacity(full)], 0);
        while both.iter().any(|recording| recording.len() < full) {
            sender.send_drawn();
            for (recording, heard) in both.iter_mut().zip(hearing.heard(&mut draws, slots)) {
                if heard && recording.len() < full {
                    recording.extend_from_slice(&sender.frame);
                }
            }
            slots += 1;
        }
        Pair { settings, both, slots }
    }

    /// Changes of it: one more or less of a recording's bytes, a frame too many, settings that aren't accepted, and
    /// another mark, settings, slot or body in a frame in the middle of either recording or of both.
    pub fn changed(&self) -> Vec<Pair> {
        let size = frame_len(&self.settings);
        let mut all = vec![Pair { settings: [0; 5], ..self.clone() }];
        for which in [0, 1] {
            let length = self.both[which].len();
            for changed in [length - 1, length + 1, length + size] {
                all.push(self.clone());
                all.last_mut().unwrap().both[which].resize(changed, 0);
            }
        }
        let places = [None, Some(0), Some(5), Some(10), Some(size - 1)];
        for (one, other) in places.iter().flat_map(|one| places.map(|other| (*one, other))) {
            let mut pair = self.clone();
            for (recording, place) in pair.both.iter_mut().zip([one, other]) {
                let middle = recording.len() / size / 2 * size;
                place.into_iter().for_each(|place| recording[middle + place] ^= 1);
            }
            all.push(pair);
        }
        all
    }
}
