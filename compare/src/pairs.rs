//! What checks of pairs of recordings met (document 02 §7): each number by code, the lanes, which
//! causes the two recordings had on their own, and the ends of what there is.

use std::collections::BTreeSet;

use reference::frame;
use reference::pair::pair_cause;
use reference::play::LONGEST;
use reference::settings::{every_code, Settings};
use reference::state::END;

use crate::report::{code_of, grouped, Counts};

/// The numbers of pairs with accepted settings.
const NUMBERS: [u32; 6] = [0, 2, 4, 5, 9, 10];
const NAMES: [&str; 6] = [
    "accepted",
    "refused with 2",
    "refused with 4",
    "refused with 5",
    "refused with 9",
    "refused with 10",
];

/// The numbers that a recording can have beside an empty one.
const ALONE: [u32; 5] = [0, 2, 4, 5, 9];

/// The most lanes.
const LANES: usize = 64;

#[derive(Default)]
pub struct Pairs {
    /// How often each of the numbers was met, by code.
    numbers: [Counts; 6],
    /// L of accepted pairs.
    lanes: BTreeSet<u8>,
    /// The numbers that the two recordings of a pair have, each beside an empty one.
    alone: BTreeSet<[u32; 2]>,
    /// Accepted pairs with a recording of 64 KiB.
    longest: usize,
    /// Accepted pairs with a slot past the last.
    past_last: usize,
    /// Accepted pairs of which both recordings have some slot.
    shared: usize,
    /// Messages that both aerials together promise and neither alone; each was whole, as sent.
    joined: usize,
}

impl Pairs {
    /// One pair and its number.
    pub fn add(&mut self, settings: &Settings, both: [&[u8]; 2], number: u32) {
        let Some(place) = NUMBERS.iter().position(|of| *of == number) else {
            return;
        };
        *self.numbers[place].entry(code_of(settings)).or_default() += 1;
        self.alone.insert(both.map(|recording| pair_cause(settings, recording, &[])));
        if number == 0 {
            self.add_accepted(settings, both);
        }
    }

    fn add_accepted(&mut self, settings: &Settings, both: [&[u8]; 2]) {
        let slots = both.map(|recording| slots(settings, recording));
        self.lanes.insert(settings.lanes);
        self.longest += usize::from(both.iter().any(|recording| recording.len() == LONGEST));
        self.past_last += usize::from(slots.iter().flatten().any(|slot| *slot >= END));
        self.shared += usize::from(slots[0].iter().any(|slot| slots[1].contains(slot)));
    }

    /// One message that both aerials together promise and neither alone, and that was whole.
    pub fn add_joined(&mut self) {
        self.joined += 1;
    }

    /// What every code must have met: what it is called, how often each code met it, and how many
    /// codes there are.
    pub fn demands(&self) -> [(&'static str, &Counts, usize); 6] {
        let every = every_code().len();
        std::array::from_fn(|place| (NAMES[place], &self.numbers[place], every))
    }

    /// The other counts: what is counted, how often it was met, and how often it must have been.
    fn others(&self) -> [(&'static str, usize, usize); 6] {
        [
            ("different L of accepted pairs", self.lanes.len(), LANES),
            (
                "different numbers of the two recordings of a pair, each on its own",
                self.alone.len(),
                ALONE.len() * ALONE.len(),
            ),
            ("accepted pairs with a recording of 64 KiB", self.longest, 1),
            ("accepted pairs with a slot past the last", self.past_last, 1),
            ("accepted pairs with a slot that both have", self.shared, 1),
            (
                "messages due by both aerials together and by neither alone, all whole",
                self.joined,
                1,
            ),
        ]
    }

    pub fn text(&self) -> String {
        let lines = self.others().map(|(name, met, _)| format!("{name}: {}", grouped(met)));
        lines.join("\n")
    }

    /// What is missing for the comparison to count.
    pub fn missing(&self) -> Vec<String> {
        let short = self.others().into_iter().filter(|(_, met, due)| met < due);
        short.map(|(name, met, due)| format!("{name}: {met}, and not {due} or more")).collect()
    }
}

/// The slots of a recording that is a whole number of frames.
fn slots(settings: &Settings, recording: &[u8]) -> BTreeSet<u32> {
    recording.chunks_exact(frame::length(settings)).map(frame::slot).collect()
}

#[cfg(test)]
mod tests {
    use super::*;

    /// Frames of these slots, back to back.
    fn recording(settings: &Settings, slots: &[u32]) -> Vec<u8> {
        let body = vec![0; frame::body_length(settings)];
        slots.iter().flat_map(|slot| frame::of(settings, *slot, &body)).collect()
    }

    /// The same with another byte at this place.
    fn changed(recording: &[u8], place: usize) -> Vec<u8> {
        let mut bytes = recording.to_vec();
        bytes[place] ^= 1;
        bytes
    }

    /// Adds a pair, whose number is the reference's.
    fn add(pairs: &mut Pairs, settings: &Settings, both: [&[u8]; 2]) {
        pairs.add(settings, both, pair_cause(settings, both[0], both[1]));
    }

    #[test]
    fn each_number_counts_by_code() {
        let mut pairs = Pairs::default();
        let met = |pairs: &Pairs| pairs.demands().map(|(_, counts, _)| counts.len());
        let [card, other] = [Settings::of_code(3, 2, 2), Settings::of_code(4, 2, 2)];
        let one = recording(&card, &[1]);
        let [marked, set, unlike] = [0, 5, 14].map(|place| changed(&one, place));
        let falling = [&one[..], &one].concat();
        let all = [&one[..], &one[1..], &marked, &set, &falling, &unlike];
        for (count, first) in all.into_iter().enumerate() {
            assert_eq!(met(&pairs), std::array::from_fn(|place| usize::from(place < count)));
            add(&mut pairs, &card, [first, &one]);
        }
        // Settings that are not accepted have no code.
        add(&mut pairs, &Settings { lanes: 0, ..card }, [&one, &one]);
        assert_eq!(met(&pairs), [1; 6]);
        add(&mut pairs, &other, [&[], &[]]);
        assert_eq!(met(&pairs), [2, 1, 1, 1, 1, 1]);
    }

    #[test]
    fn the_ends_of_what_there_is_are_missing_until_they_were_met() {
        let mut pairs = Pairs::default();
        let code = Settings::of_code(1, 1, 1);
        assert_eq!(pairs.missing().len(), 6);
        let longest = recording(&code, &Vec::from_iter(0..4096));
        assert_eq!(longest.len(), LONGEST);
        add(&mut pairs, &code, [&longest, &[]]);
        assert_eq!((pairs.longest, pairs.past_last, pairs.shared), (1, 0, 0));
        let last = [recording(&code, &[END - 1]), recording(&code, &[END - 1, END])];
        add(&mut pairs, &code, [&last[0], &[]]);
        assert_eq!((pairs.longest, pairs.past_last, pairs.shared), (1, 0, 0));
        add(&mut pairs, &code, [&last[0], &last[1]]);
        assert_eq!((pairs.longest, pairs.past_last, pairs.shared), (1, 1, 1));
        pairs.add_joined();
        assert_eq!(pairs.missing().len(), 2);
    }

    #[test]
    fn every_choice_of_two_numbers_and_every_lane_are_due() {
        let mut pairs = Pairs::default();
        let code = Settings::of_code(1, 1, 1);
        let one = recording(&code, &[7]);
        let [marked, set] = [0, 5].map(|place| changed(&one, place));
        let falling = [&one[..], &one].concat();
        let all = [&one[..], &one[1..], &marked, &set, &falling];
        for (first, second) in all.iter().flat_map(|first| all.map(|second| (*first, second))) {
            assert!(pairs.missing().iter().any(|text| text.starts_with("different numbers")));
            add(&mut pairs, &code, [first, second]);
        }
        assert!(!pairs.missing().iter().any(|text| text.starts_with("different numbers")));
        for lanes in 1..=64 {
            assert!(lanes == 1 || pairs.missing()[0].starts_with("different L"));
            add(&mut pairs, &Settings { lanes, ..code }, [&[], &[]]);
        }
        assert!(!pairs.missing()[0].starts_with("different L"));
    }
}
