//! What the two calls met that tell a slot, from a state and from a frame: which slots were told,
//! which lengths and marks were refused, and the frames that were reported out of their slot.

use std::collections::BTreeSet;

use reference::frame::{self, HEADER, MARK, VERSION};
use reference::state::END;

use crate::call::{number_of, Call, Kind};
use crate::model::{settings_of, DUE, RECEIVER, SENDER};
use crate::report::grouped;

/// Slots that must have been told: the first, the last, the one behind it, and the greatest number.
pub const ENDS: [u32; 4] = [0, END - 1, END, u32::MAX];
/// States of every length up to this one are refused, but for the right one; frames of every length
/// up to this one are refused or accepted.
pub const LENGTHS: usize = 40;

/// What a slot is read from.
#[derive(Clone, Copy, Debug, PartialEq, Eq, PartialOrd, Ord)]
enum Source {
    Sender,
    Receiver,
    Frame,
}

#[derive(Default)]
pub struct Slots {
    /// Those of the ends that were told.
    ends: BTreeSet<(Source, u32)>,
    /// The place of the only byte that was not 0 in a slot that was told.
    bytes: BTreeSet<(Source, usize)>,
    /// Lengths refused with 2, and accepted ones of frames.
    refused_lengths: BTreeSet<(Kind, usize)>,
    accepted_lengths: BTreeSet<usize>,
    /// The place of the only byte for which a mark or a version was refused.
    marks: BTreeSet<(Kind, usize)>,
    /// Settings refused with 1, by the end whose mark the state had.
    settings: BTreeSet<Source>,
    /// Refused with 2 where another cause held as well: a mark, or settings behind a right mark.
    mark_behind_length: BTreeSet<Kind>,
    settings_behind_length: BTreeSet<Source>,
    /// Frames refused with 6 whose slot was told to be above the slot due, and below it.
    early: usize,
    late: usize,
}

impl Slots {
    /// One call and its reply; the things are as they were lent.
    pub fn add(&mut self, call: &Call, reply: u32) {
        let of = &call.things[0];
        match call.kind {
            Kind::SlotDue => self.add_state(of, reply),
            Kind::FrameSlot => self.add_frame(of, reply),
            _ => (),
        }
    }

    /// One frame that was refused with 6, with the slot due and its own.
    pub fn add_other(&mut self, due: u32, slot: u32) {
        self.early += usize::from(slot > due);
        self.late += usize::from(slot < due);
    }

    fn add_state(&mut self, state: &[u8], reply: u32) {
        let (end, refused) = (end_of(state), has_bad_settings(state));
        match (reply, end) {
            (0, Some(end)) => self.add_told(end, number_of(&state[DUE])),
            (1, None) if !refused => self.add_mark(Kind::SlotDue, &changed(state, &SENDER)),
            (1, _) => self.settings.extend(end),
            _ => {
                self.refused_lengths.insert((Kind::SlotDue, state.len()));
                self.settings_behind_length.extend(end.filter(|_| refused));
                if end.is_none() && state.len() >= SENDER.len() {
                    self.mark_behind_length.insert(Kind::SlotDue);
                }
            }
        }
    }

    fn add_frame(&mut self, frame: &[u8], reply: u32) {
        let start = [&MARK[..], &VERSION.to_be_bytes()].concat();
        match reply {
            0 => {
                self.add_told(Source::Frame, frame::slot(frame));
                self.accepted_lengths.insert(frame.len());
            }
            4 => self.add_mark(Kind::FrameSlot, &changed(frame, &start)),
            _ => {
                self.refused_lengths.insert((Kind::FrameSlot, frame.len()));
                if !changed(frame, &start).is_empty() {
                    self.mark_behind_length.insert(Kind::FrameSlot);
                }
            }
        }
    }

    fn add_told(&mut self, source: Source, slot: u32) {
        if ENDS.contains(&slot) {
            self.ends.insert((source, slot));
        }
        if let [place] = changed(&slot.to_be_bytes(), &[0; 4])[..] {
            self.bytes.insert((source, place));
        }
    }

    /// Counts where it is one byte alone.
    fn add_mark(&mut self, kind: Kind, changed: &[usize]) {
        if let [place] = changed {
            self.marks.insert((kind, *place));
        }
    }

    /// What is counted, how often it was met, and how often it must have been.
    fn counts(&self) -> [(&'static str, usize, usize); 10] {
        let short = |lengths: &BTreeSet<usize>| lengths.iter().filter(|of| **of <= LENGTHS).count();
        let refused = |kind| {
            let of_kind = self.refused_lengths.iter().filter(|(of, _)| *of == kind);
            short(&of_kind.map(|(_, length)| *length).collect())
        };
        [
            (
                "ends of the slots told, of both states and of frames",
                self.ends.len(),
                3 * ENDS.len(),
            ),
            ("bytes that alone told a slot, of both states and of frames", self.bytes.len(), 3 * 4),
            ("lengths of a state refused with 2, up to 40", refused(Kind::SlotDue), LENGTHS),
            ("lengths of a frame refused with 2", refused(Kind::FrameSlot), HEADER),
            (
                "lengths of a frame with a slot, up to 40",
                short(&self.accepted_lengths),
                LENGTHS + 1 - HEADER,
            ),
            (
                "bytes of a mark or a version refused, of states and of frames",
                self.marks.len(),
                4 + 5,
            ),
            (
                "states refused with 1 for their settings, and with 2 before that, of both ends",
                self.settings.len() + self.settings_behind_length.len(),
                4,
            ),
            (
                "marks behind a length refused with 2, of states and of frames",
                self.mark_behind_length.len(),
                2,
            ),
            ("frames refused with 6 and told to be early", self.early, 1),
            ("frames refused with 6 and told to be late", self.late, 1),
        ]
    }

    pub fn text(&self) -> String {
        let lines = self.counts().map(|(name, met, _)| format!("{name}: {}", grouped(met)));
        lines.join("\n")
    }

    /// What is missing for the comparison to count.
    pub fn missing(&self) -> Vec<String> {
        let short = self.counts().into_iter().filter(|(_, met, due)| met < due);
        short.map(|(name, met, due)| format!("{name}: {met}, and not {due} or more")).collect()
    }
}

/// The end whose mark a state has.
fn end_of(state: &[u8]) -> Option<Source> {
    let marks = [(Source::Sender, SENDER), (Source::Receiver, RECEIVER)];
    marks.into_iter().find(|(_, mark)| state.starts_with(mark)).map(|(end, _)| end)
}

/// Whether a state, of any length, has settings that are not accepted.
fn has_bad_settings(state: &[u8]) -> bool {
    let settings = state.get(4..9).and_then(|bytes| bytes.try_into().ok()).map(settings_of);
    settings.is_some_and(|settings| !settings.accepted())
}

/// The places at which what there is of the bytes is not as it should be.
fn changed(bytes: &[u8], right: &[u8]) -> Vec<usize> {
    let pairs = bytes.iter().zip(right).enumerate();
    pairs.filter(|(_, (byte, right))| byte != right).map(|(place, _)| place).collect()
}

#[cfg(test)]
mod tests {
    use reference::settings::Settings;
    use reference::state::{ReceiverState, SenderState};

    use super::*;
    use crate::model::{by_reference, receiver_bytes, sender_bytes};

    /// The code of the tests, and settings that are not accepted.
    fn good_and_bad() -> [Settings; 2] {
        let good = Settings::of_code(3, 2, 2);
        [good, Settings { lanes: 65, ..good }]
    }

    /// The states of both ends, and a frame.
    fn things(settings: Settings, slot: u32) -> [(Kind, Vec<u8>); 3] {
        let receiver = ReceiverState { settings, opened_at: 5, due: slot };
        [
            (Kind::SlotDue, sender_bytes(&SenderState { settings, due: slot })),
            (Kind::SlotDue, receiver_bytes(&receiver)),
            (Kind::FrameSlot, frame::of(&settings, slot, &[7; 60])),
        ]
    }

    /// Adds the call with the reference's reply.
    fn add(slots: &mut Slots, kind: Kind, bytes: &[u8]) {
        let call = Call { kind, things: vec![bytes.to_vec(), vec![7; 4]] };
        let reply = by_reference(kind, &mut call.clone().things);
        slots.add(&call, reply);
    }

    /// How often each count was met.
    fn met(slots: &Slots) -> [usize; 10] {
        slots.counts().map(|(_, met, _)| met)
    }

    /// The bytes with another one at this place.
    fn changed_at(bytes: &[u8], place: usize) -> Vec<u8> {
        let mut bytes = bytes.to_vec();
        bytes[place] ^= 0x80;
        bytes
    }

    #[test]
    fn the_ends_and_each_byte_of_a_slot_count_for_states_and_frames() {
        let mut slots = Slots::default();
        for (count, slot) in ENDS.into_iter().enumerate() {
            assert_eq!(met(&slots)[..2], [3 * count, 0]);
            things(good_and_bad()[0], slot)
                .iter()
                .for_each(|(kind, of)| add(&mut slots, *kind, of));
        }
        for (count, slot) in [1, 0x200, 0x30000, 0x4000000].into_iter().enumerate() {
            assert_eq!(met(&slots)[..2], [12, 3 * count]);
            things(good_and_bad()[0], slot)
                .iter()
                .for_each(|(kind, of)| add(&mut slots, *kind, of));
        }
        assert_eq!(met(&slots)[..2], [12, 12]);
        things(good_and_bad()[0], 0x101).iter().for_each(|(kind, of)| add(&mut slots, *kind, of));
        assert_eq!(met(&slots), [12, 12, 0, 0, 0, 0, 0, 0, 0, 0]);
    }

    #[test]
    fn each_length_counts_once_and_with_it_the_causes_behind_it() {
        let mut slots = Slots::default();
        let [sender, receiver, frame] = things(good_and_bad()[0], 9).map(|(_, bytes)| bytes);
        let long = [&sender[..], &[0; 30]].concat();
        for length in 0..=LENGTHS + 1 {
            add(&mut slots, Kind::SlotDue, &long[..length]);
            add(&mut slots, Kind::FrameSlot, &frame[..length]);
        }
        assert_eq!(met(&slots), [0, 2, 40, 14, 27, 0, 0, 0, 0, 0]);
        add(&mut slots, Kind::SlotDue, &changed_at(&receiver, 3)[..19]);
        assert_eq!(met(&slots)[6..8], [0, 1]);
        add(&mut slots, Kind::FrameSlot, &changed_at(&frame, 4)[..13]);
        assert_eq!(met(&slots)[6..8], [0, 2]);
        let [sender, receiver, _] = things(good_and_bad()[1], 9).map(|(_, bytes)| bytes);
        for (count, bytes) in
            [&sender[..], &sender[1..19], &sender[..19], &receiver[..9], &receiver]
                .iter()
                .enumerate()
        {
            add(&mut slots, Kind::SlotDue, bytes);
            assert_eq!(met(&slots)[6], [1, 1, 2, 3, 4][count]);
        }
    }

    #[test]
    fn each_byte_of_a_mark_counts_where_it_alone_is_wrong() {
        let mut slots = Slots::default();
        let [sender, _, frame] = things(good_and_bad()[0], 9).map(|(_, bytes)| bytes);
        add(&mut slots, Kind::SlotDue, &changed_at(&changed_at(&sender, 0), 1));
        add(&mut slots, Kind::FrameSlot, &changed_at(&changed_at(&frame, 0), 4));
        assert_eq!(met(&slots)[5], 0);
        for place in 0..4 {
            assert_eq!(met(&slots)[5], place);
            add(&mut slots, Kind::SlotDue, &changed_at(&sender, place));
        }
        for place in 0..5 {
            assert_eq!(met(&slots)[5], 4 + place);
            add(&mut slots, Kind::FrameSlot, &changed_at(&frame, place));
        }
        assert_eq!(met(&slots)[5], 9);
    }

    #[test]
    fn early_and_late_frames_are_missing_until_they_were_met() {
        let mut slots = Slots::default();
        assert_eq!(slots.missing().len(), 10);
        slots.add_other(5, 5);
        assert_eq!(slots.missing().len(), 10);
        slots.add_other(5, 9);
        assert_eq!((slots.missing().len(), met(&slots)[8..].to_vec()), (9, vec![1, 0]));
        slots.add_other(5, 0);
        assert_eq!((slots.missing().len(), met(&slots)[8..].to_vec()), (8, vec![1, 1]));
    }
}
