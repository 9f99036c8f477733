//! What each L met: accepted sends, reports and look-ups with every k, and clashes by the damage of
//! one lane alone.

use std::collections::{BTreeMap, BTreeSet};

use reference::settings::Settings;

use crate::call::Kind;

/// The most lanes.
pub const LANES: u8 = 64;
/// The most source symbols. Codes are grouped by k: each k from 1 to this one is a group.
pub const SYMBOLS: usize = 15;

/// The replies that are due with every L, and with every k that can have them.
const REPLIES: [(Kind, u32); 7] = [
    (Kind::Send, 0),
    (Kind::Heard, 17),
    (Kind::Heard, 18),
    (Kind::Heard, 19),
    (Kind::Lost, 17),
    (Kind::Lost, 18),
    (Kind::LookUp, 17),
];

/// The first lane and the last of each 16: where vectors of 16, 32 or 64 bytes begin and end.
const EDGES: [u8; 8] = [0, 15, 16, 31, 32, 47, 48, 63];
/// Where L is one of these, every lane is to be damaged.
const EVERY_LANE: [u8; 2] = [16, 64];

/// Where the byte stands that was damaged.
#[derive(Clone, Copy, Debug, PartialEq, Eq, PartialOrd, Ord)]
pub enum Damage {
    Frame,
    Rows,
}

#[derive(Default)]
pub struct Lanes {
    /// The k and L of each accepted reply of each kind of call.
    replies: BTreeMap<(Kind, u32), BTreeSet<(usize, u8)>>,
    /// The L and the lane, where damage of that lane alone made a frame report clash.
    damaged: BTreeMap<Damage, BTreeSet<(u8, u8)>>,
}

impl Lanes {
    /// One accepted call and its reply.
    pub fn add(&mut self, kind: Kind, reply: u32, settings: &Settings) {
        let met = self.replies.entry((kind, reply)).or_default();
        met.insert((settings.k(), settings.lanes));
    }

    /// One frame report that clashed, all but one byte of this lane being true.
    pub fn add_damaged(&mut self, damage: Damage, settings: &Settings, lane: u8) {
        self.damaged.entry(damage).or_default().insert((settings.lanes, lane));
    }

    /// What is counted, and how many pairs there are of it: those met, those due, and the first
    /// that is due and was not met.
    fn counts(&self) -> Vec<(String, usize, usize, Option<String>)> {
        let replies = REPLIES.map(|of| {
            let name = format!("k and L of {} with reply {}", of.0.name(), of.1);
            let (met, due, first) = beside(self.replies.get(&of), groups(of));
            (name, met, due, first.map(|(k, lanes)| format!("k = {k}, L = {lanes}")))
        });
        let damages = [(Damage::Frame, "a frame"), (Damage::Rows, "rows")].map(|(damage, text)| {
            let name = format!("L and lane of a clash by damage of that lane alone, in {text}");
            let (met, due, first) = beside(self.damaged.get(&damage), every_damage());
            (name, met, due, first.map(|(lanes, lane)| format!("L = {lanes}, lane {lane}")))
        });
        replies.into_iter().chain(damages).collect()
    }

    pub fn text(&self) -> String {
        let lines = self.counts().into_iter().map(|(name, met, ..)| format!("{name}: {met}"));
        lines.collect::<Vec<_>>().join("\n")
    }

    /// What is missing for the comparison to count.
    pub fn missing(&self) -> Vec<String> {
        let short = self.counts().into_iter().filter_map(|(name, met, due, first)| {
            Some(format!("{name}: {met} and not {due}, the first without is {}", first?))
        });
        short.collect()
    }
}

/// How many were met, how many are due, and the first that is due and was not met.
fn beside<A: Copy + Ord>(
    met: Option<&BTreeSet<A>>,
    mut due: impl Iterator<Item = A> + Clone,
) -> (usize, usize, Option<A>) {
    let count = due.clone().count();
    let first = due.find(|of| !met.is_some_and(|met| met.contains(of)));
    (met.map_or(0, BTreeSet::len), count, first)
}

/// Every k and L of which calls can have this reply. Where k is 1, the frame of slot t + T alone
/// tells message t, which is then not lost.
fn groups(reply: (Kind, u32)) -> impl Iterator<Item = (usize, u8)> + Clone {
    let least = if reply == (Kind::Heard, 18) { 2 } else { 1 };
    (1..=LANES).flat_map(move |lanes| (least..=SYMBOLS).map(move |k| (k, lanes)))
}

/// Every L with each lane that is to be damaged.
fn every_damage() -> impl Iterator<Item = (u8, u8)> + Clone {
    (1..=LANES).flat_map(|lanes| damaged_lanes(lanes).map(move |lane| (lanes, lane)))
}

/// The lanes that are to be damaged, each alone: the last, those at the edges, and for some L all.
pub fn damaged_lanes(lanes: u8) -> impl Iterator<Item = u8> + Clone {
    let every = EVERY_LANE.contains(&lanes);
    (0..lanes).filter(move |lane| every || EDGES.contains(lane) || lane + 1 == lanes)
}

#[cfg(test)]
mod tests {
    use reference::settings::every_code;

    use super::*;

    #[test]
    fn each_reply_is_missing_until_every_l_met_it_with_every_k() {
        let codes = every_code();
        let with = |k: usize| *codes.iter().find(|code| code.k() == k).expect("a code of this k");
        for of in REPLIES {
            let name = format!("k and L of {} with reply {}:", of.0.name(), of.1);
            let mut lanes = Lanes::default();
            for (count, (k, l)) in groups(of).enumerate() {
                let missing = lanes.missing();
                let text = missing.iter().find(|text| text.starts_with(&name)).expect("missing");
                assert!(text.contains(&format!(": {count} and not ")), "{text}");
                assert!(text.ends_with(&format!("k = {k}, L = {l}")), "{text}");
                lanes.add(of.0, of.1, &Settings { lanes: l, ..with(k) });
            }
            assert!(!lanes.missing().iter().any(|text| text.starts_with(&name)));
            assert_eq!(lanes.missing().len(), REPLIES.len() + 1);
        }
        let counts = REPLIES.map(|of| groups(of).count());
        assert_eq!(counts, [960, 960, 960 - 64, 960, 960, 960, 960]);
    }

    #[test]
    fn each_lane_is_missing_until_it_was_damaged_in_a_frame_and_in_rows() {
        let mut lanes = Lanes::default();
        for (without, damage) in [(2, Damage::Frame), (1, Damage::Rows)] {
            for (l, lane) in every_damage() {
                let missing = lanes.missing();
                assert_eq!(missing.len(), REPLIES.len() + without);
                let text = format!("the first without is L = {l}, lane {lane}");
                assert!(missing[REPLIES.len()].ends_with(&text), "{missing:?}");
                let settings = Settings { lanes: l, ..Settings::of_code(3, 2, 2) };
                lanes.add_damaged(damage, &settings, lane);
            }
        }
        assert_eq!(lanes.missing().len(), REPLIES.len());
    }

    #[test]
    fn the_lanes_that_are_damaged() {
        assert!((1..=LANES).all(|lanes| damaged_lanes(lanes).last() == Some(lanes - 1)));
        assert!([16, 64].iter().all(|&lanes| damaged_lanes(lanes).eq(0..lanes)));
        assert!(damaged_lanes(1).eq([0]));
        assert!(damaged_lanes(33).eq([0, 15, 16, 31, 32]));
        assert!(damaged_lanes(60).eq([0, 15, 16, 31, 32, 47, 48, 59]));
    }
}
