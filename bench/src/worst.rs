//! The losses after which a report of ours takes most instructions, looked for by callgrind's counts.

use crate::cases::Case;
use crate::engine::Engine;
use crate::history::Reporting;
use crate::instructions::repeat;
use crate::operation::{pattern, Losses};
use crate::shapes::{Shape, SHAPES};
use crate::table::EARLY;
use crate::valgrind::Callgrind;
use reference::patterns::Draws;
use std::cmp::Reverse;
use std::collections::BTreeMap;

/// Of so few slots all losses are tried.
const ALL: usize = 10;
/// Of more slots so many climbs are begun.
const CLIMBS: usize = 12;

/// What a search found.
#[derive(Debug, PartialEq, Eq)]
pub struct Found {
    pub losses: Losses,
    pub cost: u64,
    /// How many losses were tried.
    pub tried: usize,
}

/// Losses of most cost among so many slots: all are tried, or each climb goes on with the one slot more or less that
/// costs most, until none costs more.
pub fn search(slots: usize, cost: impl FnMut(Losses) -> u64) -> Found {
    let mut costs = Costs { cost, known: BTreeMap::new() };
    if slots <= ALL {
        costs.known = (0..1 << slots).map(|losses| (losses, (costs.cost)(losses))).collect();
    } else {
        starts(slots).into_iter().for_each(|start| costs.climb(slots, start));
    }
    let most = costs.known.iter().max_by_key(|(losses, cost)| (**cost, Reverse(**losses)));
    let (&losses, &cost) = most.expect("some losses were tried");
    Found { losses, cost, tried: costs.known.len() }
}

/// Where the climbs begin: nothing lost, and drawn losses of one slot in two, four and eight.
fn starts(slots: usize) -> Vec<Losses> {
    let mut draws = Draws::start();
    let mut drawn = |odds: usize| (0..slots).filter(|_| draws.below(odds) == 0).map(|x| 1 << x).sum();
    (0..CLIMBS).map(|climb| if climb == 0 { 0 } else { drawn([2, 4, 8][climb % 3]) }).collect()
}

/// The costs of losses, each worked out once.
struct Costs<F> {
    cost: F,
    known: BTreeMap<Losses, u64>,
}

impl<F: FnMut(Losses) -> u64> Costs<F> {
    /// The cost of these losses.
    fn of(&mut self, losses: Losses) -> u64 {
        *self.known.entry(losses).or_insert_with(|| (self.cost)(losses))
    }

    /// A climb from these losses.
    fn climb(&mut self, slots: usize, start: Losses) {
        let mut at = start;
        loop {
            let most = (0..slots).map(|x| at ^ 1 << x).max_by_key(|&losses| self.of(losses)).unwrap_or(at);
            if self.of(most) <= self.of(at) {
                return;
            }
            at = most;
        }
    }
}

/// A search for each shape, with 64 lanes.
pub fn print(ours: Engine, callgrind: &mut Callgrind) {
    println!("# The worst losses\n");
    println!(
        "The losses among slots t − k + 1 to t + T, with slot t set apart, after which the report of slot t + T takes \
         most instructions by callgrind, L = 64, with the sender's own frames. Of up to {ALL} slots all losses are \
         tried. Of more, {CLIMBS} climbs begin at nothing lost and at drawn losses, and change the one slot that adds \
         most, again and again, until none adds any. The losses kept in bench/src/shapes.rs are timed and counted.\n"
    );
    println!("| (k, B) | worst losses | as a number | instructions | tried | kept |");
    println!("|---|---|--:|--:|--:|---|");
    for shape in SHAPES {
        let found = of_shape(ours, callgrind, &shape);
        let (losses, kept) = (found.losses, if found.losses == shape.worst { "these" } else { "others" });
        let text = pattern(&shape, losses);
        println!("| {} | {text} | {losses:#x} | {} | {} | {kept} |", shape.name(), found.cost, found.tried);
    }
}

/// The search for one shape.
fn of_shape(ours: Engine, callgrind: &mut Callgrind, shape: &Shape) -> Found {
    let heard = Reporting::from(&shape.settings(64), EARLY);
    search(shape.slots(), |losses| {
        let mut case = Case::report(ours, &heard.without(losses));
        callgrind.count(|| repeat(&mut case, 1))
    })
}

#[cfg(test)]
mod tests {
    use super::{search, Found, ALL};

    #[test]
    fn a_climb_finds_the_top_of_a_hill() {
        let top = 0b1001_0110_0000_1100_0101;
        let found = search(20, |losses| 1000 - u64::from((losses ^ top).count_ones()));
        assert_eq!((found.losses, found.cost), (top, 1000));
        assert!(found.tried < 1 << 12, "{}", found.tried);
    }

    #[test]
    fn of_few_slots_a_lonely_peak_is_found() {
        let found = search(ALL, |losses| if losses == 0x25A { 100 } else { u64::from(losses.count_ones()) });
        assert_eq!(found, Found { losses: 0x25A, cost: 100, tried: 1 << ALL });
    }
}
