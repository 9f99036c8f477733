//! The times of the joiner, and the table of them.

use super::pairs::{Hearing, Pair, HEARINGS, SETTINGS};
use super::Joiner;
use crate::link::shape::{frame_len, Settings};
use crate::measure::{repeated, times, Call, Times};
use crate::table::{or_dash, SAMPLES};
use std::array;
use std::hint::black_box;

/// What is timed.
#[derive(Clone, Copy, Debug, PartialEq, Eq)]
pub enum Operation {
    Join,
    AllSlots,
    OneSlot,
}

pub const OPERATIONS: [Operation; 3] = [Operation::Join, Operation::AllSlots, Operation::OneSlot];

impl Operation {
    /// The operation as it is printed.
    pub fn name(self) -> &'static str {
        match self {
            Operation::Join => "join",
            Operation::AllSlots => "check and all slots",
            Operation::OneSlot => "one slot, without the check",
        }
    }
}

/// One line of the table.
pub struct Line {
    /// The length of a frame.
    size: usize,
    hearing: Hearing,
    slots: u32,
    pub operation: Operation,
    ours: Option<Time>,
    plain: Time,
    quick: Time,
}

/// The median, and how a time is printed.
#[derive(Clone)]
struct Time {
    median: f64,
    text: String,
}

/// A time with its spread.
impl From<Times> for Time {
    fn from(times: Times) -> Time {
        Time { median: times.median, text: times.to_string() }
    }
}

impl Line {
    /// The pair as it is printed.
    pub fn name(&self) -> String {
        format!("{} bytes, {}", self.size, self.hearing.name())
    }

    /// How many times plain's time ours takes.
    pub fn to_plain(&self) -> Option<f64> {
        self.ours.as_ref().map(|ours| ours.median / self.plain.median)
    }

    /// How many times quick's time ours takes.
    pub fn to_quick(&self) -> Option<f64> {
        self.ours.as_ref().map(|ours| ours.median / self.quick.median)
    }
}

/// All lines, three of each pair.
pub fn lines(versions: &[Joiner]) -> Vec<Line> {
    let each = SETTINGS.into_iter().flat_map(|settings| HEARINGS.map(|hearing| (settings, hearing)));
    each.flat_map(|(settings, hearing)| of_pair(versions, settings, hearing)).collect()
}

/// The lines of one pair: all versions in turns.
fn of_pair(versions: &[Joiner], settings: Settings, hearing: Hearing) -> [Line; 3] {
    let pair = Pair::full(settings, hearing);
    let mut calls: Vec<Call> = versions.iter().flat_map(|version| calls(*version, &pair)).collect();
    let found = times(&mut calls, SAMPLES);
    let of = |name| {
        let index = versions.iter().position(|version| version.name == name)?;
        Some(three_times(&found[3 * index..][..3], pair.slots))
    };
    let [plain, quick] = ["plain", "quick"].map(|name| of(name).expect("it is always there"));
    let ours = of("ours");
    let (size, slots) = (frame_len(&settings), pair.slots);
    array::from_fn(|at| {
        let (operation, ours) = (OPERATIONS[at], ours.as_ref().map(|ours| ours[at].clone()));
        Line { size, hearing, slots, operation, ours, plain: plain[at].clone(), quick: quick[at].clone() }
    })
}

/// The calls of a version: a join for a slot in the middle, all slots, and none of them, which is the check.
fn calls<'a>(version: Joiner, pair: &'a Pair) -> [Call<'a>; 3] {
    let lent = move || {
        let [first, second] = black_box(&pair.both);
        (black_box(&pair.settings), &first[..], &second[..])
    };
    let heard = move |slots| {
        repeated(move || {
            let (settings, first, second) = lent();
            black_box((version.heard_slots)(settings, first, second, slots));
        })
    };
    let join = repeated(move || {
        let (settings, first, second) = lent();
        black_box((version.joined_len)(settings, first, second, pair.slots / 2));
    });
    [join, heard(pair.slots), heard(0)]
}

/// The times of the operations, by those of the calls.
fn three_times(found: &[Times], slots: u32) -> [Time; 3] {
    let slot = (found[1].median - found[2].median) / f64::from(slots);
    [found[0].into(), found[1].into(), Time { median: slot, text: format!("{slot:.1}") }]
}

/// The lines as a table.
pub fn print(lines: &[Line]) {
    println!("\n## The joiner\n");
    println!(
        "Nanoseconds a call for two full recordings of one meeting, at most 64 KiB each: each loses one slot in twenty \
         on its own, both have every slot, or the first has the even slots and the second the odd ones. A join checks \
         the pair and finds a slot in the middle. After one check all slots are found one by one; one slot is that \
         less the check alone, by medians, divided by the slots."
    );
    println!(
        "Plain follows document 02 §7 word by word: it looks for each cause in both recordings before the next, walks \
         over both together, and finds a slot by halving. Quick checks each recording in one walk, with one comparison \
         for a frame's first ten bytes, and works out the cause only for a refused pair: it is for the record."
    );
    println!("\n| frame | pair | slots | operation | ours | plain | ours / plain | quick | ours / quick |");
    println!("|---|---|---|---|---|---|---|---|---|");
    for line in lines {
        let over = |ratio: Option<f64>| or_dash(ratio.map(|ratio| format!("{ratio:.2}")));
        let cells = [
            line.size.to_string(),
            line.hearing.name().into(),
            line.slots.to_string(),
            line.operation.name().into(),
            or_dash(line.ours.as_ref().map(|ours| ours.text.clone())),
            line.plain.text.clone(),
            over(line.to_plain()),
            line.quick.text.clone(),
            over(line.to_quick()),
        ];
        println!("| {} |", cells.join(" | "));
    }
}
