//! Calls that are timed one by one, warm and cold, and the table of their percentiles.

use crate::cases::Case;
use crate::cold::{flush, Program};
use crate::engine::Engine;
use crate::operation::Operation;
use crate::shapes::{Shape, SHAPES};
use crate::table::{or_dash, EARLY};
use std::hint::black_box;
use std::time::Instant;

/// Calls of each version.
const WARM: usize = 20_000;
const COLD: usize = 2_000;
/// Warm calls of one version before the other's turn.
const A_TURN: usize = 1_000;

/// What is timed so.
const OPERATIONS: [Operation; 4] = [Operation::Send, Operation::NothingLost, Operation::Burst, Operation::Worst];

/// Nanoseconds of single calls.
#[derive(Clone, Copy, Debug, PartialEq, Eq)]
pub struct Percentiles {
    pub median: u64,
    pub ninetieth: u64,
    pub ninety_ninth: u64,
    pub largest: u64,
}

impl Percentiles {
    /// The percentiles of samples: so many in a hundred are no larger.
    pub fn of(mut samples: Vec<u64>) -> Percentiles {
        samples.sort_unstable();
        let at = |percent: usize| samples[(samples.len() * percent).div_ceil(100) - 1];
        Percentiles { median: at(50), ninetieth: at(90), ninety_ninth: at(99), largest: at(100) }
    }

    /// Four cells of a table.
    fn cells(&self) -> String {
        format!("{} | {} | {} | {}", self.median, self.ninetieth, self.ninety_ninth, self.largest)
    }
}

/// How long one call takes, with the clock.
fn one(call: impl FnOnce() -> u32) -> u64 {
    let start = Instant::now();
    black_box(call());
    start.elapsed().as_nanos() as u64
}

/// What the clock itself takes.
fn clock() -> Percentiles {
    Percentiles::of((0..WARM).map(|_| one(|| 0)).collect())
}

/// Single calls of each case, right after each other, in turns.
fn warm(cases: &mut [Case]) -> Vec<Percentiles> {
    let mut all = vec![Vec::with_capacity(WARM); cases.len()];
    for turn in 0..cases.len() * WARM / A_TURN {
        let which = turn % cases.len();
        let case = &mut cases[which];
        all[which].extend((0..A_TURN).map(|_| one(|| case.call())));
    }
    all.into_iter().map(Percentiles::of).collect()
}

/// Single calls of each case in turns, each with nothing of it in any cache.
fn cold(cases: &mut [Case], program: &Program) -> Vec<Percentiles> {
    let mut all = vec![Vec::with_capacity(COLD); cases.len()];
    for turn in 0..cases.len() * COLD {
        let which = turn % cases.len();
        let case = &mut cases[which];
        case.lent().into_iter().for_each(|bytes| flush(bytes));
        program.flush();
        all[which].push(one(|| case.call()));
    }
    all.into_iter().map(Percentiles::of).collect()
}

/// The table, for the first two shapes: ours, if it is there, and plain.
pub fn print(engines: &[Engine]) {
    header();
    let (program, both) = (Program::own(), engines.iter().filter(|engine| engine.name != "planes"));
    let each = [1, 64].into_iter().flat_map(|lanes| OPERATIONS.map(|operation| (lanes, operation)));
    for (shape, (lanes, operation)) in SHAPES[..2].iter().flat_map(|shape| each.clone().map(move |one| (shape, one))) {
        let case = |&engine: &Engine| Case::of(engine, operation, shape, lanes, EARLY);
        let mut cases: Vec<Case> = both.clone().map(case).collect();
        print_line(shape, lanes, operation, "warm", &warm(&mut cases));
        print_line(shape, lanes, operation, "cold", &cold(&mut cases, &program));
    }
}

/// How to read the table, and its head.
fn header() {
    let clock = clock();
    println!("\n## Single calls\n");
    println!(
        "Nanoseconds of calls that are timed one by one: half of them, 90 and 99 in 100 took no longer, and none took \
         longer than the largest. The clock itself takes {} ns (99 in 100: at most {}), which every time includes.",
        clock.median, clock.ninety_ninth
    );
    println!(
        "Warm: {WARM} calls of each version, {A_TURN} at a time in turns. Cold: {COLD} calls of each version, one at a \
         time in turns; before each, every cache line of the bytes that it is lent and of the program's own code, \
         constants and variables is flushed (clflush). The stack, the C library's functions that copy bytes, and what \
         the processor has learned of branches and addresses stay as they are.\n"
    );
    let four = |name| format!("{name}, median | 90 % | 99 % | largest");
    println!("| (k, B) | L | operation | caches | {} | {} |", four("ours"), four("plain"));
    println!("|---|--:|---|---|--:|--:|--:|--:|--:|--:|--:|--:|");
}

/// One line: plain is the last, and ours the first, if it is there.
fn print_line(shape: &Shape, lanes: u8, operation: Operation, caches: &str, found: &[Percentiles]) {
    let ours = if found.len() == 2 { found[0].cells() } else { "— | — | — | —".into() };
    println!(
        "| {} | {lanes} | {} | {caches} | {ours} | {} |",
        shape.name(),
        operation.name(shape),
        or_dash(found.last().map(Percentiles::cells))
    );
}

#[cfg(test)]
mod tests {
    use super::Percentiles;

    #[test]
    fn percentiles_of_a_thousand() {
        let shuffled = (0..1000).map(|i| 1 + i * 377 % 1000).collect();
        let found = Percentiles::of(shuffled);
        assert_eq!(found, Percentiles { median: 500, ninetieth: 900, ninety_ninth: 990, largest: 1000 });
        assert_eq!(Percentiles::of(vec![7]).median, 7);
    }
}
