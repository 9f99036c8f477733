//! The times of all shapes, lanes and operations, and the table of them.

use crate::cases::Case;
use crate::engine::Engine;
use crate::measure::{repeated, times, Call, Times};
use crate::operation::{Operation, TIMED};
use crate::peers::Peers;
use crate::shapes::{Shape, SHAPES};
use std::hint::black_box;

/// Batches of each call.
pub const SAMPLES: usize = 800;
/// The slot due from which a case is prepared.
pub const EARLY: u32 = 100;

/// One line of the table.
pub struct Line {
    pub shape: Shape,
    pub lanes: u8,
    pub operation: Operation,
    pub ours: Option<Times>,
    pub plain: Times,
    pub planes: Times,
    pub jerasure: Option<Times>,
    pub isal: Option<Times>,
}

/// The case as a call to be timed.
fn timed(case: &mut Case) -> Call<'_> {
    repeated(|| {
        black_box(case.call());
    })
}

/// The call of each of these engines, lanes and slots due, in turns.
pub fn beside(operation: Operation, shape: &Shape, which: &[(Engine, u8, u32)], samples: usize) -> Vec<Times> {
    let case = |&(engine, lanes, due): &(Engine, u8, u32)| Case::of(engine, operation, shape, lanes, due);
    let mut cases: Vec<Case> = which.iter().map(case).collect();
    let mut calls: Vec<Call> = cases.iter_mut().map(timed).collect();
    times(&mut calls, samples)
}

/// All lines.
pub fn lines(engines: &[Engine], peers: &Peers) -> Vec<Line> {
    let each = SHAPES.iter().flat_map(|shape| [1, 64].map(|lanes| (*shape, lanes)));
    each.flat_map(|(shape, lanes)| TIMED.map(|operation| line(engines, peers, shape, lanes, operation))).collect()
}

/// One line: all engines and peers in turns.
fn line(engines: &[Engine], peers: &Peers, shape: Shape, lanes: u8, operation: Operation) -> Line {
    let mut cases: Vec<_> =
        engines.iter().map(|&engine| (engine.name, Case::of(engine, operation, &shape, lanes, EARLY))).collect();
    let all = cases.iter_mut().map(|(name, case)| (*name, timed(case))).chain(peers.calls(operation, &shape, lanes));
    let (names, mut calls): (Vec<&str>, Vec<Call>) = all.unzip();
    let found = times(&mut calls, SAMPLES);
    let of = |name| names.iter().position(|other| *other == name).map(|index| found[index]);
    let [plain, planes] = ["plain", "planes"].map(|name| of(name).expect("it is always there"));
    Line { shape, lanes, operation, ours: of("ours"), plain, planes, jerasure: of("jerasure"), isal: of("ISA-L") }
}

/// Jerasure's time to encode (8, 8) vectors of 64 bytes.
pub fn unit(lines: &[Line]) -> Option<Times> {
    let is = |line: &&Line| line.shape == SHAPES[0] && line.lanes == 64 && line.operation == Operation::Send;
    lines.iter().find(is).and_then(|line| line.jerasure)
}

/// The lines as a table.
pub fn print(lines: &[Line]) {
    println!("| (k, B) | L | operation | ours | plain | ours / plain | planes | ours in units | jerasure | ISA-L |");
    println!("|---|---|---|---|---|---|---|---|---|---|");
    let unit = unit(lines);
    for line in lines {
        let ratio = |ours: Times, other: Times| format!("{:.2}", ours.median / other.median);
        let over = |other: Option<Times>| or_dash(line.ours.zip(other).map(|(ours, other)| ratio(ours, other)));
        let spread = |times: Option<Times>| or_dash(times.map(|times| times.to_string()));
        let cells = [
            line.shape.name(),
            line.lanes.to_string(),
            line.operation.name(&line.shape),
            spread(line.ours),
            line.plain.to_string(),
            over(Some(line.plain)),
            line.planes.to_string(),
            over(unit),
            spread(line.jerasure),
            spread(line.isal),
        ];
        println!("| {} |", cells.join(" | "));
    }
}

/// The text, or a dash where there is none.
pub fn or_dash(text: Option<String>) -> String {
    text.unwrap_or_else(|| "—".into())
}
