//! The asked ratios, each with 'holds' or 'does not hold'.

use crate::engine::Engine;
use crate::joiner::table as joiner;
use crate::measure::Times;
use crate::operation::{Operation, TIMED};
use crate::shapes::{Shape, SHAPES};
use crate::table::{beside, unit, Line, EARLY};

/// Batches of each call.
const SAMPLES: usize = 300;
/// What noise may add.
const NOISE: f64 = 1.1;
/// A slot near the end of the link's life.
const LATE: u32 = 3_999_000_000;

/// One verdict.
fn say(holds: bool, text: &str) {
    println!("- {}: {text}", if holds { "holds" } else { "does not hold" });
}

/// Ours beside plain with 64 lanes, by medians.
pub fn against_plain(lines: &[Line]) {
    if lines.iter().all(|line| line.ours.is_none()) {
        return println!("\nWithout our library there is nothing to judge against plain.");
    }
    println!("\nOurs takes no longer than plain, L = 64, by medians (p10–p90):\n");
    for line in lines.iter().filter(|line| line.lanes == 64) {
        if let Some(ours) = line.ours {
            let (shape, name) = (line.shape.name(), line.operation.name(&line.shape));
            let (plain, ratio) = (line.plain, ours.median / line.plain.median);
            say(ratio <= 1.0, &format!("{shape} {name}: ours {ours} to plain {plain} ns, ratio {ratio:.2}"));
        }
    }
}

/// The joiner of ours beside plain, by medians.
pub fn joiner_against_plain(lines: &[joiner::Line]) {
    if lines.iter().all(|line| line.to_plain().is_none()) {
        return println!("\nWithout our library there is nothing to judge the joiner by.");
    }
    let longer = |line: &&joiner::Line| line.to_plain().is_some_and(|ratio| ratio > 1.0);
    let (all, above) = (lines.len(), lines.iter().filter(longer).count());
    println!("\nThe joiner takes at most 1.0 times plain in {} of {all} rows, by medians:\n", all - above);
    for operation in joiner::OPERATIONS {
        let these = || lines.iter().filter(|line| line.operation == operation);
        let named = |line: &joiner::Line| format!("{} {:.2}", line.name(), line.to_plain().unwrap_or(0.0));
        let above: Vec<String> = these().filter(longer).map(named).collect();
        let text = format!("{}, in {} of {} rows", operation.name(), these().count() - above.len(), these().count());
        let more = if above.is_empty() { String::new() } else { format!("; above: {}", above.join("; ")) };
        say(above.is_empty(), &(text + &more));
    }
}

/// The joiner of ours beside quick, for the record.
pub fn joiner_against_quick(lines: &[joiner::Line]) {
    let ratios = || lines.iter().filter_map(joiner::Line::to_quick);
    if let (Some(least), Some(most)) = (ratios().reduce(f64::min), ratios().reduce(f64::max)) {
        println!("\nThe joiner takes {least:.2} to {most:.2} times quick, by medians; nothing is judged by it.");
    }
}

/// Ours beside planes and the two known libraries with 64 lanes, by medians, whichever is faster.
pub fn against_known(lines: &[Line]) {
    println!("\nWhat is faster than ours and what is slower, L = 64, by medians; above 1 ours takes longer:\n");
    for (ours, theirs, operation) in [
        ("send", "encode", Operation::Send),
        ("report after a burst", "decode of B lost vectors", Operation::Burst),
        ("report after scattered losses", "decode of N lost vectors", Operation::Scattered),
    ] {
        let these = || lines.iter().filter(|line| line.lanes == 64 && line.operation == operation);
        ratios(&format!("our {ours} to ISA-L's {theirs}"), these().map(|line| (line, line.isal)));
        ratios(&format!("our {ours} to jerasure's {theirs}"), these().map(|line| (line, line.jerasure)));
        ratios(&format!("our {ours} to that of planes"), these().map(|line| (line, Some(line.planes))));
    }
}

/// Ours divided by the other of each line, and in how many the other is faster.
fn ratios<'a>(what: &str, lines: impl Iterator<Item = (&'a Line, Option<Times>)>) {
    let ratio = |(line, other): (&Line, Option<Times>)| Some((line.shape, line.ours?.median / other?.median));
    let found: Vec<(Shape, f64)> = lines.filter_map(ratio).collect();
    let text: Vec<String> = found.iter().map(|(shape, ratio)| format!("{ratio:.2} at {}", shape.name())).collect();
    if found.is_empty() {
        return println!("- {what}: not measured");
    }
    let faster = found.iter().filter(|(_, ratio)| *ratio > 1.0).count();
    println!("- {what}: {}; ours takes longer in {faster} of {}", text.join(", "), found.len());
}

/// Each send of ours at most 3 units, each report at most 6, by medians.
pub fn in_units(lines: &[Line]) {
    let Some(unit) = unit(lines) else {
        return println!("\nWithout jerasure there is no unit to judge by.");
    };
    println!("\nA unit is jerasure's encoding of (8, 8) vectors of 64 bytes, here {unit} ns; by medians (p10–p90):\n");
    for (send, most) in [(true, 3.0), (false, 6.0)] {
        let these = lines.iter().filter(|line| (line.operation == Operation::Send) == send);
        let worst = these.filter_map(|line| line.ours).max_by(|a, b| a.median.total_cmp(&b.median));
        if let Some(worst) = worst {
            let (what, units) = (if send { "send" } else { "report" }, worst.median / unit.median);
            say(units <= most, &format!("the slowest {what} takes {worst} ns, {units:.2} units, at most {most}"));
        }
    }
}

/// The cost of 16, 32 and 64 lanes: twice the lanes take at most twice the time, by 10th percentiles.
pub fn linear_in_lanes(engine: Engine) {
    println!(
        "\nCost linear in L, {}, ns at L = 16, 32, 64 (p10–p90); by p10, twice the lanes take at most {:.1} times as \
         long:\n",
        engine.name,
        2.0 * NOISE
    );
    each_case(|shape, operation| {
        let found = beside(operation, shape, &[16, 32, 64].map(|lanes| (engine, lanes, EARLY)), SAMPLES);
        let [one, two] = [0, 1].map(|index| found[index + 1].low / found[index].low);
        let text = format!("{}, {}, {}; ratios {one:.2}, {two:.2}", found[0], found[1], found[2]);
        (one.max(two) <= 2.0 * NOISE, text)
    });
}

/// The cost early and late in the link's life, by 10th percentiles.
pub fn independent_of_age(engine: Engine) {
    println!(
        "\nCost independent of how long the link has run, {}, L = 64, ns from slot {EARLY} and from slot {LATE} \
         (p10–p90); by p10, they are apart by at most {:.0} %:\n",
        engine.name,
        100.0 * NOISE - 100.0
    );
    each_case(|shape, operation| {
        let found = beside(operation, shape, &[EARLY, LATE].map(|due| (engine, 64, due)), SAMPLES);
        let ratio = found[1].low / found[0].low;
        (ratio.max(1.0 / ratio) <= NOISE, format!("{}, {}; ratio {ratio:.2}", found[0], found[1]))
    });
}

/// Judges each shape and operation.
fn each_case(judge: impl Fn(&Shape, Operation) -> (bool, String)) {
    for shape in SHAPES {
        for operation in TIMED {
            let (holds, text) = judge(&shape, operation);
            say(holds, &format!("{} {}: {text}", shape.name(), operation.name(&shape)));
        }
    }
}
