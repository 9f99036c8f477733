//! A second opinion: the proved library beside the reference, call by call, over drawn inputs.
//! `compare` draws from a fixed seed, `compare SEED` from another.

#![forbid(unsafe_code)]

mod bursts;
mod call;
mod cases;
mod comparison;
mod draw;
mod earlier;
mod lanes;
mod lent;
mod look_ups;
mod model;
mod pairs;
mod report;
mod slots;

use std::process::ExitCode;

use comparison::Comparison;
use report::grouped;

const SEED: u64 = 20261120;

fn main() -> ExitCode {
    let seed = match std::env::args().nth(1).map(|text| text.parse()) {
        None => SEED,
        Some(Ok(seed)) => seed,
        Some(Err(_)) => {
            eprintln!("usage: compare [SEED]");
            return ExitCode::from(2);
        }
    };
    match run(seed) {
        Ok(text) => {
            println!("{text}");
            ExitCode::SUCCESS
        }
        Err(text) => {
            println!("{text}");
            ExitCode::FAILURE
        }
    }
}

/// All cases: the last line, or why they failed.
fn run(seed: u64) -> Result<String, String> {
    println!("seed {seed}");
    let mut comparison = Comparison::new(seed);
    for (name, part) in cases::PARTS {
        let (cases, calls) = (comparison.cases(), comparison.met.calls());
        part(&mut comparison)?;
        let (cases, calls) = (comparison.cases() - cases, comparison.met.calls() - calls);
        println!("{name}: {} cases, {} calls", grouped(cases), grouped(calls));
    }
    println!("{}", comparison.met.text());
    println!("{}", comparison.met.earlier.text());
    let missing = comparison.met.missing();
    if !missing.is_empty() {
        return Err(format!("too little was met: {}", missing.join("; ")));
    }
    let (cases, calls) = (grouped(comparison.cases()), grouped(comparison.met.calls()));
    Ok(format!("compare: {cases} cases, {calls} calls, all alike"))
}
