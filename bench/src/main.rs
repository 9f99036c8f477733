//! Times of our library, of two Rust versions and of two known libraries, in one table, and of the joiner in another.

use bench::cases::Case;
use bench::engine::{self, Engine};
use bench::joiner::{self, Joiner};
use bench::measure::{repeated, times};
use bench::operation::Operation;
use bench::peers::Peers;
use bench::shapes::SHAPES;
use bench::valgrind::Callgrind;
use bench::{alike, instructions, single, table, verdicts, worst};
use std::process::{Command, ExitCode};
use std::{env, fs};

/// One of the modes: the times, or instructions by callgrind, whose dumps go to files of the name that is given.
fn main() -> ExitCode {
    let arguments: Vec<String> = env::args().skip(1).collect();
    match &arguments.iter().map(String::as_str).collect::<Vec<_>>()[..] {
        ["times"] => all_times(),
        ["instructions", file] => counted(file, instructions::print),
        ["worst", file] => counted(file, worst::print),
        _ => {
            eprintln!("bench: 'times', or 'instructions' and the name that callgrind writes to; bench/run calls it.");
            return ExitCode::from(2);
        }
    }
    ExitCode::SUCCESS
}

/// Counts instructions, if ours is linked and callgrind is there.
fn counted(file: &str, count: fn(Engine, &mut Callgrind)) {
    match (engine::ours(), Callgrind::there(file)) {
        (Some(ours), Some(mut callgrind)) => count(ours, &mut callgrind),
        (None, _) => println!("Ours is not linked: there are no instructions to count."),
        (_, None) => println!("Callgrind does not run this: no instructions are counted."),
    }
}

/// Checks, times and judges.
fn all_times() {
    header();
    let ours = engine::ours();
    if ours.is_none() {
        println!("Ours is not linked (crates/tob or crates/measured has no archive in out/): the tables go without it.");
    }
    let engines: Vec<Engine> = ours.into_iter().chain([engine::plain(), engine::planes()]).collect();
    let joiners: Vec<Joiner> = joiner::ours().into_iter().chain([joiner::plain(), joiner::quick()]).collect();
    let (peers, words) = Peers::load();
    words.iter().for_each(|word| println!("{word}"));
    self_check(&engines, &joiners);
    restoring();
    let lines = table::lines(&engines, &peers);
    table::print(&lines);
    single::print(&engines);
    joining(&joiners);
    verdicts::against_plain(&lines);
    verdicts::in_units(&lines);
    for &engine in engines.iter().filter(|engine| engine.name != "planes") {
        verdicts::linear_in_lanes(engine);
        verdicts::independent_of_age(engine);
    }
    verdicts::against_known(&lines);
}

/// The machine, the date and how to read the table.
fn header() {
    let cpu = fs::read_to_string("/proc/cpuinfo").unwrap_or_default();
    let model = cpu.lines().find_map(|line| line.strip_prefix("model name")).unwrap_or("unknown");
    let date = Command::new("date").arg("+%Y-%m-%d %H:%M").output().map(|out| out.stdout).unwrap_or_default();
    println!("# Times\n");
    println!("CPU: {}. Date: {}.", model.trim_start_matches([' ', '\t', ':']), String::from_utf8_lossy(&date).trim());
    println!(
        "Nanoseconds a call: the median of {} batches (fewer for slow calls, at least 15) of at least 25 microseconds, \
         in brackets the 10th and the 90th percentile. All versions and both libraries take turns, batch by batch.",
        table::SAMPLES
    );
    println!(
        "Plain is Rust with tables of products, one elimination a codeword start, everything worked out anew in each \
         call. Planes goes further, with bit planes of the coefficients in place of products: it is for the record."
    );
    println!(
        "A report is of a frame in the slot due; with losses it is the one that tells the first lost slot's message. \
         Lost is the same after a burst that is one slot too long. For a clash one byte of the message's own frame was \
         changed, in its last symbol. Worst are the losses, x, among slots t − k + 1 to t + T, after which ours takes \
         most instructions by callgrind, of all that `bench/run worst` tried."
    );
    println!(
        "Jerasure and ISA-L stand with encoding beside a send, and with decoding B or N lost vectors beside a report. \
         Both encode with a matrix, and ISA-L with tables, made beforehand; decoding works out its own. Neither has a \
         frame, a state or rows, or tells a clash. Jerasure's vectors are whole words, so L = 1 is 8 bytes there."
    );
}

/// Nothing is timed that gives other bytes than the reference.
fn self_check(engines: &[Engine], joiners: &[Joiner]) {
    for shape in SHAPES {
        for lanes in [1, 16, 32, 64] {
            alike::check(engines, &shape.settings(lanes), if lanes == 1 { 80 } else { 25 });
        }
    }
    let names: Vec<&str> = engines.iter().map(|engine| engine.name).collect();
    println!("Self-check: {} and the reference give the same frames, replies, messages and rows.", names.join(", "));
    joiner::alike::check(joiners);
    let names: Vec<&str> = joiners.iter().map(|joiner| joiner.name).collect();
    println!("Of pairs of recordings, {} and the reference give the same causes, parts and counts.", names.join(", "));
}

/// The table of the joiner, and what holds of it.
fn joining(joiners: &[Joiner]) {
    let lines = joiner::table::lines(joiners);
    joiner::table::print(&lines);
    verdicts::joiner_against_plain(&lines);
    verdicts::joiner_against_quick(&lines);
}

/// What putting the state back costs in each call.
fn restoring() {
    let mut case = Case::of(engine::plain(), Operation::Send, &SHAPES[0], 64, table::EARLY);
    let found = times(&mut [repeated(|| case.restore())], 200);
    println!(
        "Each call starts from the same state and rows: its 20 bytes of state are put back, and the rows hold already \
         what the call writes. Putting back takes {:.1} ns, which every time includes.\n",
        found[0].median
    );
}
