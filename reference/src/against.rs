//! Another player beside the reference's: each drawn recording goes to its standard input, and of
//! each drawn pair it is told two files. What it prints must be the transcript, byte for byte.

use std::collections::BTreeMap;
use std::fs;
use std::io::{self, Write};
use std::path::Path;
use std::process::{Command, Output, Stdio};
use std::thread;
use std::time::Duration;

use crate::drawn::{recordings, Recording};
use crate::drawn_pairs::{pairs, Pair};
use crate::frame;
use crate::patterns::Draws;
use crate::play::{play_pair, transcript};

/// Where a recording goes that is played differently.
pub const DIFFERENCE: &str = "difference.rec";

/// Where a pair is written. The files of one that is played differently are kept.
pub const FILES: [&str; 2] = ["pair.first", "pair.second"];

/// The outcomes of recordings, and those of pairs, each of which is to be met at least so often.
const OUTCOMES: [&str; 10] = [
    "whole", "lost", "clash", "stop 1", "stop 2", "stop 4", "stop 5", "stop 6", "empty",
    "clean end",
];
const OF_PAIRS: [&str; 12] = [
    "whole", "lost", "clash", "stop 1", "stop 2", "stop 4", "stop 5", "stop 6", "stop 9",
    "stop 10", "empty", "clean end",
];
const LEAST: usize = 24;

/// How often each outcome was met, and how many recordings, or both recordings of how many pairs,
/// were longer than one frame.
#[derive(Debug, Default, PartialEq, Eq)]
pub struct Met {
    pub outcomes: BTreeMap<String, usize>,
    pub longer: usize,
}

/// A recording that was played differently, and a description of the difference.
#[derive(Debug, PartialEq, Eq)]
pub struct Difference {
    pub recording: Vec<u8>,
    pub text: String,
}

/// Compares the program over all drawn recordings and pairs: the text to print, or why it failed.
pub fn run(program: &str, arguments: &[String]) -> Result<String, String> {
    let of_recordings = run_recordings(program, arguments)?;
    let of_pairs = run_pairs(program, arguments)?;
    Ok(format!("{of_recordings}\n{of_pairs}"))
}

fn run_recordings(program: &str, arguments: &[String]) -> Result<String, String> {
    let recordings = recordings();
    let met = compare(program, arguments, &recordings).map_err(|difference| {
        let kept = fs::write(DIFFERENCE, &difference.recording);
        let place = kept.map_or_else(|e| e.to_string(), |()| format!("kept in {DIFFERENCE}"));
        format!("{}\n{place}", difference.text)
    })?;
    let counts = counts(&met, &OUTCOMES)?;
    let (all, longer) = (grouped(recordings.len()), grouped(met.longer));
    Ok(format!("against: {all} recordings, all alike\nlonger than one frame: {longer}{counts}"))
}

/// The pairs are written in the current directory.
fn run_pairs(program: &str, arguments: &[String]) -> Result<String, String> {
    let pairs = pairs();
    let met = compare_pairs(program, arguments, Path::new(""), &pairs)?;
    let counts = counts(&met, &OF_PAIRS)?;
    let (all, longer) = (grouped(pairs.len()), grouped(met.longer));
    Ok(format!("against: {all} pairs, all alike\nboth longer than one frame: {longer}{counts}"))
}

/// A line for each outcome; it is a failure if one was met too seldom.
fn counts(met: &Met, outcomes: &[&str]) -> Result<String, String> {
    let count = |outcome: &str| met.outcomes.get(outcome).copied().unwrap_or(0);
    let line = |outcome: &&str| format!("\n{outcome}: {}", grouped(count(outcome)));
    let counts: String = outcomes.iter().map(line).collect();
    let seldom: Vec<&str> = outcomes.iter().copied().filter(|o| count(o) < LEAST).collect();
    if !seldom.is_empty() {
        return Err(format!("met too seldom: {}{counts}", seldom.join(", ")));
    }
    Ok(counts)
}

/// Plays each recording with both, until the first difference.
pub fn compare(
    program: &str,
    arguments: &[String],
    recordings: &[Recording],
) -> Result<Met, Difference> {
    let mut draws = Draws::from(20261119);
    let mut met = Met::default();
    for (number, recording) in recordings.iter().enumerate() {
        let pieces = pieces(&mut draws, recording.bytes.len());
        let mut command = Command::new(program);
        command.args(arguments);
        let (expected, output) = both(command, &recording.bytes, &pieces);
        let found = output.map_err(|error| error.to_string()).and_then(|o| alike(&expected, &o));
        if let Err(text) = found {
            let (kind, length) = (recording.kind, recording.bytes.len());
            let text = format!("recording {number} ({kind}), {length} bytes: {text}");
            return Err(Difference { recording: recording.bytes.clone(), text });
        }
        met.add(recording.bytes.is_empty(), &expected);
        met.longer += usize::from(longer_than_a_frame(&recording.bytes));
    }
    Ok(met)
}

/// Plays each pair with both, until the first difference, of which it gives a description.
pub fn compare_pairs(
    program: &str,
    arguments: &[String],
    directory: &Path,
    pairs: &[Pair],
) -> Result<Met, String> {
    let mut met = Met::default();
    for (number, Pair { kind, first, second }) in pairs.iter().enumerate() {
        let found = both_of_pair(program, arguments, directory, first, second);
        let expected = found.map_err(|text| {
            let lengths = format!("{} and {} bytes", first.len(), second.len());
            let kept = format!("kept in {}", FILES.join(" and "));
            format!("pair {number} ({kind}), {lengths}: {text}\n{kept}")
        })?;
        met.add(first.is_empty() && second.is_empty(), &expected);
        met.longer += usize::from(longer_than_a_frame(first) && longer_than_a_frame(second));
    }
    let removed = FILES.iter().try_for_each(|file| fs::remove_file(directory.join(file)));
    removed.map_err(|error| error.to_string())?;
    Ok(met)
}

/// What the reference prints for a pair, or how the program differs from it.
fn both_of_pair(
    program: &str,
    arguments: &[String],
    directory: &Path,
    first: &[u8],
    second: &[u8],
) -> Result<Vec<u8>, String> {
    let files = FILES.map(|file| directory.join(file));
    let output = || {
        fs::write(&files[0], first)?;
        fs::write(&files[1], second)?;
        let mut command = Command::new(program);
        command.args(arguments).args(&files).stdin(Stdio::null()).stderr(Stdio::inherit());
        command.output()
    };
    let output = output().map_err(|error| error.to_string())?;
    let expected = play_pair(first, second);
    alike(&expected, &output).map(|()| expected)
}

/// The lengths of the pieces in which a recording is written: one in ten in small ones.
fn pieces(draws: &mut Draws, length: usize) -> Vec<usize> {
    if draws.below(10) != 0 {
        return vec![length];
    }
    let mut pieces = Vec::new();
    let mut left = length;
    while left > 0 {
        let piece = (draws.below(700) + 1).min(left);
        pieces.push(piece);
        left -= piece;
    }
    pieces
}

/// The transcript, and what the program prints meanwhile.
fn both(mut command: Command, recording: &[u8], pieces: &[usize]) -> (Vec<u8>, io::Result<Output>) {
    let mut child = match command.stdin(Stdio::piped()).stdout(Stdio::piped()).spawn() {
        Ok(child) => child,
        Err(error) => return (Vec::new(), Err(error)),
    };
    let input = child.stdin.take().expect("a pipe was asked for");
    thread::scope(|scope| {
        scope.spawn(move || write(input, recording, pieces));
        let expected = transcript(recording);
        (expected, child.wait_with_output())
    })
}

/// Writes the pieces with a pause between them, and closes the pipe.
fn write(mut input: impl Write, recording: &[u8], pieces: &[usize]) {
    let mut left = recording;
    for &piece in pieces {
        let (now, later) = left.split_at(piece);
        // A program may end before it has read everything.
        if input.write_all(now).is_err() {
            return;
        }
        left = later;
        if !left.is_empty() {
            thread::sleep(Duration::from_micros(300));
        }
    }
}

/// The transcript was printed, and the exit status is 0.
fn alike(expected: &[u8], output: &Output) -> Result<(), String> {
    let printed = &output.stdout;
    if expected != printed {
        let (a, b, line) = (expected.len(), printed.len(), first_difference(expected, printed));
        return Err(format!("{a} bytes expected, {b} printed\n{line}"));
    }
    if output.status.code() == Some(0) { Ok(()) } else { Err(output.status.to_string()) }
}

/// The first line, with its newline, that differs; lines count from 1.
fn first_difference(expected: &[u8], printed: &[u8]) -> String {
    let lines = |bytes: &[u8]| -> Vec<String> {
        let line = |line: &[u8]| String::from_utf8_lossy(line).into_owned();
        bytes.split_inclusive(|&byte| byte == b'\n').map(line).collect()
    };
    let (expected, printed) = (lines(expected), lines(printed));
    let same = expected.iter().zip(&printed).take_while(|(a, b)| a == b).count();
    let text = |lines: &[String]| format!("{:?}", lines.get(same).map_or("", String::as_str));
    format!("line {}: {} expected, {} printed", same + 1, text(&expected), text(&printed))
}

impl Met {
    fn add(&mut self, empty: bool, printed: &[u8]) {
        let text = String::from_utf8_lossy(printed);
        let mut outcomes: Vec<&str> = text.lines().map(outcome).collect();
        if empty {
            outcomes.push("empty");
        } else if !outcomes.last().is_some_and(|last| last.starts_with("stop")) {
            outcomes.push("clean end");
        }
        for outcome in outcomes {
            *self.outcomes.entry(outcome.to_string()).or_default() += 1;
        }
    }
}

/// A stop is itself an outcome; of a message line it is the word behind the number.
fn outcome(line: &str) -> &str {
    if line.starts_with("stop") { line } else { line.split(' ').nth(1).unwrap_or(line) }
}

/// With accepted settings, and more bytes than the first frame has.
fn longer_than_a_frame(recording: &[u8]) -> bool {
    if recording.len() < frame::HEADER {
        return false;
    }
    let settings = frame::settings(recording);
    settings.accepted() && recording.len() > frame::length(&settings)
}

/// Decimal, with a comma before each three digits.
fn grouped(number: usize) -> String {
    if number < 1000 {
        return number.to_string();
    }
    format!("{},{:03}", grouped(number / 1000), number % 1000)
}
