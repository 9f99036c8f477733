//! The program: `patterns` prints the pattern test of PATTERNS.md, `card` the figures of CARD.md,
//! `scenarios` the scenarios of SCENARIOS.md; `play` plays a recording or a pair, `recordings`
//! writes the examples, and `against` compares another player, as RECORDINGS.md describes.

#![forbid(unsafe_code)]

use std::fs;
use std::io::{self, Read, Write};
use std::path::Path;
use std::process::ExitCode;

const USAGE: &str = "usage: reference patterns | card | scenarios | play [FIRST SECOND] \
    | recordings DIR | against PROGRAM [ARGUMENT..]";

fn main() -> ExitCode {
    let arguments: Vec<String> = std::env::args().skip(1).collect();
    let done = match arguments.iter().map(String::as_str).collect::<Vec<_>>()[..] {
        ["patterns"] => print(&reference::patterns::lines()),
        ["card"] => print(&reference::card::lines()),
        ["scenarios"] => print(&reference::scenarios::lines()),
        ["play"] => play(),
        ["play", first, second] => play_pair(first, second),
        ["recordings", directory] => reference::recordings::write(Path::new(directory)),
        ["against", program, ..] => return against(program, &arguments[2..]),
        _ => Err(io::Error::other(USAGE)),
    };
    match done {
        Ok(()) => ExitCode::SUCCESS,
        Err(error) => {
            eprintln!("{error}");
            ExitCode::from(2)
        }
    }
}

fn print(lines: &[String]) -> io::Result<()> {
    let text: String = lines.iter().map(|line| format!("{line}\n")).collect();
    io::stdout().write_all(text.as_bytes())
}

/// Standard input is the recording.
fn play() -> io::Result<()> {
    let mut recording = Vec::new();
    io::stdin().read_to_end(&mut recording)?;
    io::stdout().write_all(&reference::play::transcript(&recording))
}

/// The files of these names are the recordings of a pair.
fn play_pair(first: &str, second: &str) -> io::Result<()> {
    let (first, second) = (fs::read(first)?, fs::read(second)?);
    io::stdout().write_all(&reference::play::play_pair(&first, &second))
}

fn against(program: &str, arguments: &[String]) -> ExitCode {
    let alike = reference::against::run(program, arguments);
    let (Ok(text) | Err(text)) = &alike;
    let printed = print(std::slice::from_ref(text));
    if alike.is_ok() && printed.is_ok() { ExitCode::SUCCESS } else { ExitCode::from(1) }
}
