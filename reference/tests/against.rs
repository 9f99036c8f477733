//! The comparison with another player: the reference's own is alike, others are found out.

#![forbid(unsafe_code)]

use std::path::{Path, PathBuf};

use reference::against::{compare, compare_pairs, Difference, Met, FILES};
use reference::drawn::Recording;
use reference::drawn_pairs::Pair;
use reference::pair_examples;
use reference::recordings::examples;

const REFERENCE: &str = env!("CARGO_BIN_EXE_reference");

/// The smaller examples, the first of them many times for the pieces.
fn recordings() -> Vec<Recording> {
    let mut small = examples();
    small.retain(|(_, bytes)| bytes.len() < 5000);
    let again = std::iter::repeat_n(small[0].clone(), 20);
    small.clone().into_iter().chain(again).map(|(kind, bytes)| Recording { kind, bytes }).collect()
}

fn compared(subcommand: &str, recordings: &[Recording]) -> Result<Met, Difference> {
    compare(REFERENCE, &[subcommand.to_string()], recordings)
}

#[test]
fn the_reference_is_like_itself() {
    let met = compared("play", &recordings()).expect("alike");
    let outcomes: Vec<&str> = met.outcomes.keys().map(String::as_str).collect();
    let stops = ["stop 1", "stop 2", "stop 4", "stop 5", "stop 6"];
    assert_eq!(outcomes[..2], ["clash", "clean end"]);
    assert_eq!(outcomes[2..4], ["empty", "lost"]);
    assert_eq!((&outcomes[4..9], &outcomes[9..]), (&stops[..], &["whole"][..]));
    assert!(met.longer > 20);
}

#[test]
fn other_words_are_a_difference() {
    let short = [Recording { kind: "short", bytes: vec![7] }];
    let difference = compared("patterns", &short).expect_err("other words");
    assert_eq!(difference.recording, [7]);
    let text = difference.text;
    assert!(text.starts_with("recording 0 (short), 1 bytes: 7 bytes expected, "), "{text}");
    assert!(text.contains("\nline 1: \"stop 2\\n\" expected, \"1 1 1 0 0 "), "{text}");
}

#[test]
fn another_exit_status_is_a_difference() {
    // Nothing is printed, which is right for an empty recording.
    let empty = [Recording { kind: "empty", bytes: Vec::new() }];
    let difference = compared("no such thing", &empty).expect_err("another status");
    assert_eq!(difference.text, "recording 0 (empty), 0 bytes: exit status: 2");
}

#[test]
fn a_program_that_does_not_start_is_a_difference() {
    let missing = format!("{REFERENCE}-missing");
    assert!(compare(&missing, &[], &[Recording { kind: "empty", bytes: Vec::new() }]).is_err());
}

/// The smaller examples of pairs, or those with a name.
fn pairs(chosen: impl Fn(&str) -> bool) -> Vec<Pair> {
    let mut small = pair_examples::examples();
    small.retain(|(name, first, second)| first.len() + second.len() < 5000 && chosen(name));
    small.into_iter().map(|(kind, first, second)| Pair { kind, first, second }).collect()
}

/// An empty directory for the files of a test.
fn directory(test: &str) -> PathBuf {
    let directory = Path::new(env!("CARGO_TARGET_TMPDIR")).join(test);
    let _ = std::fs::remove_dir_all(&directory);
    std::fs::create_dir(&directory).expect("a directory");
    directory
}

/// A comparison with what a line for the shell prints, in which `$0` is the reference.
fn compared_with(line: &str, directory: &Path, pairs: &[Pair]) -> Result<Met, String> {
    let arguments = ["-c", line, REFERENCE].map(str::to_string);
    compare_pairs("sh", &arguments, directory, pairs)
}

#[test]
fn the_reference_plays_pairs_like_itself() {
    let directory = directory("alike");
    let met = compare_pairs(REFERENCE, &["play".to_string()], &directory, &pairs(|_| true));
    let met = met.expect("alike");
    let outcomes: Vec<&str> = met.outcomes.keys().map(String::as_str).collect();
    let stops = ["stop 1", "stop 10", "stop 2", "stop 4", "stop 5", "stop 6", "stop 9"];
    assert_eq!(outcomes[..4], ["clash", "clean end", "empty", "lost"]);
    assert_eq!((&outcomes[4..11], &outcomes[11..]), (&stops[..], &["whole"][..]));
    assert_eq!((met.outcomes["empty"], met.longer > 20), (1, true));
    // Nothing is left behind.
    assert_eq!(directory.read_dir().expect("a directory").count(), 0);
    assert!(compared_with(r#""$0" play "$1" "$2""#, &directory, &pairs(|_| true)).is_ok());
}

#[test]
fn a_program_that_leaves_out_a_recording_is_found_out() {
    let directory = directory("left-out");
    let together = pairs(|name| name == "together");
    for line in [
        r#""$0" play "$1" /dev/null"#,
        r#""$0" play /dev/null "$2""#,
        r#""$0" play "$1" "$1""#,
        r#""$0" play <"$1""#,
        r#""$0" play <"$2""#,
        r#"cat "$1" "$2" | "$0" play"#,
    ] {
        let text = compared_with(line, &directory, &together).expect_err("a difference");
        assert!(text.starts_with("pair 0 (together), 1012 and 966 bytes: 1190 bytes expected, "));
        assert!(text.ends_with("printed\nkept in pair.first and pair.second"), "{text}");
        let kept = FILES.map(|file| std::fs::read(directory.join(file)).expect("a file"));
        assert_eq!(kept, [together[0].first.clone(), together[0].second.clone()]);
    }
}

#[test]
fn lines_before_the_number_of_a_refused_pair_are_found_out() {
    // Two recordings that differ in the last of their bytes.
    let differing = pairs(|name| name == "stop-10");
    let line = r#""$0" play <"$1"; echo stop 10"#;
    let text = compared_with(line, &directory("lines"), &differing).expect_err("a difference");
    assert!(text.contains("\nline 1: \"stop 10\\n\" expected, \"0 whole "), "{text}");
}

#[test]
fn another_exit_status_for_a_pair_is_a_difference() {
    let empty = pairs(|name| name == "both-empty");
    let text = compared_with("exit 3", &directory("status"), &empty).expect_err("another status");
    let expected = "pair 0 (both-empty), 0 and 0 bytes: exit status: 3";
    assert_eq!(text, format!("{expected}\nkept in pair.first and pair.second"));
}
