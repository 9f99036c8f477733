//! The example pairs: what each is an example of is what is printed for it.

#![forbid(unsafe_code)]

use std::collections::BTreeMap;
use std::sync::OnceLock;

use reference::fair::promised;
use reference::frame;
use reference::pair::pair_cause;
use reference::pair_examples::{examples, Example};
use reference::play::{hex, play_pair, transcript};
use reference::settings::Settings;

struct Played {
    first: Vec<u8>,
    second: Vec<u8>,
    printed: String,
}

/// Every example by its name, played once for all tests.
fn played() -> &'static BTreeMap<&'static str, Played> {
    static PLAYED: OnceLock<BTreeMap<&'static str, Played>> = OnceLock::new();
    let play = |(name, first, second): Example| {
        let printed = String::from_utf8(play_pair(&first, &second)).expect("text");
        (name, Played { first, second, printed })
    };
    PLAYED.get_or_init(|| examples().into_iter().map(play).collect())
}

fn printed(name: &str) -> &'static str {
    &played()[name].printed
}

/// How many lines of a text have a word.
fn count(text: &str, word: &str) -> usize {
    text.lines().filter(|line| line.split(' ').nth(1) == Some(word)).count()
}

/// What is printed for each of the recordings alone.
fn alone(name: &str) -> [String; 2] {
    let one = &played()[name];
    [&one.first, &one.second].map(|bytes| String::from_utf8(transcript(bytes)).expect("text"))
}

#[test]
fn names_differ_and_the_files_stay_small() {
    assert_eq!((examples().len(), played().len()), (36, 36));
    let size = |one: &Played| one.first.len() + one.second.len() + one.printed.len();
    assert!(played().values().map(size).sum::<usize>() < 600_000);
    assert_eq!(played().values().filter(|one| size(one) > 5_000).count(), 5);
}

#[test]
fn an_example_stops_as_its_name_says_and_before_any_line() {
    let mut stops = 0;
    for (name, one) in played().iter().filter(|(name, _)| name.starts_with("stop-")) {
        let number = name.split('-').nth(1).expect("a number");
        let stop = format!("stop {number}\n");
        assert!(one.printed.ends_with(&stop), "{name}");
        // 6 is no cause of a refused pair.
        assert_eq!(one.printed == stop, number != "6", "{name}");
        stops += 1;
    }
    assert_eq!(stops, 20);
    for (name, one) in played().iter().filter(|(name, _)| !name.starts_with("stop-")) {
        assert_eq!(one.printed.contains("stop"), *name == "gap-4096", "{name}");
    }
}

/// The messages of the pair's settings are whole, all that are due by the last of so many slots.
fn assert_whole(name: &str, slots: usize) {
    let whole = slots - settings(name).t();
    let text = printed(name);
    assert_eq!((text.lines().count(), count(text, "whole")), (whole, whole), "{name}");
}

#[test]
fn pairs_that_are_whole() {
    for name in ["together", "equal", "first-empty", "second-empty"] {
        assert_whole(name, 30);
    }
    for name in ["disjoint", "one-after-the-other", "second-starts-earlier"] {
        assert_whole(name, 30);
        assert_eq!(printed(name), printed("together"));
    }
    assert_whole("short-window", 20);
    assert_whole("full", 8192);
    assert_eq!(printed("both-empty"), "");
}

#[test]
fn neither_recording_is_enough() {
    let names = ["together", "disjoint", "one-after-the-other", "second-starts-earlier"];
    for name in names.into_iter().chain(["short-window", "full"]) {
        for alone in alone(name) {
            assert!(count(&alone, "whole") < count(printed(name), "whole"), "{name}");
        }
    }
    // Here one of them fails in the middle, and not by what it lacks at its end.
    assert!(alone("together").iter().all(|text| count(text, "lost") > 3));
    assert!(alone("short-window").iter().all(|text| count(text, "lost") > 0));
}

#[test]
fn an_empty_recording_leaves_the_other() {
    assert_eq!(printed("first-empty"), alone("first-empty")[1]);
    assert_eq!(printed("second-empty"), alone("second-empty")[0]);
    assert_eq!([printed("equal"), printed("second-empty")], [printed("first-empty"); 2]);
}

#[test]
fn losses_and_damage_that_the_second_aerial_does_not_repair() {
    assert_eq!((count(printed("too-many"), "lost"), count(printed("too-many"), "whole")), (4, 20));
    for name in ["damaged", "damaged-in-one"] {
        assert_eq!((count(printed(name), "clash"), count(printed(name), "whole")), (5, 19));
    }
    // The damage is in one of its recordings only.
    assert_eq!(alone("damaged-in-one").map(|text| count(&text, "clash")), [0, 5]);
}

#[test]
fn gaps_that_neither_bridges() {
    assert_eq!(printed("gap-4095").lines().count(), 4110 - 3);
    assert!(printed("gap-4095").starts_with(printed("gap-4096").trim_end_matches("stop 6\n")));
    assert_eq!(printed("gap-4096").lines().count(), 10 - 3 + 1);
    // The first recording alone stops there, and does not with a frame of the second in the gap.
    assert!(alone("gap-4096-with-a-frame")[0].ends_with("stop 6\n"));
    assert_eq!(printed("gap-4096-with-a-frame").lines().count(), 4110 - 3);
}

/// The settings of the first recording that isn't empty.
fn settings(name: &str) -> Settings {
    let one = &played()[name];
    frame::settings(if one.first.is_empty() { &one.second } else { &one.first })
}

/// Which of so many slots neither recording has.
fn lost(name: &str, slots: u32) -> Vec<bool> {
    let one = &played()[name];
    let length = frame::length(&settings(name));
    let frames = one.first.chunks_exact(length).chain(one.second.chunks_exact(length));
    let heard: Vec<u32> = frames.map(frame::slot).collect();
    (0..slots).map(|slot| !heard.contains(&slot)).collect()
}

#[test]
fn what_the_pair_lost_is_within_the_terms() {
    for (name, slots, losses) in
        [("together", 30, 3), ("equal", 30, 3), ("disjoint", 30, 0), ("short-window", 20, 4)]
    {
        let (settings, lost) = (settings(name), lost(name, slots));
        assert_eq!(lost.iter().filter(|lost| **lost).count(), losses, "{name}");
        let due = slots - settings.t() as u32;
        assert!((0..due).all(|t| promised(&settings, 0, &lost, t)), "{name}");
    }
    assert_eq!(settings("short-window").t(), 2);
    let many = lost("too-many", 30);
    assert!((0..24).any(|t| !promised(&settings("too-many"), 0, &many, t)));
}

#[test]
fn examples_of_a_length_have_it() {
    let lengths = |name: &str| (played()[name].first.len(), played()[name].second.len());
    assert_eq!(lengths("full"), (65_536, 65_536));
    assert_eq!(lengths("stop-2-long").1, 65_537);
    // Whole frames of 16 bytes, one too many.
    let (more, one) = (lengths("stop-2-a-frame-more").1, frame::length(&settings("full")));
    assert_eq!((more, one), (65_536 + 16, 16));
    assert_eq!((lengths("stop-2-short").0, lengths("stop-2-short-alone")), (13, (0, 13)));
}

/// The cause of each recording alone, against the settings of the pair.
fn causes_alone(name: &str) -> [u32; 2] {
    let (one, settings) = (&played()[name], settings(name));
    [&one.first, &one.second].map(|bytes| pair_cause(&settings, bytes, &[]))
}

#[test]
fn which_cause_comes_first_is_told_by_both_recordings() {
    assert_eq!(causes_alone("stop-2-before-4"), [4, 2]);
    assert_eq!(causes_alone("stop-4-in-first"), [4, 5]);
    assert_eq!(causes_alone("stop-4-in-second-before-5-in-first"), [5, 4]);
    assert_eq!(causes_alone("stop-5-before-9"), [9, 5]);
    assert_eq!(causes_alone("stop-5-second-of-other-settings"), [0, 5]);
    assert_eq!(causes_alone("stop-9-before-10"), [0, 9]);
    assert_eq!(causes_alone("stop-10"), [0, 0]);
    assert_eq!(causes_alone("stop-6-huge"), [0, 0]);
}

#[test]
fn a_pair_that_differs_in_its_last_byte_alone() {
    let one = &played()["stop-10"];
    let differ: Vec<usize> = (0..1380).filter(|&at| one.first[at] != one.second[at]).collect();
    assert_eq!((one.first.len(), one.second.len(), differ), (1380, 1380, vec![1379]));
}

#[test]
fn whole_messages_are_those_of_the_frames() {
    let one = &played()["disjoint"];
    let length = frame::message_length(&settings("disjoint"));
    // Slots 0 and 5 are the first frames of the two recordings.
    for (t, bytes) in [(0, &one.first), (5, &one.second)] {
        let line = format!("{t} whole {}", hex(&bytes[14..14 + length]));
        assert_eq!(printed("disjoint").lines().nth(t), Some(&line[..]));
    }
}
