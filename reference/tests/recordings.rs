//! The example recordings: what each is an example of is what is printed for it.

#![forbid(unsafe_code)]

use std::collections::BTreeMap;
use std::sync::OnceLock;

use reference::broadcast;
use reference::fair::{promised, promised_in_a_fade};
use reference::frame;
use reference::patterns::Draws;
use reference::play::{hex, transcript};
use reference::recordings::{examples, Example};
use reference::settings::Settings;

struct Played {
    recording: Vec<u8>,
    printed: String,
}

/// Every example by its name, played once for all tests.
fn played() -> &'static BTreeMap<&'static str, Played> {
    static PLAYED: OnceLock<BTreeMap<&'static str, Played>> = OnceLock::new();
    let play = |(name, recording): Example| {
        let printed = String::from_utf8(transcript(&recording)).expect("text");
        (name, Played { recording, printed })
    };
    PLAYED.get_or_init(|| examples().into_iter().map(play).collect())
}

fn printed(name: &str) -> &'static str {
    &played()[name].printed
}

/// How many lines of an example have a word.
fn count(name: &str, word: &str) -> usize {
    printed(name).lines().filter(|line| line.split(' ').nth(1) == Some(word)).count()
}

#[test]
fn names_differ_and_the_files_stay_small() {
    assert_eq!(played().len(), 39);
    let bytes: usize = played().values().map(|one| one.recording.len() + one.printed.len()).sum();
    assert!(bytes < 700_000);
}

#[test]
fn an_example_stops_as_its_name_says() {
    let mut stops = 0;
    for (name, one) in played().iter().filter(|(name, _)| name.starts_with("stop-")) {
        let stop = format!("stop {}", &name[5..6]);
        assert_eq!(one.printed.lines().last(), Some(stop.as_str()), "{name}");
        stops += 1;
    }
    assert_eq!(stops, 17);
    assert!(printed("gap-4096").ends_with("stop 6\n"));
    assert_eq!(printed("full-and-one"), "stop 2\n");
    let to_the_end = ["card", "clean", "july", "damaged", "gap-4095", "full", "full-long-frames"];
    for name in to_the_end.into_iter().chain(["short-window", "window-of-the-delay"]) {
        assert!(count(name, "whole") > 1 && !printed(name).contains("stop"), "{name}");
    }
}

#[test]
fn played_examples_print_what_they_are_for() {
    assert_eq!(printed("card"), "0 whole 0100\n1 whole 0001\n");
    assert_eq!(printed("card-whole"), printed("card"));
    assert_eq!((printed("empty"), printed("few")), ("", ""));
    assert_eq!(printed("first-line").lines().count(), 1);
    // Losses within the terms leave no trace.
    assert_eq!(printed("bursts"), printed("clean"));
    assert_eq!(printed("scattered"), printed("clean"));
    assert_eq!((count("clean", "whole"), count("too-many", "lost")), (34, 5));
    assert_eq!((count("damaged", "clash"), count("damaged", "lost")), (5, 0));
    assert_eq!((count("july", "lost"), count("july", "whole")), (5, 66));
    assert_eq!((count("widest", "whole"), count("fade", "whole")), (16, 24));
}

/// The settings of an example's first frame.
fn settings(name: &str) -> Settings {
    frame::settings(&played()[name].recording)
}

/// The settings of an example of so many slots, and which of them were lost.
fn losses(name: &str, slots: usize) -> (Settings, Vec<bool>) {
    let settings = settings(name);
    let frames = played()[name].recording.chunks_exact(frame::length(&settings));
    let heard: Vec<usize> = frames.map(|one| frame::slot(one) as usize).collect();
    (settings, (0..slots).map(|slot| !heard.contains(&slot)).collect())
}

#[test]
fn the_fades_of_the_example_are_fair_by_the_wider_rule_only() {
    let (settings, lost) = losses("fade", 30);
    assert!((0..24).all(|t| promised(&settings, 0, &lost, t)));
    // Only messages 0, 1, 2 and 13 have no slots on both sides of a frame heard in a fade.
    let wider = (0..24).filter(|&t| promised_in_a_fade(&settings, 0, &lost, t));
    assert!(wider.eq((3..13).chain(14..24)));
}

/// What is printed when the messages of these frames, the first bytes of their bodies, are whole.
fn all_whole(frames: &[Vec<u8>]) -> String {
    let length = frame::message_length(&frame::settings(&frames[0]));
    let line = |(t, one): (usize, &Vec<u8>)| format!("{t} whole {}\n", hex(&one[14..14 + length]));
    frames.iter().enumerate().map(line).collect()
}

#[test]
fn the_bursts_in_a_short_window_are_promised_and_repaired() {
    let (settings, lost) = losses("short-window", 30);
    assert_eq!(settings, Settings { delay: 9, lanes: 2, ..Settings::of_code(2, 2, 1) });
    assert_eq!(lost.iter().filter(|lost| **lost).count(), 3 * 2);
    assert!((0..28).all(|t| promised(&settings, 0, &lost, t)));
    let sent = broadcast::drawn(&mut Draws::from(20261124), settings, 30);
    assert_eq!(printed("short-window"), all_whole(&sent[..28]));
}

#[test]
fn a_frame_with_another_t_of_the_same_delay_is_refused() {
    let short = settings("short-window");
    let mut sent = broadcast::drawn(&mut Draws::from(20261124), short, 30);
    let before = all_whole(&sent[..18]);
    sent[20][6] = 2;
    assert_eq!(frame::settings(&sent[20]).t(), short.t());
    assert_eq!(played()["stop-5-delay"].recording, sent.concat());
    assert_eq!(printed("stop-5-delay"), before + "stop 5\n");
}

#[test]
fn the_bursts_in_a_short_window_are_as_near_and_as_late_as_they_may_be() {
    let (settings, lost) = losses("short-window", 30);
    let slots: Vec<usize> = (0..30).filter(|&slot| lost[slot]).collect();
    // With the second burst a slot nearer to the first, not every message is promised.
    let of_both = |slot: usize| slots[..2].contains(&slot) || slots[2..4].contains(&(slot + 1));
    let nearer: Vec<bool> = (0..30).map(of_both).collect();
    assert!((0..28).any(|t| !promised(&settings, 0, &nearer, t)));
    // The last of the messages lost is due at the last slot.
    assert_eq!(slots[5] + settings.t(), 29);
}

#[test]
fn the_burst_in_a_window_of_the_delay_is_promised_and_repaired() {
    let (same, lost) = losses("window-of-the-delay", 40);
    let usual = settings("clean");
    assert_eq!(same, Settings { window: usual.delay, ..usual });
    assert_eq!((same.t(), lost.iter().filter(|lost| **lost).count()), (5, 3));
    assert!((0..35).all(|t| promised(&same, 0, &lost, t)));
    let sent = broadcast::drawn(&mut Draws::from(20261125), same, 40);
    assert_eq!(printed("window-of-the-delay"), all_whole(&sent[..35]));
}

#[test]
fn a_window_of_b_slots_leaves_too_short_a_delay() {
    let usual = settings("clean");
    for name in ["stop-1", "stop-1-part"] {
        assert_eq!(settings(name), Settings { window: usual.burst, ..usual });
        assert_eq!(printed(name), "stop 1\n");
    }
}

#[test]
fn july_is_readable() {
    let first = printed("july").lines().next().and_then(|line| line.strip_prefix("0 whole "));
    let hex = first.expect("a whole message");
    let byte = |at: usize| u8::from_str_radix(&hex[2 * at..2 * at + 2], 16).expect("hex");
    let message: Vec<u8> = (0..64).map(byte).collect();
    assert!(message.starts_with(b"4 July race 1: ") && message.ends_with(&[0]));
}

#[test]
fn examples_of_a_length_have_it() {
    let length = |name: &str| played()[name].recording.len();
    let lengths = ["full", "full-long-frames", "full-and-one", "stop-2-long"];
    assert_eq!(lengths.map(length), [65536, 65536, 65537, 65537]);
    assert_eq!(["stop-2-short", "stop-2-header"].map(length), [13, 14]);
}
