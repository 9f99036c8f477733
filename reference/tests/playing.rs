//! "Playing a recording": 01's example, and each way to stop.

#![forbid(unsafe_code)]

use reference::broadcast::{self, without};
use reference::frame;
use reference::play::transcript;
use reference::settings::Settings;

fn play(recording: &[u8]) -> String {
    String::from_utf8(transcript(recording)).expect("text")
}

/// A frame of settings 4, 3, 2, 2, 1 for a slot of case 9.
fn frame_of_case_9(slot: u32) -> Vec<u8> {
    let body = match slot {
        0 => [1, 0, 0, 0],
        1 => [0, 1, 0, 0],
        2 => [0, 0, 1, 0],
        3 => [0, 0, 0, 0x18],
        _ => [0, 0, 0, 0],
    };
    frame::of(&Settings::of_code(3, 2, 2), slot, &body)
}

fn recording(slots: impl IntoIterator<Item = u32>) -> Vec<u8> {
    slots.into_iter().flat_map(frame_of_case_9).collect()
}

/// The frames of slots 2, 3, 4 with one byte of the frame of slot 4 changed.
fn changed(place: usize, byte: u8) -> Vec<u8> {
    let mut bytes = recording([2, 3, 4]);
    bytes[2 * 18 + place] = byte;
    bytes
}

#[test]
fn the_example() {
    assert_eq!(play(&recording([2, 3, 4])), "0 whole 0100\n1 whole 0001\n");
}

#[test]
fn an_empty_recording_prints_nothing() {
    assert_eq!(play(&[]), "");
}

#[test]
fn none_yet_prints_nothing() {
    assert_eq!(play(&recording(0..=2)), "");
    assert_eq!(play(&recording([2])), "");
    assert_eq!(play(&recording(0..=3)), "0 whole 0100\n");
}

#[test]
fn a_message_is_printed_in_lower_case_hex() {
    let sent = [[0xAB, 0xCD], [0xEF, 0x09], [0, 0], [0, 0]].map(Vec::from);
    let frames = broadcast::of(Settings::of_code(3, 2, 2), &sent);
    assert_eq!(play(&frames.concat()), "0 whole abcd\n");
}

#[test]
fn a_skipped_slot_prints_the_line_that_it_makes_due() {
    // Slots 0 to 4 are losses, and slots 3 and 4 make messages 0 and 1 due.
    assert_eq!(play(&recording([5])), "0 lost\n1 lost\n2 lost\n");
    assert_eq!(play(&recording([0, 1, 2, 5])), "0 whole 0100\n1 whole 0001\n2 whole 0000\n");
}

#[test]
fn lost_and_clash_have_their_lines() {
    assert_eq!(play(&recording([3, 4, 5])), "0 lost\n1 lost\n2 whole 0000\n");
    let mut bytes = recording(0..=5);
    bytes[2 * 18 + 14 + 2] = 2;
    assert_eq!(play(&bytes), "0 clash\n1 clash\n2 whole 0000\n");
}

#[test]
fn short_and_long_recordings_stop_with_2() {
    let good = recording([2, 3, 4]);
    // Below 14 bytes the settings are not looked at; from 14 on they come first.
    assert_eq!(play(&good[..1]), "stop 2\n");
    assert_eq!(play(&[0; 13]), "stop 2\n");
    assert_eq!(play(&[0; 14]), "stop 1\n");
    assert_eq!(play(&good[..14]), "stop 2\n");
    assert_eq!(play(&good[..53]), "stop 2\n");
    assert_eq!(play(&[&good[..], &[0]].concat()), "stop 2\n");
    assert_eq!(play(&[0; 65536]), "stop 1\n");
    assert_eq!(play(&[0; 65537]), "stop 2\n");
}

#[test]
fn a_recording_of_64_kib_is_played() {
    // (1,1,1) with L = 1: frames of 16 bytes.
    let settings = Settings::of_code(1, 1, 1);
    let frames = (0..4096).flat_map(|slot| frame::of(&settings, slot, &[0, 0]));
    let bytes: Vec<u8> = frames.collect();
    assert_eq!(bytes.len(), 65536);
    let expected: String = (0..4095).map(|message| format!("{message} whole 00\n")).collect();
    assert_eq!(play(&bytes), expected);
    // A frame less is played as well; a byte less, a byte more and a frame more are not.
    assert_eq!(play(&bytes[..65520]).lines().count(), 4094);
    assert_eq!(play(&bytes[..65535]), "stop 2\n");
    assert_eq!(play(&[&bytes[..], &[0]].concat()), "stop 2\n");
    assert_eq!(play(&[&bytes[..], &bytes[..16]].concat()), "stop 2\n");
}

#[test]
fn settings_of_the_first_frame_that_are_not_accepted_stop_with_1() {
    let mut bytes = recording([2, 3, 4]);
    bytes[8] = 0;
    assert_eq!(play(&bytes), "stop 1\n");
    // Before the mark is looked at, and before the number of frames is.
    bytes[0] = 0;
    assert_eq!(play(&bytes[..53]), "stop 1\n");
}

#[test]
fn a_window_may_be_shorter_than_the_delay_set() {
    // W = 3 makes a delay of 2, whatever higher T is set, and the messages are numbered by it.
    let sent = [[1, 0], [0, 1], [5, 6], [7, 8], [0, 0]].map(Vec::from);
    let (first_two, third) = ("0 whole 0100\n1 whole 0001\n", "2 whole 0506\n");
    for delay in [2, 3, 9, 255] {
        let settings = Settings { window: 3, ..Settings::of_code(delay, 2, 1) };
        let mut frames = broadcast::of(settings, &sent);
        assert_eq!(play(&frames[..2].concat()), "");
        assert_eq!(play(&frames.concat()), format!("{first_two}{third}"));
        assert_eq!(play(&without(&frames, [1, 2]).concat()), format!("{first_two}{third}"));
        // Another T in the last frame makes the same delay, and is cause 5 all the same.
        frames[4][6] = if delay == 2 { 9 } else { 2 };
        assert_eq!(play(&frames.concat()), format!("{first_two}stop 5\n"));
    }
}

#[test]
fn a_window_too_short_for_b_stops_with_1() {
    let mut bytes = recording([2, 3, 4]);
    // W = T makes a delay of 2, which is B, and frames of 17 bytes; W = B one of 1.
    bytes[5] = 3;
    assert_eq!(play(&bytes), "stop 2\n");
    bytes[5] = 2;
    assert_eq!(play(&bytes), "stop 1\n");
}

#[test]
fn another_mark_or_version_stops_with_4() {
    for place in 0..5 {
        assert_eq!(play(&changed(place, 2)), "0 whole 0100\nstop 4\n");
    }
    let mut first = recording([2]);
    first[1] = 0;
    assert_eq!(play(&first), "stop 4\n");
    // The length comes before the mark.
    assert_eq!(play(&first[..17]), "stop 2\n");
}

#[test]
fn other_settings_stop_with_5() {
    for place in 5..10 {
        assert_eq!(play(&changed(place, 9)), "0 whole 0100\nstop 5\n");
    }
}

#[test]
fn a_slot_below_or_too_far_above_stops_with_6() {
    assert_eq!(play(&recording([2, 3, 3])), "0 whole 0100\nstop 6\n");
    assert_eq!(play(&recording([2, 3, 0])), "0 whole 0100\nstop 6\n");
    assert_eq!(play(&recording([4096])), "stop 6\n");
    assert_eq!(play(&recording([2, 3, 4 + 4096])), "0 whole 0100\nstop 6\n");
    for huge in [3_999_999_999, 4_000_000_000, u32::MAX] {
        assert_eq!(play(&recording([huge])), "stop 6\n");
        assert_eq!(play(&recording([2, 3, huge])), "0 whole 0100\nstop 6\n");
    }
}

#[test]
fn a_frame_meets_4_before_5_before_6() {
    // The frame after slots 2 and 3 says slot 3 again, other settings and another version.
    let mut bytes = recording([2, 3, 3]);
    bytes[2 * 18 + 5] += 1;
    assert_eq!(play(&bytes), "0 whole 0100\nstop 5\n");
    bytes[2 * 18 + 4] += 1;
    assert_eq!(play(&bytes), "0 whole 0100\nstop 4\n");
}

#[test]
fn the_slots_skipped_by_a_refused_frame_are_not_reported() {
    assert_eq!(play(&recording([2, 3, 9])).lines().count(), 7);
    for (place, stop) in [(0, 4), (4, 4), (5, 5), (9, 5), (10, 6)] {
        let mut bytes = recording([2, 3, 9]);
        bytes[2 * 18 + place] += 1;
        assert_eq!(play(&bytes), format!("0 whole 0100\nstop {stop}\n"));
    }
}

#[test]
fn the_frames_before_a_refused_one_stay_printed_and_none_after_it_is_played() {
    let mut bytes = recording(0..=9);
    bytes[5 * 18] = 0;
    assert_eq!(play(&bytes), "0 whole 0100\n1 whole 0001\nstop 4\n");
}

#[test]
fn a_slot_4095_above_is_reached_through_losses() {
    let text = play(&recording([4095]));
    let lines: Vec<&str> = text.lines().collect();
    assert_eq!((lines.len(), lines[0], lines[4092]), (4093, "0 lost", "4092 lost"));
    let text = play(&recording([0, 1, 2, 3, 4 + 4095]));
    // Messages 0 to 3 were heard in their own slots.
    assert!(text.starts_with("0 whole 0100\n1 whole 0001\n2 whole 0000\n3 whole 0000\n4 lost\n"));
    assert_eq!(text.lines().last(), Some("4096 lost"));
}
