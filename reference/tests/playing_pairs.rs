//! Playing a pair of recordings (document 02 §7): document 01's example, each way to stop, and the
//! lines of drawn pairs beside those of a receiver fed slot by slot.

#![forbid(unsafe_code)]

use reference::drawn_pairs::pairs;
use reference::frame;
use reference::pair::{join, pair_cause};
use reference::play::{hex, play_pair, transcript};
use reference::receiver::{self, Reply};
use reference::recordings::examples;
use reference::settings::Settings;

fn play(first: &[u8], second: &[u8]) -> String {
    String::from_utf8(play_pair(first, second)).expect("text")
}

/// What is printed for a pair and for the same the other way round.
fn either_way(one: &[u8], other: &[u8]) -> [String; 2] {
    [play(one, other), play(other, one)]
}

/// A frame of settings 4, 3, 2, 2, 1 for a slot of case 9.
fn frame_of_case_9(slot: u32) -> Vec<u8> {
    let body = match slot {
        0 => [1, 0, 0, 0],
        1 => [0, 1, 0, 0],
        2 => [0, 0, 1, 0],
        3 => [0, 0, 0, 0x18],
        _ => [0, 0, 0, 0],
    };
    frame::of(&Settings::of_code(3, 2, 2), slot, &body)
}

fn recording(slots: impl IntoIterator<Item = u32>) -> Vec<u8> {
    slots.into_iter().flat_map(frame_of_case_9).collect()
}

/// A copy with one byte replaced.
fn changed(bytes: &[u8], place: usize, byte: u8) -> Vec<u8> {
    let mut changed = bytes.to_vec();
    changed[place] = byte;
    changed
}

#[test]
fn the_example_in_two_recordings() {
    let expected = "0 whole 0100\n1 whole 0001\n";
    for (first, second) in [
        (vec![2, 3, 4], vec![]),
        (vec![2], vec![3, 4]),
        (vec![3], vec![2, 4]),
        (vec![2, 4], vec![2, 3]),
        (vec![2, 3, 4], vec![2, 3, 4]),
        (vec![0, 3], vec![2, 4]),
    ] {
        let texts = either_way(&recording(first), &recording(second));
        assert_eq!(texts, [expected; 2]);
    }
    // Without slot 4 a line is missing, and without slots 0 to 2 two messages are.
    assert_eq!(either_way(&recording([2]), &recording([3])), ["0 whole 0100\n"; 2]);
    let lost = "0 lost\n1 lost\n2 whole 0000\n";
    assert_eq!(either_way(&recording([3, 5]), &recording([4])), [lost; 2]);
}

#[test]
fn two_empty_recordings_print_nothing() {
    assert_eq!(play(&[], &[]), "");
}

#[test]
fn none_yet_prints_nothing_and_the_last_slot_of_either_ends_the_lines() {
    assert_eq!(either_way(&recording([0, 2]), &recording([1])), [""; 2]);
    let texts = either_way(&recording(0..=2), &recording([5]));
    assert_eq!(texts, ["0 whole 0100\n1 whole 0001\n2 whole 0000\n"; 2]);
    assert_eq!(either_way(&[], &recording([5])), ["0 lost\n1 lost\n2 lost\n"; 2]);
}

#[test]
fn the_first_recording_that_is_not_empty_gives_the_settings() {
    let other = Settings { window: 9, ..Settings::of_code(3, 2, 2) };
    let others: Vec<u8> = (0..5).flat_map(|slot| frame::of(&other, slot, &[0; 4])).collect();
    let own = recording(0..5);
    assert_eq!(play(&own, &[]), "0 whole 0100\n1 whole 0001\n");
    assert_eq!(either_way(&others, &[]), ["0 whole 0000\n1 whole 0000\n"; 2]);
    assert_eq!(either_way(&own, &others), ["stop 5\n"; 2]);
    // Settings that aren't accepted: 1 if they are of the first, and else other settings.
    let bad = changed(&own, 8, 0);
    assert_eq!(either_way(&bad, &own), ["stop 1\n", "stop 5\n"]);
    assert_eq!(either_way(&bad, &[]), ["stop 1\n"; 2]);
}

#[test]
fn fewer_than_14_bytes_have_no_settings() {
    let good = recording([2, 3, 4]);
    for length in 1..14 {
        for other in [&good[..], &good[..length], &[], &[0; 14], &[0; 65_537]] {
            assert_eq!(play(&good[..length], other), "stop 2\n");
            assert_eq!(play(&vec![0; length], other), "stop 2\n");
        }
        assert_eq!(play(&[], &vec![0; length]), "stop 2\n");
        // Behind a recording with settings it is a part of a frame, and 1 comes before that.
        assert_eq!(play(&good, &vec![0; length]), "stop 2\n");
        assert_eq!(play(&[0; 14], &vec![0; length]), "stop 1\n");
    }
}

#[test]
fn the_settings_come_before_any_length() {
    let good = recording([2, 3, 4]);
    assert_eq!(either_way(&[0; 14], &[]), ["stop 1\n"; 2]);
    assert_eq!(either_way(&[0; 65_537], &[]), ["stop 1\n"; 2]);
    assert_eq!(either_way(&good[..14], &[]), ["stop 2\n"; 2]);
    assert_eq!(either_way(&good, &[0; 65_537]), ["stop 2\n", "stop 1\n"]);
    assert_eq!(either_way(&good, &good[..53]), ["stop 2\n"; 2]);
}

#[test]
fn a_refused_pair_prints_its_number_and_no_line() {
    let good = recording(0..9);
    assert_eq!(play(&good, &good).lines().count(), 6);
    let last = 8 * 18;
    let refused = [
        (2, good[..good.len() - 1].to_vec()),
        (4, changed(&good, last, 0)),
        (4, changed(&good, last + 4, 2)),
        (5, changed(&good, last + 9, 2)),
        (9, changed(&good, last + 13, 7)),
        (10, changed(&good, last + 17, 1)),
    ];
    for (number, bad) in refused {
        let stop = format!("stop {number}\n");
        assert_eq!(either_way(&bad, &good), [&stop[..]; 2]);
    }
}

#[test]
fn a_gap_of_4095_slots_is_played_and_one_more_stops() {
    let both = |slots: [&[u32]; 2]| {
        let [one, other] = slots.map(|slots| recording(slots.iter().copied()));
        let [text, same] = either_way(&one, &other);
        assert_eq!(text, same);
        text
    };
    // Slots 0 to 3 and then 4,095 that neither has.
    let text = both([&[0, 1, 3], &[2, 4 + 4095]]);
    assert!(text.starts_with("0 whole 0100\n1 whole 0001\n2 whole 0000\n3 whole 0000\n4 lost\n"));
    assert_eq!(text.lines().last(), Some("4096 lost"));
    assert_eq!(both([&[0, 1, 3], &[2, 4 + 4096]]), "0 whole 0100\nstop 6\n");
    assert_eq!(both([&[], &[4096]]), "stop 6\n");
    assert_eq!(both([&[4096], &[4097]]), "stop 6\n");
    assert_eq!(both([&[4095], &[]]).lines().count(), 4093);
    // A frame of the other recording in the gap: two gaps, of which none is too long.
    assert_eq!(both([&[0, 1, 3, 4 + 4096], &[2, 4]]).lines().count(), 4098);
    let with_behind = |behind: u32| both([&[0, 1, 3, behind], &[2, 4 + 4095]]);
    assert_eq!(with_behind(5 + 4095 + 4095).lines().count(), 8193);
    let text = with_behind(5 + 4095 + 4096);
    assert!(text.ends_with("4096 lost\nstop 6\n") && text.lines().count() == 4098);
}

#[test]
fn a_slot_that_is_no_slot_is_out_of_reach() {
    for huge in [3_999_999_999, 4_000_000_000, u32::MAX] {
        let texts = either_way(&recording(0..4), &recording([3, huge]));
        assert_eq!(texts, ["0 whole 0100\nstop 6\n"; 2]);
    }
}

#[test]
fn a_recording_alone_with_an_empty_one_or_twice_is_played_as_it_is() {
    let mut accepted = 0;
    for (name, bytes) in examples().into_iter().filter(|(_, bytes)| bytes.len() >= 14) {
        let number = pair_cause(&frame::settings(&bytes), &bytes, &[]);
        let expected = match number {
            0 => String::from_utf8(transcript(&bytes)).expect("text"),
            _ => format!("stop {number}\n"),
        };
        assert_eq!(either_way(&bytes, &[]), [&expected[..]; 2], "{name}");
        assert_eq!(play(&bytes, &bytes), expected, "{name}");
        accepted += usize::from(number == 0);
    }
    assert_eq!(accepted, 21);
}

/// The lines that a receiver opened at slot 0 gives when it is fed from the pair, up to a slot.
fn lines_fed(settings: Settings, first: &[u8], second: &[u8], last: u32) -> String {
    let mut rows = vec![9; receiver::rows_length(&settings)];
    let (mut state, _) = receiver::open(settings, 0, &mut rows);
    let mut message = vec![9; frame::message_length(&settings)];
    let mut text = String::new();
    for slot in 0..=last {
        let part = join(&settings, first, second, slot);
        let reply;
        (state, reply) = match part.bytes(&settings, first, second) {
            [] => receiver::report_loss(state, &mut rows, &mut message),
            part => receiver::report_frame(state, &mut rows, part, &mut message),
        };
        let number = i64::from(slot) - settings.t() as i64;
        text += &match reply.expect("an accepted report") {
            Reply::NoneYet => String::new(),
            Reply::Lost => format!("{number} lost\n"),
            Reply::Clash => format!("{number} clash\n"),
            Reply::Whole => format!("{number} whole {}\n", hex(&message)),
        };
    }
    text
}

/// All slots of a pair, in order.
fn slots(settings: &Settings, first: &[u8], second: &[u8]) -> Vec<u32> {
    let one = frame::length(settings);
    let frames = first.chunks_exact(one).chain(second.chunks_exact(one));
    let mut slots: Vec<u32> = frames.map(frame::slot).collect();
    slots.sort_unstable();
    slots.dedup();
    slots
}

#[test]
fn the_lines_are_those_of_a_receiver_fed_slot_by_slot() {
    let mut met = [0; 3];
    for drawn in pairs().iter().filter(|drawn| drawn.first.len().max(drawn.second.len()) < 5_000) {
        let (first, second) = (&drawn.first[..], &drawn.second[..]);
        let leading = if first.is_empty() { second } else { first };
        if leading.len() < 14 {
            continue;
        }
        let settings = frame::settings(leading);
        let number = pair_cause(&settings, first, second);
        if number != 0 {
            assert_eq!(play(first, second), format!("stop {number}\n"), "{}", drawn.kind);
            met[0] += 1;
            continue;
        }
        // The last slot that is reached: the slot due is at first 0, and then one above a slot.
        let all = slots(&settings, first, second);
        let due = |at: usize| if at == 0 { 0 } else { u64::from(all[at - 1]) + 1 };
        let near = |at: &usize| u64::from(all[*at]) <= due(*at) + 4095;
        let reached = (0..all.len()).take_while(near).count();
        let mut expected = match reached {
            0 => String::new(),
            _ => lines_fed(settings, first, second, all[reached - 1]),
        };
        let stops = reached < all.len();
        expected += if stops { "stop 6\n" } else { "" };
        assert_eq!(play(first, second), expected, "{}", drawn.kind);
        met[1 + usize::from(stops)] += 1;
    }
    assert!(met[0] > 800 && met[1] > 400 && met[2] > 24, "{met:?}");
}
