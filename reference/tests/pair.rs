//! Document 02 §7: the check of a pair of recordings, each cause and which comes first, and the
//! joiner.

#![forbid(unsafe_code)]

use reference::frame;
use reference::pair::{join, joined, pair_cause, Part};
use reference::settings::Settings;

/// (3,2,2) with L = 1: frames of 18 bytes.
fn card() -> Settings {
    Settings::of_code(3, 2, 2)
}

const ONE: usize = 18;

/// The frame of a slot, with a body that tells the slot.
fn sent(slot: u32) -> Vec<u8> {
    frame::of(&card(), slot, &slot.to_le_bytes())
}

fn recording(slots: impl IntoIterator<Item = u32>) -> Vec<u8> {
    slots.into_iter().flat_map(sent).collect()
}

fn cause(first: &[u8], second: &[u8]) -> u32 {
    pair_cause(&card(), first, second)
}

/// The cause with this recording as the first of the pair, and as the second.
fn either_way(settings: &Settings, one: &[u8], other: &[u8]) -> [u32; 2] {
    [pair_cause(settings, one, other), pair_cause(settings, other, one)]
}

/// A copy with one byte exclusive-or something.
fn changed(bytes: &[u8], place: usize, by: u8) -> Vec<u8> {
    let mut changed = bytes.to_vec();
    changed[place] ^= by;
    changed
}

/// Every set of slots below five.
fn every_set() -> impl Iterator<Item = Vec<u32>> {
    (0..32_u32).map(|bits| (0..5).filter(|slot| bits >> slot & 1 == 1).collect())
}

// The causes.

#[test]
fn recordings_of_one_meeting_are_accepted() {
    for first in every_set() {
        for second in every_set() {
            assert_eq!(cause(&recording(first.clone()), &recording(second)), 0);
        }
    }
}

#[test]
fn settings_that_are_not_accepted_are_1_whatever_was_recorded() {
    let good = recording([0, 1]);
    let recordings = [vec![], vec![0; 13], good.clone(), good[..35].to_vec(), vec![0; 65_537]];
    for settings in [
        Settings::ZEROS,
        Settings { scattered: 0, ..card() },
        Settings { burst: 4, ..card() },
        Settings { window: 2, ..card() },
        Settings { lanes: 0, ..card() },
        Settings { lanes: 65, ..card() },
        Settings::of_code(9, 8, 1),
    ] {
        for first in &recordings {
            assert!(recordings.iter().all(|second| pair_cause(&settings, first, second) == 1));
        }
    }
}

#[test]
fn a_part_of_a_frame_is_2() {
    let good = recording(0..4);
    for length in 0..=good.len() {
        let expected = if length % ONE == 0 { 0 } else { 2 };
        for other in [&good[..], &good[..ONE], &[]] {
            assert_eq!(either_way(&card(), &good[..length], other), [expected; 2], "{length}");
        }
        // Nothing but the length is looked at before it is known to be right.
        let zeros = vec![0; length];
        let expected = if length == 0 { 0 } else if length % ONE == 0 { 4 } else { 2 };
        assert_eq!(either_way(&card(), &zeros, &good), [expected; 2], "{length} zeros");
    }
}

#[test]
fn the_frames_have_the_length_of_the_settings_checked_against() {
    let two_lanes = Settings { lanes: 2, ..card() };
    let wide: Vec<u8> = (0..9).flat_map(|slot| frame::of(&two_lanes, slot, &[0; 8])).collect();
    assert_eq!(either_way(&two_lanes, &wide, &wide[..22]), [0; 2]);
    assert_eq!(either_way(&card(), &wide[..22], &[]), [2; 2]);
    // Nine frames of 22 bytes are as long as eleven of 18, of which the second has no mark.
    assert_eq!(either_way(&card(), &wide, &[]), [4; 2]);
    assert_eq!(either_way(&two_lanes, &recording(0..11), &wide), [4; 2]);
}

#[test]
fn more_than_64_kib_is_2() {
    // (1,1,1) with L = 1: frames of 16 bytes.
    let short = Settings::of_code(1, 1, 1);
    let bytes: Vec<u8> = (0..4098).flat_map(|slot| frame::of(&short, slot, &[7, 9])).collect();
    let other = [vec![], bytes[..16].to_vec(), bytes[16..65_552].to_vec()];
    for (length, expected) in [
        (65_504, 0),
        (65_520, 0),
        (65_535, 2),
        (65_536, 0),
        (65_537, 2),
        (65_552, 2),
        (65_568, 2),
    ] {
        for other in &other {
            assert_eq!(either_way(&short, &bytes[..length], other), [expected; 2], "{length}");
        }
    }
    // Of frames of 18 bytes 64 KiB are no whole number.
    let bytes = recording(0..3641);
    assert_eq!(either_way(&card(), &bytes[..65_520], &[]), [0; 2]);
    assert_eq!(either_way(&card(), &bytes[..65_536], &[]), [2; 2]);
    assert_eq!(either_way(&card(), &bytes, &[]), [2; 2]);
}

/// The cause where one byte of a header is changed to each other value, in each frame of either.
fn assert_cause_of_byte(place: usize, expected: u32) {
    let good = recording([2, 5, 7]);
    for frame in 0..3 {
        for by in 1..=255 {
            let bad = changed(&good, ONE * frame + place, by);
            for other in [&good[..], &good[..ONE], &[]] {
                assert_eq!(either_way(&card(), &bad, other), [expected; 2], "{frame} {by}");
            }
        }
    }
}

#[test]
fn another_mark_or_version_is_4() {
    (0..5).for_each(|place| assert_cause_of_byte(place, 4));
}

#[test]
fn other_settings_are_5() {
    (5..10).for_each(|place| assert_cause_of_byte(place, 5));
}

#[test]
fn another_t_that_makes_the_same_delay_is_5() {
    let settings = Settings { window: 3, ..Settings::of_code(9, 2, 1) };
    let same = Settings { delay: 2, ..settings };
    assert_eq!((settings.t(), frame::length(&settings)), (same.t(), frame::length(&same)));
    let frame_of = |settings: &Settings, slot| frame::of(settings, slot, &[0; 4]);
    let both = [frame_of(&settings, 0), frame_of(&same, 1)].concat();
    assert_eq!(either_way(&settings, &both, &[]), [5; 2]);
    assert_eq!(either_way(&settings, &both[..18], &both[18..]), [5; 2]);
    assert_eq!(either_way(&settings, &both[..18], &[]), [0; 2]);
}

#[test]
fn a_slot_not_above_the_one_before_it_is_9() {
    for number in 0..64 {
        let slots = [number / 16, number / 4 % 4, number % 4];
        let rises = slots[0] < slots[1] && slots[1] < slots[2];
        let expected = if rises { 0 } else { 9 };
        for other in [vec![], sent(8), recording([0, 1, 2, 3])] {
            assert_eq!(either_way(&card(), &recording(slots), &other), [expected; 2], "{slots:?}");
        }
    }
    // What the other recording has makes no slot fall.
    assert_eq!(cause(&recording([7, 8]), &recording([0, 3])), 0);
}

#[test]
fn slots_rise_as_numbers_of_32_bits_and_none_is_too_high() {
    let high = [3_999_999_999, 4_000_000_000, u32::MAX - 1, u32::MAX];
    assert_eq!(cause(&recording(high), &recording(high)), 0);
    let rising = [0, 255, 256, 65_535, 65_536, 16_777_216, 2_147_483_647, 2_147_483_648, u32::MAX];
    for two in rising.windows(2) {
        assert_eq!(either_way(&card(), &recording([two[0], two[1]]), &[]), [0; 2]);
        assert_eq!(either_way(&card(), &recording([two[1], two[0]]), &[]), [9; 2]);
        assert_eq!(either_way(&card(), &recording([two[0], two[0]]), &[]), [9; 2]);
    }
}

#[test]
fn a_changed_frame_is_10_exactly_where_both_have_its_slot() {
    for first in every_set() {
        for second in every_set() {
            let bytes = recording(second.clone());
            for (at, slot) in first.iter().enumerate() {
                let bad = changed(&recording(first.clone()), ONE * at + 17, 1);
                let expected = if second.contains(slot) { 10 } else { 0 };
                assert_eq!(either_way(&card(), &bad, &bytes), [expected; 2], "{slot} {second:?}");
            }
        }
    }
}

#[test]
fn any_byte_of_a_body_makes_10() {
    let first = recording([1, 4, 6, 9]);
    let second = recording([0, 4, 5, 9]);
    for (frame, shared) in [(0, false), (1, true), (2, false), (3, true)] {
        for place in ONE * frame + 14..ONE * frame + 18 {
            for by in 1..=255 {
                let expected = if shared { 10 } else { 0 };
                assert_eq!(cause(&changed(&first, place, by), &second), expected);
                assert_eq!(cause(&first, &changed(&second, place, by)), expected);
                // The same change in both.
                let both = [&first, &second].map(|one| changed(one, place, by));
                assert_eq!(cause(&both[0], &both[1]), 0);
            }
        }
    }
}

/// A recording with any of these faults, each in a frame of its own: 1 for a part of a frame, 2
/// for another mark, 4 for other settings, 8 for a slot that doesn't rise.
fn faulty(faults: u32, mark: usize, settings: usize, slot: usize) -> Vec<u8> {
    let mut frames: Vec<Vec<u8>> = (0..6).map(sent).collect();
    if faults & 2 != 0 {
        frames[mark][1] ^= 1;
    }
    if faults & 4 != 0 {
        frames[settings][5] ^= 1;
    }
    if faults & 8 != 0 {
        let before = frame::slot(&frames[slot - 1]);
        frames[slot][10..14].copy_from_slice(&before.to_be_bytes());
    }
    let mut bytes = frames.concat();
    bytes.extend(if faults & 1 != 0 { &[0x54][..] } else { &[] });
    bytes
}

/// The first listed of the causes that these faults make.
fn first_cause(faults: u32, differ: bool) -> u32 {
    let listed = [(1, 2), (2, 4), (4, 5), (8, 9)];
    let found = listed.iter().find(|(fault, _)| faults & fault != 0);
    found.map_or(if differ { 10 } else { 0 }, |(_, cause)| *cause)
}

#[test]
fn each_cause_is_looked_for_in_both_recordings_before_the_next() {
    let bad = Settings { scattered: 3, ..card() };
    // Which frame has the mark, which the settings and which the slot: each of them first once.
    for [mark, settings, slot] in [[0, 3, 5], [5, 0, 2], [4, 2, 1], [3, 3, 3]] {
        for faults in 0..256 {
            let (of_first, of_second) = (faults / 16, faults % 16);
            let first = faulty(of_first, mark, settings, slot);
            for differ in [false, true] {
                let mut second = faulty(of_second, slot, mark, settings.max(1));
                // The frame of slot 1, in the body.
                second[ONE + 14] ^= u8::from(differ);
                let expected = first_cause(of_first | of_second, differ);
                assert_eq!(either_way(&card(), &first, &second), [expected; 2], "{faults}");
                assert_eq!(either_way(&bad, &first, &second), [1; 2]);
            }
        }
    }
}

#[test]
fn a_later_cause_in_the_first_recording_gives_way_to_an_earlier_one_in_the_second() {
    let good = recording(0..6);
    let (mark, settings) = (changed(&good, 5 * ONE, 1), changed(&good, 7, 1));
    let (falls, differs) = (recording([1, 0]), changed(&good, 14, 1));
    let part = &good[..good.len() - 1];
    assert_eq!([cause(&mark, part), cause(&settings, &mark)], [2, 4]);
    assert_eq!([cause(&falls, &settings), cause(&falls, &mark)], [5, 4]);
    assert_eq!([cause(&differs, &falls), cause(&differs, &good)], [9, 10]);
    // And an earlier one in the first recording stands.
    assert_eq!([cause(part, &mark), cause(&mark, &settings)], [2, 4]);
    assert_eq!([cause(&settings, &falls), cause(&falls, &differs)], [5, 9]);
}

// The joiner.

/// The place of a slot in a recording of these, in bytes.
fn begin(slots: &[u32], slot: u32) -> Option<usize> {
    slots.contains(&slot).then(|| ONE * slots.iter().filter(|other| **other < slot).count())
}

#[test]
fn a_part_is_of_the_first_recording_or_else_of_the_second() {
    for of_first in every_set() {
        for of_second in every_set() {
            let (first, second) = (recording(of_first.clone()), recording(of_second.clone()));
            for slot in 0..7 {
                let expected = match (begin(&of_first, slot), begin(&of_second, slot)) {
                    (Some(begin), _) => (1, begin),
                    (None, Some(begin)) => (2, begin),
                    (None, None) => (0, 0),
                };
                let part = join(&card(), &first, &second, slot);
                assert_eq!(part.numbers(), expected, "{of_first:?} {of_second:?} {slot}");
                let bytes = if expected.0 == 0 { vec![] } else { sent(slot) };
                assert_eq!(part.bytes(&card(), &first, &second), bytes);
            }
        }
    }
}

#[test]
fn parts_of_high_slots_and_of_full_recordings() {
    let (first, second) = (recording([0, 4_000_000_000]), recording([3_999_999_999, u32::MAX]));
    let numbers = |slot| join(&card(), &first, &second, slot).numbers();
    assert_eq!([numbers(0), numbers(4_000_000_000)], [(1, 0), (1, 18)]);
    assert_eq!([numbers(3_999_999_999), numbers(u32::MAX)], [(2, 0), (2, 18)]);
    assert_eq!([numbers(1), numbers(u32::MAX - 1)], [(0, 0); 2]);
    let short = Settings::of_code(1, 1, 1);
    let of = |slots: std::ops::Range<u32>| -> Vec<u8> {
        slots.flat_map(|slot| frame::of(&short, slot, &[0, 0])).collect()
    };
    let (first, second) = (of(0..4096), of(4000..8096));
    let last = |slot| join(&short, &first, &second, slot);
    assert_eq!([last(4095), last(4096)], [Part::First(65_520), Part::Second(1536)]);
    assert_eq!([last(8095), last(8096)], [Part::Second(65_520), Part::Nothing]);
}

#[test]
fn a_refused_pair_has_empty_parts_only() {
    let good = recording(0..6);
    let refused = [
        good[..good.len() - 1].to_vec(),
        changed(&good, 5 * ONE + 4, 3),
        changed(&good, 9, 1),
        recording([0, 1, 1]),
        changed(&good, 3 * ONE + 15, 1),
    ];
    for (bad, number) in refused.iter().zip([2, 4, 5, 9, 10]) {
        assert_eq!(either_way(&card(), bad, &good), [number; 2]);
        for slot in (0..8).chain([u32::MAX]) {
            assert_eq!(join(&card(), bad, &good, slot), Part::Nothing, "{number} {slot}");
            assert_eq!(join(&card(), &good, bad, slot), Part::Nothing, "{number} {slot}");
        }
    }
    let settings = Settings { lanes: 65, ..card() };
    assert!((0..8).all(|slot| join(&settings, &good, &good, slot).numbers() == (0, 0)));
    assert_eq!(Part::Nothing.bytes(&settings, &good, &good), []);
}

#[test]
fn the_frames_joined_are_those_of_the_parts_slot_by_slot() {
    for of_first in every_set() {
        for of_second in every_set() {
            let (first, second) = (recording(of_first.clone()), recording(of_second));
            let all = joined(&card(), &first, &second);
            for slot in 0..7 {
                let part = join(&card(), &first, &second, slot).bytes(&card(), &first, &second);
                assert_eq!(all.get(&slot).copied().unwrap_or(&[]), part);
            }
        }
    }
}
