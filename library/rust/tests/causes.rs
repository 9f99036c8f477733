//! Every cause: its number, its words, and a call that is refused with it.

mod common;

use common::{figure_nine, receiver, silent, MEMORY, ONE_LANE, TWO_LANES};
use tob::{calls, frame_slot, pair_cause, Cause, Receiver, Sender, Settings, LAST_SLOT};

/// The settings of the figures with no scattered losses, which is not accepted.
const BAD: Settings = Settings { scattered: 0, ..ONE_LANE };

#[test]
fn the_numbers_are_those_of_the_header() {
    let numbers = [
        (1, Cause::BadSettings),
        (2, Cause::BadLength),
        (3, Cause::PastLastSlot),
        (4, Cause::OtherMark),
        (5, Cause::OtherSettings),
        (6, Cause::OtherSlot),
        (7, Cause::LateOpening),
        (8, Cause::OutOfReach),
        (9, Cause::FallingSlots),
        (10, Cause::UnlikeFrames),
    ];
    for (number, cause) in numbers {
        assert_eq!(cause.number(), number);
        assert_eq!(Cause::from_number(number), Some(cause));
    }
    assert_eq!(Cause::ALL.to_vec(), numbers.map(|(_, cause)| cause));
    for number in [0, 11, 16, 17, 18, 19, u32::MAX] {
        assert_eq!(Cause::from_number(number), None);
    }
    assert_eq!(
        [calls::ACCEPTED, calls::NONE_YET, calls::WHOLE, calls::LOST, calls::CLASH],
        [0, 16, 17, 18, 19]
    );
}

#[test]
fn no_two_causes_have_the_same_words() {
    let words: std::collections::BTreeSet<String> = Cause::ALL.iter().map(|cause| cause.to_string()).collect();
    assert_eq!(words.len(), 10);
    let error: Box<dyn std::error::Error> = Cause::PastLastSlot.into();
    assert_eq!(error.to_string(), "the last slot is past");
}

#[test]
fn bad_settings() {
    assert_eq!(BAD.message_len(), Err(Cause::BadSettings));
    assert_eq!(BAD.frame_len(), Err(Cause::BadSettings));
    assert_eq!(BAD.sender_memory(), Err(Cause::BadSettings));
    assert_eq!(BAD.receiver_memory(), Err(Cause::BadSettings));
    assert_eq!(Sender::open(BAD, [0; MEMORY]).unwrap_err(), Cause::BadSettings);
    assert_eq!(Receiver::open(BAD, [0; MEMORY]).unwrap_err(), Cause::BadSettings);
    assert_eq!(Receiver::open_at(BAD, 7, [0; MEMORY]).unwrap_err(), Cause::BadSettings);
    assert_eq!(pair_cause(BAD, &[], &[]), Err(Cause::BadSettings));
}

#[test]
fn bad_lengths() {
    let mut sender = Sender::open(ONE_LANE, [0; MEMORY]).unwrap();
    for message in [&[][..], &[1], &[1, 2, 3]] {
        assert_eq!(sender.send(message), Err(Cause::BadLength));
    }
    let mut frame = silent(0);
    assert_eq!(receiver().heard(&frame[..17]), Err(Cause::BadLength));
    assert_eq!(pair_cause(ONE_LANE, &frame, &frame[..17]), Err(Cause::BadLength));
    assert_eq!(frame_slot(&frame[..13]), Err(Cause::BadLength));
    assert_eq!(frame_slot(&frame[..14]), Ok(0));
    frame.push(0);
    assert_eq!(receiver().heard(&frame), Err(Cause::BadLength));
}

#[test]
fn past_the_last_slot() {
    let mut receiver = Receiver::open_at(ONE_LANE, LAST_SLOT, [0; MEMORY]).unwrap();
    assert!(receiver.heard(&silent(LAST_SLOT)).is_ok());
    assert_eq!(receiver.slot_due(), 4_000_000_000);
    assert_eq!(receiver.lost(), Err(Cause::PastLastSlot));
    assert_eq!(receiver.heard(&silent(LAST_SLOT)), Err(Cause::PastLastSlot));
    assert_eq!(receiver.look_up(i64::from(LAST_SLOT)), Err(Cause::PastLastSlot));

    let mut state = *Sender::open(ONE_LANE, [0; MEMORY]).unwrap().state();
    state[9..13].copy_from_slice(&LAST_SLOT.to_be_bytes());
    let mut sender = Sender::resume(ONE_LANE, state, [0; MEMORY]).unwrap();
    assert_eq!(sender.send(&[0, 0]), Ok(&silent(LAST_SLOT)[..]));
    assert_eq!(sender.send(&[0, 0]), Err(Cause::PastLastSlot));
}

#[test]
fn frames_of_another_mark_other_settings_or_another_slot() {
    let changed = |place: usize| {
        let mut frame = silent(0);
        frame[place] ^= 1;
        frame
    };
    for place in 0..5 {
        assert_eq!(receiver().heard(&changed(place)), Err(Cause::OtherMark));
        assert_eq!(frame_slot(&changed(place)), Err(Cause::OtherMark));
        assert_eq!(pair_cause(ONE_LANE, &[], &changed(place)), Err(Cause::OtherMark));
    }
    for place in 5..10 {
        assert_eq!(receiver().heard(&changed(place)), Err(Cause::OtherSettings));
        assert_eq!(frame_slot(&changed(place)), Ok(0));
        assert_eq!(pair_cause(ONE_LANE, &changed(place), &[]), Err(Cause::OtherSettings));
    }
    for (place, slot) in [(10, 1 << 24), (11, 1 << 16), (12, 1 << 8), (13, 1)] {
        assert_eq!(receiver().heard(&changed(place)), Err(Cause::OtherSlot));
        assert_eq!(frame_slot(&changed(place)), Ok(slot));
    }
}

#[test]
fn a_late_opening() {
    assert_eq!(Receiver::open_at(ONE_LANE, LAST_SLOT + 1, [0; MEMORY]).unwrap_err(), Cause::LateOpening);
    assert_eq!(Receiver::open_at(ONE_LANE, LAST_SLOT, [0; MEMORY]).unwrap().slot_due(), LAST_SLOT);
}

#[test]
fn out_of_reach() {
    let mut receiver = Receiver::open_at(ONE_LANE, 9, [0; MEMORY]).unwrap();
    for number in [-1, 5, 9, i64::MIN, i64::MAX] {
        assert_eq!(receiver.look_up(number), Err(Cause::OutOfReach), "{number}");
    }
    for number in [6, 7, 8] {
        assert!(receiver.look_up(number).is_ok(), "{number}");
    }
}

#[test]
fn pairs_of_recordings() {
    let frames = figure_nine();
    let (first, second) = (frames[..3].concat(), frames[1..].concat());
    assert_eq!(pair_cause(ONE_LANE, &first, &second), Ok(()));
    assert_eq!(pair_cause(ONE_LANE, &[], &[]), Ok(()));
    assert_eq!(pair_cause(TWO_LANES, &[], &[]), Ok(()));

    let again = [&frames[1][..], &frames[1]].concat();
    assert_eq!(pair_cause(ONE_LANE, &again, &[]), Err(Cause::FallingSlots));
    assert_eq!(pair_cause(ONE_LANE, &first, &again), Err(Cause::FallingSlots));

    let mut unlike = second;
    unlike[17] ^= 1;
    assert_eq!(pair_cause(ONE_LANE, &first, &unlike), Err(Cause::UnlikeFrames));
}
