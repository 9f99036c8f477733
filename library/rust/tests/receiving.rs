//! The receiving loop: skipped slots, late frames, and frames that are refused.

mod common;

use common::{figure_nine, receiver, silent, MEMORY, ONE_LANE};
use tob::{Cause, Received, Receiver, Told, LAST_SLOT};

/// What is told while a frame is received: the slots, each with the message if it is whole, and what became of the frame.
type Heard = (Vec<(u32, Option<Vec<u8>>)>, Result<Received, Cause>);

fn receive(receiver: &mut Receiver<[u8; MEMORY]>, frame: &[u8]) -> Heard {
    let mut lines = Vec::new();
    let received = receiver.receive(frame, |slot, told| {
        lines.push((slot, if let Told::Whole(message) = told { Some(message.to_vec()) } else { None }))
    });
    (lines, received)
}

/// A frame that is refused, or dropped, tells nothing and changes nothing.
fn nothing_told(receiver: &mut Receiver<[u8; MEMORY]>, frame: &[u8]) -> Result<Received, Cause> {
    let before = (*receiver.state(), receiver.rows().to_vec());
    let (lines, received) = receive(receiver, frame);
    assert_eq!(lines, []);
    assert_eq!((*receiver.state(), receiver.rows().to_vec()), before);
    received
}

#[test]
fn skipped_slots_are_reported_as_lost() {
    let (mut receiver, frames) = (receiver(), figure_nine());
    let told = [2, 3, 4].map(|slot| receive(&mut receiver, &frames[slot]));
    assert_eq!(told[0], (vec![(0, None), (1, None), (2, None)], Ok(Received::Taken)));
    assert_eq!(told[1], (vec![(3, Some(vec![1, 0]))], Ok(Received::Taken)));
    assert_eq!(told[2], (vec![(4, Some(vec![0, 1]))], Ok(Received::Taken)));
    assert_eq!(receiver.slot_due(), 5);
}

#[test]
fn a_slot_that_was_skipped_tells_the_message_due_with_it() {
    let (mut receiver, frames) = (receiver(), figure_nine());
    for frame in &frames[..3] {
        assert_eq!(receive(&mut receiver, frame).1, Ok(Received::Taken));
    }
    let lines = vec![(3, Some(vec![1, 0])), (4, Some(vec![0, 1])), (5, Some(vec![0, 0]))];
    assert_eq!(receive(&mut receiver, &frames[5]), (lines, Ok(Received::Taken)));
}

#[test]
fn late_frames_are_dropped() {
    let (mut receiver, frames) = (receiver(), figure_nine());
    assert_eq!(receive(&mut receiver, &frames[2]).1, Ok(Received::Taken));
    for frame in &frames[..3] {
        assert_eq!(nothing_told(&mut receiver, frame), Ok(Received::Late));
    }
}

#[test]
fn foreign_frames_are_refused() {
    let (mut receiver, frames) = (receiver(), figure_nine());
    assert_eq!(receive(&mut receiver, &frames[0]).1, Ok(Received::Taken));
    // A frame that is late, that of the slot due, and one that is early.
    for slot in [0, 1, 3] {
        for (place, cause) in [(0, Cause::OtherMark), (4, Cause::OtherMark), (9, Cause::OtherSettings)] {
            let mut frame = frames[slot].clone();
            frame[place] ^= 0x40;
            assert_eq!(nothing_told(&mut receiver, &frame), Err(cause));
        }
        assert_eq!(nothing_told(&mut receiver, &frames[slot][..17]), Err(Cause::BadLength));
    }
}

#[test]
fn a_frame_skips_at_most_4095_slots() {
    let mut receiver = receiver();
    assert_eq!(nothing_told(&mut receiver, &silent(4_096)), Err(Cause::OtherSlot));
    let (lines, received) = receive(&mut receiver, &silent(4_095));
    assert_eq!(received, Ok(Received::Taken));
    assert!(lines.iter().map(|line| line.0).eq(0..=4_095));
    assert_eq!(receiver.slot_due(), 4_096);
}

#[test]
fn no_slot_is_skipped_for_a_frame_past_the_last() {
    let mut receiver = Receiver::open_at(ONE_LANE, LAST_SLOT - 1, [0; MEMORY]).unwrap();
    assert_eq!(nothing_told(&mut receiver, &silent(LAST_SLOT + 1)), Err(Cause::OtherSlot));
    let (lines, received) = receive(&mut receiver, &silent(LAST_SLOT));
    assert_eq!(lines.len(), 2);
    assert_eq!(received, Ok(Received::Taken));
    assert_eq!(nothing_told(&mut receiver, &silent(LAST_SLOT + 1)), Err(Cause::PastLastSlot));
}
