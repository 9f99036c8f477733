//! The memory of both ends: that it is long enough, who may own it, what a refusal leaves of it, and saving and resuming.

mod common;

use common::{figure_nine, receiver, sent, MEMORY, ONE_LANE, TWO_LANES};
use tob::{Cause, Memory, Receiver, Sender, Told, RECEIVER_MEMORY};

#[test]
fn memory_that_is_too_short_is_refused() {
    let (sender, receiver) = (TWO_LANES.sender_memory().unwrap(), TWO_LANES.receiver_memory().unwrap());
    assert_eq!((sender, receiver), (34, 49));
    assert!(Sender::open(TWO_LANES, vec![0; sender]).is_ok());
    assert!(Receiver::open(TWO_LANES, vec![0; receiver]).is_ok());
    for short in [0, 1, sender - 1] {
        assert_eq!(Sender::open(TWO_LANES, vec![0; short]).unwrap_err(), Cause::BadLength);
    }
    for short in [0, 1, receiver - 1] {
        assert_eq!(Receiver::open(TWO_LANES, vec![0; short]).unwrap_err(), Cause::BadLength);
    }
}

/// The first message out of a receiver in this memory, when slots 0 and 1 were lost.
fn first_message(memory: impl Memory) -> Vec<u8> {
    let (mut receiver, frames) = (Receiver::open(ONE_LANE, memory).unwrap(), figure_nine());
    let mut first = Vec::new();
    for frame in &frames[2..4] {
        receiver.receive(frame, |_, told| if let Told::Whole(message) = told { first = message.to_vec() }).unwrap();
    }
    first
}

#[test]
fn memory_is_owned_or_borrowed() {
    let mut lent = [0xAA; 40];
    assert_eq!(first_message(&mut lent[..30]), [1, 0]);
    assert_eq!(lent[27..], [0xAA; 13]);
    assert_eq!(first_message([0xAA; 27]), [1, 0]);
    assert_eq!(first_message(vec![0xAA; 27]), [1, 0]);
    let largest: Receiver = Receiver::open(ONE_LANE, [0; RECEIVER_MEMORY]).unwrap();
    assert_eq!(largest.rows().len(), 25);
}

#[test]
fn a_refused_call_leaves_all_as_it_was() {
    let (mut sender, mut receiver) = (Sender::open(ONE_LANE, [0; MEMORY]).unwrap(), receiver());
    let frame = sender.send(&[5, 6]).unwrap().to_vec();
    receiver.heard(&frame).unwrap();
    let before = (*sender.state(), sender.rows().to_vec(), *receiver.state(), receiver.rows().to_vec());
    assert_eq!(sender.send(&[7]), Err(Cause::BadLength));
    assert_eq!(receiver.heard(&frame), Err(Cause::OtherSlot));
    assert_eq!(receiver.look_up(1), Err(Cause::OutOfReach));
    assert_eq!((sender.slot_due(), receiver.slot_due()), (1, 1));
    assert_eq!((*sender.state(), sender.rows().to_vec(), *receiver.state(), receiver.rows().to_vec()), before);
}

#[test]
fn both_ends_go_on_after_they_were_saved() {
    let messages: [&[u8]; 6] = [&[1, 2], &[3, 4], &[5, 6], &[7, 8], &[9, 10], &[11, 12]];
    let frames = sent(ONE_LANE, &messages);
    let (mut sender, mut receiver) = (Sender::open(ONE_LANE, [0; MEMORY]).unwrap(), receiver());
    for (slot, message) in messages.iter().enumerate() {
        sender = Sender::resume(ONE_LANE, *sender.state(), filled(sender.rows())).unwrap();
        receiver = Receiver::resume(ONE_LANE, *receiver.state(), filled(receiver.rows())).unwrap();
        assert_eq!((sender.slot_due(), receiver.slot_due()), (slot as u32, slot as u32));
        assert_eq!(sender.send(message), Ok(&frames[slot][..]));
        let told = if slot == 1 { receiver.lost() } else { receiver.heard(&frames[slot]) };
        assert_eq!(told, Ok(slot.checked_sub(3).map_or(Told::NoneYet, |number| Told::Whole(messages[number]))));
    }
}

/// Memory that begins with these rows.
fn filled(rows: &[u8]) -> [u8; MEMORY] {
    let mut memory = [0xAA; MEMORY];
    memory[..rows.len()].copy_from_slice(rows);
    memory
}

#[test]
fn what_was_not_saved_of_this_end_is_not_resumed() {
    let (sender, receiver) = (Sender::open(ONE_LANE, [0; MEMORY]).unwrap(), receiver());
    let mut unset = *receiver.state();
    unset[4..9].fill(0);
    for state in [*receiver.state(), unset, [0; 20]] {
        assert_eq!(Sender::resume(ONE_LANE, state, [0; MEMORY]).unwrap_err(), Cause::BadSettings);
    }
    for state in [*sender.state(), unset, [0; 20]] {
        assert_eq!(Receiver::resume(ONE_LANE, state, [0; MEMORY]).unwrap_err(), Cause::BadSettings);
    }
    assert_eq!(Sender::resume(ONE_LANE, *sender.state(), [0; 23]).unwrap_err(), Cause::BadLength);
    assert_eq!(Receiver::resume(ONE_LANE, *receiver.state(), [0; 26]).unwrap_err(), Cause::BadLength);
    assert_eq!(Receiver::resume(TWO_LANES, *receiver.state(), [0; MEMORY]).unwrap_err(), Cause::BadLength);
}
