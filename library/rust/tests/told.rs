//! What reports and look-ups tell, on document 01's figures and on a vector with two lanes that was worked out elsewhere.

mod common;

use common::{figure_nine, receiver, sent, MEMORY, TWO_LANES};
use tob::{Known, Receiver, Told};

/// The messages of the vector with two lanes: two, then zeros.
const MESSAGES: [&[u8]; 8] =
    [&[1, 1, 0, 0], &[0, 0, 1, 0], &[0; 4], &[0; 4], &[0; 4], &[0; 4], &[0; 4], &[0; 4]];
/// The bodies of its first slots; then they are zeros.
const BODIES: [[u8; 8]; 4] = [
    [0x01, 0x01, 0, 0, 0, 0, 0, 0],
    [0, 0, 0x01, 0, 0, 0, 0, 0],
    [0, 0, 0, 0, 0x01, 0x03, 0, 0],
    [0, 0, 0, 0, 0, 0, 0x18, 0x1B],
];

#[test]
fn two_lanes_are_sent() {
    for (slot, frame) in sent(TWO_LANES, &MESSAGES).iter().enumerate() {
        let header = [0x54, 0x4F, 0x42, 0, 1, 4, 3, 2, 2, 2, 0, 0, 0, slot as u8];
        assert_eq!(frame[..14], header);
        assert_eq!(frame[14..], *BODIES.get(slot).unwrap_or(&[0; 8]), "slot {slot}");
    }
}

/// Reports the frames of the vector but for the slots that are lost: every message is whole.
fn all_whole(is_lost: impl Fn(usize) -> bool) {
    let mut receiver = Receiver::open(TWO_LANES, [0xAA; MEMORY]).unwrap();
    for (slot, frame) in sent(TWO_LANES, &MESSAGES).iter().enumerate() {
        let told = if is_lost(slot) { receiver.lost() } else { receiver.heard(frame) };
        let due = slot.checked_sub(3).map_or(Told::NoneYet, |number| Told::Whole(MESSAGES[number]));
        assert_eq!(told, Ok(due), "slot {slot}");
    }
}

#[test]
fn two_lanes_are_received() {
    all_whole(|_| false);
}

#[test]
fn two_lanes_are_received_without_the_first_two_slots() {
    all_whole(|slot| slot < 2);
}

#[test]
fn three_lost_slots_lose_two_messages() {
    let (mut receiver, frames) = (receiver(), figure_nine());
    for _ in 0..3 {
        assert_eq!(receiver.lost(), Ok(Told::NoneYet));
    }
    assert_eq!(receiver.heard(&frames[3]), Ok(Told::Lost));
    assert_eq!(receiver.heard(&frames[4]), Ok(Told::Lost));
    assert_eq!(receiver.heard(&frames[5]), Ok(Told::Whole(&[0, 0])));
    assert_eq!(receiver.slot_due(), 6);
}

#[test]
fn a_changed_body_makes_two_messages_clash() {
    let (mut receiver, mut frames) = (receiver(), figure_nine());
    frames[2][14..].copy_from_slice(&[0, 0, 2, 0]);
    for frame in &frames[..3] {
        assert_eq!(receiver.heard(frame), Ok(Told::NoneYet));
    }
    assert_eq!(receiver.look_up(0), Ok(Known::Clash));
    assert_eq!(receiver.look_up(2), Ok(Known::Whole(&[0, 0])));
    assert_eq!(receiver.heard(&frames[3]), Ok(Told::Clash));
    assert_eq!(receiver.heard(&frames[4]), Ok(Told::Clash));
    assert_eq!(receiver.heard(&frames[5]), Ok(Told::Whole(&[0, 0])));
}

#[test]
fn a_look_up_tells_what_is_known_so_far_and_changes_nothing() {
    let (mut receiver, frames) = (receiver(), figure_nine());
    receiver.lost().unwrap();
    receiver.heard(&frames[1]).unwrap();
    let before = (*receiver.state(), receiver.rows().to_vec());
    assert_eq!(receiver.look_up(0), Ok(Known::Lost));
    assert_eq!(receiver.look_up(1), Ok(Known::Whole(&[0, 1])));
    assert_eq!((*receiver.state(), receiver.rows().to_vec()), before);

    // With k frames heard after its own slot a message is known: here 2.
    receiver.heard(&frames[2]).unwrap();
    assert_eq!(receiver.look_up(0), Ok(Known::Whole(&[1, 0])));
    assert_eq!(receiver.heard(&frames[3]), Ok(Told::Whole(&[1, 0])));
}
