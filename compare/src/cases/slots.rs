//! The two calls that tell a slot: states of both ends and frames, with slots, lengths, marks and
//! settings of all kinds; and a terminal that uses them where frames come early or late.

use std::cmp::Ordering;

use reference::frame::{self, HEADER};
use reference::settings::{every_code, Settings};
use reference::state::{ReceiverState, SenderState};

use super::bounds;
use super::ends::{End, Ends};
use super::rows::{any_receiver_bytes, any_sender_bytes, lanes};
use crate::call::Call;
use crate::comparison::{Comparison, Difference};
use crate::draw::Draws;
use crate::slots::{ENDS, LENGTHS};

/// Frames of a terminal's meeting, and how many of them it hears, in any order.
const SENT: usize = 7;
const HEARD: usize = 4;

pub fn run(comparison: &mut Comparison) -> Result<(), Difference> {
    for code in every_code() {
        let mut draws = comparison.case("slots told");
        let lanes = lanes(&mut draws, &code);
        let any = super::settings(&mut draws, &code, lanes);
        let short = Settings { lanes, ..super::short_window(&mut draws, &code) };
        for settings in [any, short] {
            every_slot(comparison, &mut draws, settings)?;
        }
        other_lengths(comparison, &mut draws, any)?;
        out_of_turn(comparison, &mut draws, Settings { lanes: 1, ..any })?;
    }
    Ok(())
}

/// States and a frame of each kind of slot.
fn every_slot(
    comparison: &mut Comparison,
    draws: &mut Draws,
    settings: Settings,
) -> Result<(), Difference> {
    for slot in slots(draws) {
        of_states(comparison, draws, settings, slot)?;
        of_frame(comparison, draws, settings, slot)?;
    }
    Ok(())
}

/// The ends of what there is, one byte alone at each place, and any number.
fn slots(draws: &mut Draws) -> Vec<u32> {
    let bytes = [0, 8, 16, 24].map(|shift| (draws.below(255) as u32 + 1) << shift);
    [&ENDS[..], &bytes, &[draws.next() as u32]].concat()
}

/// The states of both ends with this slot due, and any bytes where no call reads them.
fn states(draws: &mut Draws, settings: Settings, due: u32) -> [Vec<u8>; 2] {
    let opened_at = draws.next() as u32;
    [
        any_sender_bytes(draws, &SenderState { settings, due }),
        any_receiver_bytes(draws, &ReceiverState { settings, opened_at, due }),
    ]
}

/// Both states tell the slot; with each byte of the mark changed, and with other settings, they are
/// no states, or those of the other end, or of other settings.
fn of_states(
    comparison: &mut Comparison,
    draws: &mut Draws,
    settings: Settings,
    due: u32,
) -> Result<(), Difference> {
    for state in states(draws, settings, due) {
        told(comparison, Call::slot_due, &state, due)?;
        for place in 0..4 {
            comparison.slot(Call::slot_due, &with_change(draws, &state, place))?;
        }
        comparison.slot(Call::slot_due, &with_settings(&state, 4, bounds::any(draws)))?;
    }
    Ok(())
}

/// A frame tells the slot, with any settings and with anything behind its header or nothing; with
/// each byte of the mark and of the version changed it is refused.
fn of_frame(
    comparison: &mut Comparison,
    draws: &mut Draws,
    settings: Settings,
    slot: u32,
) -> Result<(), Difference> {
    let body = draws.bytes(frame::body_length(&settings));
    let frame = frame::of(&settings, slot, &body);
    told(comparison, Call::frame_slot, &frame, slot)?;
    told(comparison, Call::frame_slot, &frame[..HEADER], slot)?;
    let longer = [&frame[..], &draws.bytes(HEADER + 1)].concat();
    told(comparison, Call::frame_slot, &longer, slot)?;
    told(comparison, Call::frame_slot, &with_settings(&frame, 5, bounds::any(draws)), slot)?;
    for place in 0..5 {
        comparison.slot(Call::frame_slot, &with_change(draws, &frame, place))?;
    }
    Ok(())
}

/// States and frames of every length up to some: as they are, with another mark, and states with
/// settings that are not accepted.
fn other_lengths(
    comparison: &mut Comparison,
    draws: &mut Draws,
    settings: Settings,
) -> Result<(), Difference> {
    let slot = super::any_slot(draws);
    // The delay is then B − 1.
    let bad = Settings { window: settings.burst, ..settings };
    for length in 0..=LENGTHS {
        let marked = draws.below(3);
        let good_and_bad = [settings, bad].map(|settings| states(draws, settings, slot));
        for state in good_and_bad.into_iter().flatten() {
            let state = resized(draws, state, length);
            comparison.slot(Call::slot_due, &state)?;
            comparison.slot(Call::slot_due, &with_change(draws, &state, marked))?;
        }
        let frame = resized(draws, frame::of(&settings, slot, &[]), length);
        comparison.slot(Call::frame_slot, &frame)?;
        comparison.slot(Call::frame_slot, &with_change(draws, &frame, marked))?;
    }
    Ok(())
}

/// The call is accepted, and tells this slot.
pub fn told(
    comparison: &mut Comparison,
    call: fn(Vec<u8>, u32) -> Call,
    of: &[u8],
    due: u32,
) -> Result<(), Difference> {
    match comparison.slot(call, of)? {
        Some(slot) if slot == due => Ok(()),
        other => Err(comparison.failed(&format!("{other:?} is told, where {due} is due"))),
    }
}

/// The bytes with one of them changed, if they are long enough.
fn with_change(draws: &mut Draws, bytes: &[u8], place: usize) -> Vec<u8> {
    let mut bytes = bytes.to_vec();
    if let Some(byte) = bytes.get_mut(place) {
        draws.change(byte);
    }
    bytes
}

/// The bytes with these settings from a place on.
fn with_settings(bytes: &[u8], place: usize, settings: [u8; 5]) -> Vec<u8> {
    let mut bytes = bytes.to_vec();
    bytes[place..place + 5].copy_from_slice(&settings);
    bytes
}

/// So many bytes: fewer, or more with any bytes behind.
fn resized(draws: &mut Draws, mut bytes: Vec<u8>, length: usize) -> Vec<u8> {
    bytes.truncate(length);
    bytes.extend(draws.bytes(length - bytes.len()));
    bytes
}

/// A terminal hears some frames of a meeting, in any order and some again.
fn out_of_turn(
    comparison: &mut Comparison,
    draws: &mut Draws,
    settings: Settings,
) -> Result<(), Difference> {
    let mut ends = Ends::opened(comparison, draws, settings, 0)?;
    let mut frames = Vec::new();
    for _ in 0..SENT {
        let message = ends.message(draws);
        let mut call = ends.send(draws, &message);
        comparison.call(&mut call)?;
        ends.sender = End::left_by(&mut call);
        frames.push(call.take("frame"));
    }
    for _ in 0..HEARD {
        let frame = &frames[draws.below(SENT)];
        if !heard(comparison, draws, &mut ends, frame)? {
            return Err(comparison.failed("a frame is neither due, nor early or late"));
        }
    }
    Ok(())
}

/// A frame that is not due is dropped where it is late; where it is early, the slots before it are
/// reported as losses, and then it is due. Whether all was accepted that is to be.
fn heard(
    comparison: &mut Comparison,
    draws: &mut Draws,
    ends: &mut Ends,
    frame: &[u8],
) -> Result<bool, Difference> {
    let due = comparison.slot(Call::slot_due, &ends.receiver.state)?;
    let slot = comparison.slot(Call::frame_slot, frame)?;
    let mut report = |heard: Option<&[u8]>| {
        let mut call = ends.report(draws, heard.map(<[u8]>::to_vec));
        let reply = comparison.call(&mut call)?;
        ends.receiver = End::left_by(&mut call);
        Ok::<u32, Difference>(reply)
    };
    let reply = report(Some(frame))?;
    Ok(match slot.cmp(&due) {
        Ordering::Equal => reply >= 16,
        Ordering::Less => reply == 6,
        Ordering::Greater => {
            let mut accepted = reply == 6;
            for _ in due.unwrap_or(0)..slot.unwrap_or(0) {
                accepted &= report(None)? >= 16;
            }
            accepted && report(Some(frame))? >= 16
        }
    })
}
