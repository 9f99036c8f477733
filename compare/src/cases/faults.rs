//! Faults of a call: what is lent is changed so that the call is to be refused.
//! (Now and then it is accepted all the same: both sides must then agree on that.)

use reference::frame::HEADER;
use reference::settings::Settings;
use reference::state::END;

use super::bounds;
use super::look_ups::{far_number, out_of_reach};
use crate::call::{Call, Kind};
use crate::draw::Draws;
use crate::model::{bytes_of, receiver_of, settings_of, DUE, RECEIVER, SENDER, STATE};

pub type Fault = fn(&mut Draws, &mut Call);

/// Those of calls that start from a state.
const OF_STATE: [Fault; 8] =
    [length, mark, other_kind, state_byte, settings, window, same_delay, due];
const OF_FRAME: [Fault; 4] = [frame_mark, frame_settings, frame_slot, frame_header];
const OF_NUMBER: [Fault; 2] = [number; 2];

/// A fault for each cause of a look-up, in the order of checking.
pub const OF_LOOK_UP: [(u32, Fault); 4] =
    [(1, narrow_window), (2, wrong_length), (3, due_or_end), (8, number)];

/// The call with one to three faults.
pub fn faulty(draws: &mut Draws, call: &Call) -> Call {
    let mut call = call.clone();
    let own: &[Fault] = match call.kind {
        Kind::Heard => &OF_FRAME,
        Kind::LookUp => &OF_NUMBER,
        _ => &[],
    };
    let lengths: &[Fault] = &[wrong_length, wrong_length, due, at_end];
    let faults = [&OF_STATE[..], own, own, lengths].concat();
    for _ in 0..draws.one_of(&[1, 1, 1, 2, 2, 3]) {
        draws.one_of(&faults)(draws, &mut call);
    }
    call
}

/// A length that is not this one.
pub fn other_length(draws: &mut Draws, exact: usize) -> usize {
    let any = draws.below(exact + 20);
    let shorter = exact.saturating_sub(1);
    let other = draws.one_of(&[0, shorter, exact + 1, exact / 2, 2 * exact, exact + HEADER, any]);
    if other == exact {
        exact + 1
    } else {
        other
    }
}

fn resize(draws: &mut Draws, thing: &mut Vec<u8>) {
    let other = other_length(draws, thing.len());
    thing.truncate(other);
    let more = draws.bytes(other - thing.len());
    thing.extend(more);
}

/// The state has another length.
fn length(draws: &mut Draws, call: &mut Call) {
    resize(draws, call.thing("state"));
}

/// One of the lent things other than the state has another length. A number has but one.
fn wrong_length(draws: &mut Draws, call: &mut Call) {
    let names = call.kind.things();
    let places: Vec<usize> = (1..names.len()).filter(|&place| names[place] != "number").collect();
    let place = draws.one_of(&places);
    resize(draws, &mut call.things[place]);
}

/// Changes one byte of a thing, between these places, if it is long enough.
fn change(draws: &mut Draws, thing: &mut [u8], from: usize, to: usize) {
    let place = from + draws.below(to - from);
    if let Some(byte) = thing.get_mut(place) {
        draws.change(byte);
    }
}

fn mark(draws: &mut Draws, call: &mut Call) {
    change(draws, call.thing("state"), 0, 4);
}

/// The state is one of the other end.
fn other_kind(_: &mut Draws, call: &mut Call) {
    let mark = if call.kind == Kind::Send { RECEIVER } else { SENDER };
    if let Some(start) = call.thing("state").get_mut(..4) {
        start.copy_from_slice(&mark);
    }
}

/// Any byte of the state; those that the call does not read are no cause.
fn state_byte(draws: &mut Draws, call: &mut Call) {
    change(draws, call.thing("state"), 0, STATE);
}

/// The state's settings become others, which are seldom accepted.
fn settings(draws: &mut Draws, call: &mut Call) {
    let others = bounds::any(draws);
    let place = draws.below(5);
    if let Some(settings) = settings_of_state(call) {
        settings[place] = others[place];
    }
}

/// The state's window is at most the delay, and so makes it shorter: B is above it then, or it goes
/// with other lengths.
fn window(draws: &mut Draws, call: &mut Call) {
    if let Some(settings) = settings_of_state(call) {
        let (delay, burst) = (delay(settings), settings[2]);
        let any = draws.below(usize::from(delay) + 1) as u8;
        let window = draws.one_of(&[any, any, burst, burst.saturating_add(1)]);
        settings[0] = window.min(delay);
    }
}

/// The state's window makes the delay B − 1, which is never accepted.
fn narrow_window(_: &mut Draws, call: &mut Call) {
    if let Some(settings) = settings_of_state(call) {
        settings[0] = settings[2];
    }
}

/// The state's W and T become others that make the same delay: every length is still theirs, and
/// only a frame is refused, which has the old ones.
fn same_delay(draws: &mut Draws, call: &mut Call) {
    if let Some(settings) = settings_of_state(call) {
        let [_, _, burst, scattered, lanes] = *settings;
        let code = Settings::of_code(delay(settings), burst, scattered);
        *settings = bytes_of(&super::settings(draws, &code, lanes));
    }
}

/// The settings in the state, if it is long enough.
fn settings_of_state(call: &mut Call) -> Option<&mut [u8; 5]> {
    call.thing("state").get_mut(4..9)?.try_into().ok()
}

/// The smaller of T and W − 1, which is below 255.
fn delay(settings: &[u8; 5]) -> u8 {
    settings_of(*settings).t() as u8
}

/// The state's slot due is above the end.
fn due(draws: &mut Draws, call: &mut Call) {
    let far = draws.next() as u32 % (u32::MAX - END) + 1;
    let above = draws.one_of(&[1, 2, far, u32::MAX - END]);
    set_due(call, END + above);
}

/// The state's slot due is the end.
fn at_end(_: &mut Draws, call: &mut Call) {
    set_due(call, END);
}

/// One of the two.
fn due_or_end(draws: &mut Draws, call: &mut Call) {
    draws.one_of(&[due, at_end])(draws, call);
}

fn set_due(call: &mut Call, due: u32) {
    if let Some(bytes) = call.thing("state").get_mut(DUE) {
        bytes.copy_from_slice(&due.to_be_bytes());
    }
}

/// The number is out of reach; it is a far one where no state tells what that is.
fn number(draws: &mut Draws, call: &mut Call) {
    let number = match receiver_of(call.thing("state")) {
        Ok(state) => out_of_reach(draws, &state.settings, state.due),
        Err(_) => far_number(draws, 0),
    };
    call.thing("number").copy_from_slice(&number.to_be_bytes());
}

fn frame_mark(draws: &mut Draws, call: &mut Call) {
    change(draws, call.thing("frame"), 0, 5);
}

fn frame_settings(draws: &mut Draws, call: &mut Call) {
    change(draws, call.thing("frame"), 5, 10);
}

/// Another slot: one before, one behind, or with one byte changed.
fn frame_slot(draws: &mut Draws, call: &mut Call) {
    let step = draws.one_of(&[1, u32::MAX, 0]);
    let frame = call.thing("frame");
    if let (Some(Ok(slot)), false) = (frame.get(10..14).map(TryInto::try_into), step == 0) {
        let slot = u32::from_be_bytes(slot).wrapping_add(step);
        frame[10..14].copy_from_slice(&slot.to_be_bytes());
    } else {
        change(draws, frame, 10, 14);
    }
}

/// Any byte of the header, two times.
fn frame_header(draws: &mut Draws, call: &mut Call) {
    for _ in 0..2 {
        change(draws, call.thing("frame"), 0, HEADER);
    }
}

#[cfg(test)]
mod tests {
    use reference::settings::every_code;
    use reference::state::ReceiverState;

    use super::*;
    use crate::model::{by_reference, lengths, receiver_bytes};

    /// The reply to the report of a loss with this fault.
    fn reply(draws: &mut Draws, settings: Settings, fault: Fault) -> u32 {
        let state = receiver_bytes(&ReceiverState { settings, opened_at: 0, due: 99 });
        let [message, .., rows] = lengths(&settings);
        let mut call = Call::lost(state, vec![0; rows], vec![0; message]);
        fault(draws, &mut call);
        by_reference(call.kind, &mut call.things)
    }

    #[test]
    fn each_fault_of_a_look_up_is_refused_for_its_cause() {
        let mut draws = Draws::of_case(1, 9);
        for code in every_code() {
            let settings = crate::cases::settings(&mut draws, &code, 1);
            let state = receiver_bytes(&ReceiverState { settings, opened_at: 0, due: 5 });
            let [message, .., rows] = lengths(&settings);
            let look_up = Call::look_up(state, vec![0; rows], 4, vec![0; message]);
            for (cause, fault) in OF_LOOK_UP {
                let mut call = look_up.clone();
                fault(&mut draws, &mut call);
                assert_eq!(call.thing("number").len(), 8);
                assert_eq!(by_reference(call.kind, &mut call.things), cause, "{settings:?}");
            }
        }
    }

    #[test]
    fn a_shorter_window_is_refused_and_the_same_delay_is_not() {
        let mut draws = Draws::of_case(1, 4);
        let mut causes = [0; 3];
        for code in every_code() {
            let settings = crate::cases::settings(&mut draws, &code, 1);
            causes[reply(&mut draws, settings, window) as usize] += 1;
            assert_eq!(reply(&mut draws, settings, same_delay), 18);
        }
        assert!(causes[0] == 0 && causes[1] > 99 && causes[2] > 99, "{causes:?}");
    }
}
