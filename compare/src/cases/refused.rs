//! Calls with faults of all kinds, for every code.

use reference::frame;
use reference::settings::{every_code, Settings};
use reference::state::{ReceiverState, SenderState};

use super::faults::{faulty, OF_LOOK_UP};
use super::look_ups::{any_in_reach, in_reach};
use super::rows::{any_receiver_bytes, any_sender_bytes, due, lanes, opened_at};
use crate::call::Call;
use crate::comparison::{Comparison, Difference};
use crate::draw::Draws;
use crate::model::lengths;

/// Faulty calls of each kind in a case.
const EACH: usize = 150;

pub fn run(comparison: &mut Comparison) -> Result<(), Difference> {
    for code in every_code() {
        let mut draws = comparison.case("refused calls");
        let lanes = lanes(&mut draws, &code);
        let settings = super::settings(&mut draws, &code, lanes);
        let due = due(&mut draws, &settings);
        let calls = calls(&mut draws, settings, due);
        for call in &calls {
            for _ in 0..EACH {
                comparison.call(&mut faulty(&mut draws, call))?;
            }
        }
        every_choice(comparison, &mut draws, &calls[3])?;
    }
    Ok(())
}

/// A look-up with every choice of its four causes: the first of them is the reply.
fn every_choice(
    comparison: &mut Comparison,
    draws: &mut Draws,
    look_up: &Call,
) -> Result<(), Difference> {
    for choice in 0..1 << OF_LOOK_UP.len() {
        let mut call = look_up.clone();
        let mut first = None;
        for (place, (cause, fault)) in OF_LOOK_UP.into_iter().enumerate() {
            if choice >> place & 1 == 1 {
                fault(draws, &mut call);
                first = first.or(Some(cause));
            }
        }
        let reply = comparison.call(&mut call)?;
        if first.map_or(reply < 17, |cause| reply != cause) {
            let due = first.map_or("a verdict".to_string(), |cause| cause.to_string());
            return Err(comparison.failed(&format!("reply {reply}, where {due} is due")));
        }
    }
    Ok(())
}

/// A send, a frame report, a loss report and a look-up, without a fault, over any bytes.
fn calls(draws: &mut Draws, settings: Settings, due: u32) -> [Call; 4] {
    let [message, frame, sender, receiver] = lengths(&settings);
    let body = draws.bytes(frame - frame::HEADER);
    let heard = frame::of(&settings, due, &body);
    let s = any_sender_bytes(draws, &SenderState { settings, due });
    let opened_at = opened_at(draws, due);
    let r = any_receiver_bytes(draws, &ReceiverState { settings, opened_at, due });
    // Behind a report, so that there is a message to look up.
    let due = due.max(1);
    let behind = any_receiver_bytes(draws, &ReceiverState { settings, opened_at, due });
    let number = any_in_reach(draws, &in_reach(&settings, due));
    let mut bytes = |count| draws.bytes(count);
    [
        Call::send(s, bytes(sender), bytes(message), bytes(frame)),
        Call::heard(r.clone(), bytes(receiver), heard, bytes(message)),
        Call::lost(r, bytes(receiver), bytes(message)),
        Call::look_up(behind, bytes(receiver), number, bytes(message)),
    ]
}
