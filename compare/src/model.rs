//! The expected side: the library's interface, worked out by the reference.

use reference::frame;
use reference::pair::pair_cause;
use reference::receiver::{self, Reply};
use reference::sender;
use reference::settings::Settings;
use reference::state::{ReceiverState, Refusal, SenderState};

use crate::call::{message_number_of, number_of, Kind};

/// The length of a state: its mark, W, T, B, N, L, the slot due, a receiver's opening slot, and
/// bytes that are kept for later.
pub const STATE: usize = 20;
/// Where the slot due stands in a state, and where a receiver's opening slot does.
pub const DUE: std::ops::Range<usize> = 9..13;
pub const OPENED_AT: std::ops::Range<usize> = 13..17;
/// Where the bytes begin that no call reads, of a sender's state and of a receiver's.
pub const UNREAD_OF_SENDER: usize = 13;
pub const UNREAD_OF_RECEIVER: usize = 17;
/// The mark of a sender's state, and of a receiver's.
pub const SENDER: [u8; 4] = [0x54, 0x4F, 0x42, 0x53];
pub const RECEIVER: [u8; 4] = [0x54, 0x4F, 0x42, 0x52];

/// Document 01's numbers for settings that are not accepted, for a wrong length, and for another
/// mark or version.
const BAD_SETTINGS: u32 = 1;
const BAD_LENGTH: u32 = 2;
const BAD_MARK: u32 = 4;

pub fn settings_of([window, delay, burst, scattered, lanes]: [u8; 5]) -> Settings {
    Settings { window, delay, burst, scattered, lanes }
}

pub fn bytes_of(s: &Settings) -> [u8; 5] {
    [s.window, s.delay, s.burst, s.scattered, s.lanes]
}

/// The bytes of a sender's state, for any settings and any slot due.
pub fn sender_bytes(state: &SenderState) -> Vec<u8> {
    filled_up([&SENDER[..], &bytes_of(&state.settings), &state.due.to_be_bytes()].concat())
}

/// The bytes of a receiver's state, for any settings, any slot due and any opening slot.
pub fn receiver_bytes(state: &ReceiverState) -> Vec<u8> {
    let [due, opened_at] = [state.due, state.opened_at].map(u32::to_be_bytes);
    filled_up([&RECEIVER[..], &bytes_of(&state.settings), &due, &opened_at].concat())
}

/// Zeros behind what is written.
fn filled_up(mut bytes: Vec<u8>) -> Vec<u8> {
    bytes.resize(STATE, 0);
    bytes
}

/// The settings that a state holds, or the cause that its bytes give before any of the call's own:
/// of another length no settings can be read, and with another mark they are none of this end's.
fn settings_in(mark: [u8; 4], state: &[u8]) -> Result<Settings, u32> {
    if state.len() != STATE {
        return Err(BAD_LENGTH);
    }
    let (found, behind) = state.split_at(mark.len());
    if found != mark {
        return Err(BAD_SETTINGS);
    }
    Ok(settings_of([behind[0], behind[1], behind[2], behind[3], behind[4]]))
}

/// The state that a sender's bytes hold; those behind the slot due say nothing.
fn sender_of(bytes: &[u8]) -> Result<SenderState, u32> {
    let settings = settings_in(SENDER, bytes)?;
    Ok(SenderState { settings, due: number_of(&bytes[DUE]) })
}

/// The state that a receiver's bytes hold; those behind the opening slot say nothing.
pub fn receiver_of(bytes: &[u8]) -> Result<ReceiverState, u32> {
    let settings = settings_in(RECEIVER, bytes)?;
    let [due, opened_at] = [DUE, OPENED_AT].map(|place| number_of(&bytes[place]));
    Ok(ReceiverState { settings, opened_at, due })
}

/// The lengths of a message, a frame, a sender's rows and a receiver's: 0 if not accepted.
pub fn lengths(settings: &Settings) -> [usize; 4] {
    if !settings.accepted() {
        return [0; 4];
    }
    [
        frame::message_length(settings),
        frame::length(settings),
        sender::rows_length(settings),
        receiver::rows_length(settings),
    ]
}

/// The expected answer; what is to be written is in the things afterwards.
pub fn by_reference(kind: Kind, things: &mut [Vec<u8>]) -> u32 {
    match (kind, things) {
        (Kind::OpenSender, [settings, state, rows]) => opened(settings, state, |settings| {
            let (state, opened) = sender::open(settings, rows);
            opened.map(|()| sender_bytes(&state))
        }),
        (Kind::OpenReceiver, [settings, state, rows]) => open_receiver(settings, 0, state, rows),
        (Kind::OpenReceiverAt, [settings, slot, state, rows]) => {
            open_receiver(settings, number_of(slot), state, rows)
        }
        (Kind::Send, [state, rows, message, frame]) => moved_on(sender_of(state), state, |start| {
            let (next, sent) = sender::send(start, rows, message, frame);
            sent.map(|()| (0, sender_bytes(&next)))
        }),
        (Kind::Heard, [state, rows, frame, message]) => {
            moved_on(receiver_of(state), state, |start| {
                let (next, reply) = receiver::report_frame(start, rows, frame, message);
                reply.map(|reply| (number(reply), receiver_bytes(&next)))
            })
        }
        (Kind::Lost, [state, rows, message]) => moved_on(receiver_of(state), state, |start| {
            let (next, reply) = receiver::report_loss(start, rows, message);
            reply.map(|reply| (number(reply), receiver_bytes(&next)))
        }),
        (Kind::LookUp, [state, rows, number, message]) => {
            looked_up(state, rows, message_number_of(number), message)
        }
        (Kind::PairCause, [settings, first, second]) => {
            pair_cause(&settings_lent(settings), first, second)
        }
        (Kind::SlotDue, [state, slot]) => told(slot_due(state), slot),
        (Kind::FrameSlot, [frame, slot]) => told(frame_slot(frame), slot),
        _ => unreachable!("a call is lent the things of its kind"),
    }
}

/// The settings that are lent on their own.
fn settings_lent(bytes: &[u8]) -> Settings {
    settings_of(bytes.try_into().expect("settings are five bytes"))
}

/// Both openings of a receiver: the one without a slot is at slot 0.
fn open_receiver(settings: &[u8], slot: u32, state: &mut [u8], rows: &mut [u8]) -> u32 {
    opened(settings, state, |settings| {
        let (state, opened) = receiver::open(settings, slot, rows);
        opened.map(|()| receiver_bytes(&state))
    })
}

fn number(reply: Reply) -> u32 {
    match reply {
        Reply::NoneYet => 16,
        Reply::Whole => 17,
        Reply::Lost => 18,
        Reply::Clash => 19,
    }
}

/// An opening: the settings first, then the lengths, that of the state among them, then the slot.
/// A refused one leaves the state as it was.
fn opened(
    settings: &[u8],
    state: &mut [u8],
    open: impl FnOnce(Settings) -> Result<Vec<u8>, Refusal>,
) -> u32 {
    let settings = settings_lent(settings);
    if settings.accepted() && state.len() != STATE {
        return BAD_LENGTH;
    }
    match open(settings) {
        Ok(next) => {
            state.copy_from_slice(&next);
            0
        }
        Err(refusal) => u32::from(refusal.number()),
    }
}

/// A call that starts from a state. An accepted one writes every byte of the next state; a refused
/// one leaves the state as it was.
fn moved_on<A>(
    start: Result<A, u32>,
    state: &mut [u8],
    call: impl FnOnce(A) -> Result<(u32, Vec<u8>), Refusal>,
) -> u32 {
    match start.map(call) {
        Ok(Ok((reply, next))) => {
            state.copy_from_slice(&next);
            reply
        }
        Ok(Err(refusal)) => u32::from(refusal.number()),
        Err(cause) => cause,
    }
}

/// A call that starts from a state and leaves it: the message buffer alone is written.
fn looked_up(state: &[u8], rows: &[u8], of: i64, message: &mut [u8]) -> u32 {
    match receiver_of(state).map(|start| receiver::look_up(start, rows, of, message)) {
        Ok(Ok(reply)) => number(reply),
        Ok(Err(refusal)) => u32::from(refusal.number()),
        Err(cause) => cause,
    }
}

/// The slot due that the state of either end holds, whatever number it is.
pub fn slot_due(state: &[u8]) -> Result<u32, u32> {
    let of_sender = sender_of(state).map(|state| (state.settings, state.due));
    let (settings, due) =
        of_sender.or_else(|_| receiver_of(state).map(|state| (state.settings, state.due)))?;
    match settings.accepted() {
        true => Ok(due),
        false => Err(BAD_SETTINGS),
    }
}

/// The slot in the header of a frame, whatever the settings there are and whatever is behind it.
pub fn frame_slot(frame: &[u8]) -> Result<u32, u32> {
    if frame.len() < frame::HEADER {
        return Err(BAD_LENGTH);
    }
    if frame::mark(frame) != frame::MARK || frame::version(frame) != frame::VERSION {
        return Err(BAD_MARK);
    }
    Ok(frame::slot(frame))
}

/// A call that tells a slot; a refused one leaves the lent slot as it was.
fn told(found: Result<u32, u32>, slot: &mut [u8]) -> u32 {
    match found {
        Ok(found) => {
            slot.copy_from_slice(&found.to_be_bytes());
            0
        }
        Err(cause) => cause,
    }
}

#[cfg(test)]
mod tests {
    use reference::state::END;

    use super::*;
    use crate::call::Call;

    fn settings() -> Settings {
        Settings::of_code(3, 2, 2)
    }

    /// The bytes of a receiver's state, opened at slot 3.
    fn state(settings: Settings, due: u32) -> Vec<u8> {
        receiver_bytes(&ReceiverState { settings, opened_at: 3, due })
    }

    /// A loss report from these bytes, with the lengths that the settings give: the reply, and the
    /// bytes afterwards.
    fn lost(state: Vec<u8>, settings: Settings) -> (u32, Vec<u8>) {
        let [message, .., rows] = lengths(&settings);
        let mut things = [state, vec![0; rows], vec![0; message]];
        let reply = by_reference(Kind::Lost, &mut things);
        (reply, things[0].clone())
    }

    #[test]
    fn what_a_state_is_refused_for() {
        let other = Settings { lanes: 65, ..settings() };
        let reply = |settings: Settings, due: u32| lost(state(settings, due), settings).0;
        assert_eq!(reply(settings(), 3), 18);
        assert_eq!(reply(settings(), END - 1), 18);
        assert_eq!(reply(settings(), END), 3);
        assert_eq!(reply(settings(), u32::MAX), 3);
        assert_eq!(reply(other, u32::MAX), 1);
        // The delay is 1, below B.
        assert_eq!(reply(Settings { window: 2, ..settings() }, 3), 1);
        let sender = |settings| sender_bytes(&SenderState { settings, due: 3 });
        assert_eq!(lost(sender(settings()), settings()).0, 1);
        assert_eq!(lost(sender(other)[1..].to_vec(), other).0, 2);
        assert_eq!(lost([&state(settings(), 3)[..], &[0]].concat(), settings()).0, 2);
    }

    #[test]
    fn the_bytes_of_both_states() {
        let state = SenderState { settings: settings(), due: 0x01020304 };
        let start = [0x54, 0x4F, 0x42, 0x53, 4, 3, 2, 2, 1, 1, 2, 3, 4];
        assert_eq!(sender_bytes(&state), [&start[..], &[0; 7]].concat());
        let state = ReceiverState { settings: settings(), opened_at: 0x05060708, due: 0x01020304 };
        let start = [0x54, 0x4F, 0x42, 0x52, 4, 3, 2, 2, 1, 1, 2, 3, 4, 5, 6, 7, 8];
        assert_eq!(receiver_bytes(&state), [&start[..], &[0; 3]].concat());
        assert_eq!(receiver_of(&receiver_bytes(&state)), Ok(state));
    }

    #[test]
    fn a_state_keeps_t_as_set() {
        // The delays are 2 and 3.
        for [window, delay] in [[3, 3], [4, 255]] {
            let short = Settings { window, delay, ..settings() };
            assert_eq!(lost(state(short, 3), short), (18, state(short, 4)));
        }
    }

    #[test]
    fn unread_bytes_become_zeros_when_a_call_is_accepted_and_stay_when_it_is_refused() {
        let with = |mut bytes: Vec<u8>, unread: usize| {
            bytes[unread..].fill(7);
            bytes
        };
        let receiver = |due: u32| with(state(settings(), due), UNREAD_OF_RECEIVER);
        assert_eq!(lost(receiver(3), settings()), (18, state(settings(), 4)));
        assert_eq!(lost(receiver(END), settings()), (3, receiver(END)));
        let bytes = |due: u32| sender_bytes(&SenderState { settings: settings(), due });
        let [message, frame, rows, _] = lengths(&settings());
        for (due, reply) in [(5, 0), (END, 3)] {
            let before = with(bytes(due), UNREAD_OF_SENDER);
            let mut things = [before.clone(), vec![0; rows], vec![0; message], vec![0; frame]];
            assert_eq!(by_reference(Kind::Send, &mut things), reply);
            assert_eq!(things[0], if reply == 0 { bytes(due + 1) } else { before });
        }
    }

    /// A look-up from these bytes over lost rows: the reply, when the buffer alone has changed.
    fn look_up(state: Vec<u8>, more: [usize; 2], number: i64) -> u32 {
        let [message, .., rows] = lengths(&settings());
        let (rows, message) = (vec![0; rows + more[0]], vec![7; message + more[1]]);
        let mut call = Call::look_up(state, rows, number, message);
        let before = call.things.clone();
        let reply = by_reference(call.kind, &mut call.things);
        assert_eq!(call.things[..3], before[..3]);
        assert_eq!(call.things[3].iter().all(|byte| *byte == 0), reply == 18);
        assert!(reply == 18 || call.things == before);
        reply
    }

    #[test]
    fn a_look_up_meets_1_before_2_before_3_before_8_and_leaves_the_state() {
        let other = Settings { lanes: 65, ..settings() };
        let sender = sender_bytes(&SenderState { settings: settings(), due: 9 });
        let mut unread = state(settings(), 9);
        unread[UNREAD_OF_RECEIVER..].fill(7);
        assert_eq!([5, 6, 8, 9].map(|t| look_up(unread.clone(), [0, 0], t)), [8, 18, 18, 8]);
        for number in [-1, 8, 9] {
            assert_eq!(look_up(state(settings(), END), [0, 0], number), 3);
            assert_eq!(look_up(state(settings(), END), [1, 0], number), 2);
            assert_eq!(look_up(state(settings(), 9), [0, 1], number), 2);
            assert_eq!(look_up(state(other, END), [1, 1], number), 1);
            assert_eq!(look_up(sender.clone(), [1, 1], number), 1);
            assert_eq!(look_up(sender[1..].to_vec(), [0, 0], number), 2);
        }
    }

    #[test]
    fn the_settings_of_a_pair_come_before_its_lengths_and_nothing_is_written() {
        let of_slot = |slot| frame::of(&settings(), slot, &[7; 4]);
        let check = |settings: Settings, first: &[u8], second: &[u8]| {
            let mut call = Call::pair_cause(bytes_of(&settings), first.to_vec(), second.to_vec());
            let before = call.things.clone();
            let number = by_reference(call.kind, &mut call.things);
            assert_eq!(call.things, before);
            number
        };
        let (one, other) = (of_slot(5), Settings { window: 2, ..settings() });
        assert_eq!(check(settings(), &one, &of_slot(6)), 0);
        assert_eq!(check(settings(), &one, &[]), 0);
        assert_eq!(check(settings(), &one, &one[1..]), 2);
        assert_eq!(check(other, &one, &one[1..]), 1);
        assert_eq!(check(Settings { delay: 4, ..settings() }, &one, &[]), 5);
        assert_eq!(check(settings(), &[&one[..], &one].concat(), &one), 9);
        assert_eq!(check(settings(), &frame::of(&settings(), 5, &[8; 4]), &one), 10);
    }

    /// The reply to a call that tells a slot, and the slot, which was 7.
    fn read(mut call: Call) -> (u32, u32) {
        let before = call.things[0].clone();
        let reply = by_reference(call.kind, &mut call.things);
        assert_eq!(call.things[0], before);
        (reply, number_of(&call.things[1]))
    }

    #[test]
    fn the_slot_due_of_either_end_is_told_and_2_comes_before_1() {
        let other = Settings { lanes: 65, ..settings() };
        let sender = |settings, due| sender_bytes(&SenderState { settings, due });
        let due_of = |state: &[u8]| read(Call::slot_due(state.to_vec(), 7));
        for due in [0, 0x01020304, END - 1, END, u32::MAX] {
            for good in [state(settings(), due), sender(settings(), due)] {
                assert_eq!(due_of(&good), (0, due));
                assert_eq!(due_of(&good[1..]), (2, 7));
                assert_eq!(due_of(&[&good[..], &[0]].concat()), (2, 7));
                for place in 0..3 {
                    let mut marked = good.clone();
                    marked[place] ^= 1;
                    assert_eq!(due_of(&marked), (1, 7));
                    assert_eq!(due_of(&marked[..STATE - 1]), (2, 7));
                }
            }
            for bad in [state(other, due), sender(other, due)] {
                assert_eq!(due_of(&bad), (1, 7));
                assert_eq!(due_of(&bad[..STATE - 1]), (2, 7));
            }
        }
        let marked = |byte: u8| [&SENDER[..3], &[byte], &state(settings(), 9)[4..]].concat();
        let told = (0..=u8::MAX).filter(|byte| due_of(&marked(*byte)) == (0, 9));
        assert!(told.eq([RECEIVER[3], SENDER[3]]));
        assert_eq!(due_of(&[]), (2, 7));
    }

    #[test]
    fn the_slot_of_a_frame_is_told_from_its_header_alone_and_2_comes_before_4() {
        let slot_of = |frame: &[u8]| read(Call::frame_slot(frame.to_vec(), 7));
        for slot in [0, 0x01020304, END, u32::MAX] {
            for settings in [settings(), Settings::ZEROS] {
                let frame = frame::of(&settings, slot, &[5; 9]);
                for length in 0..=frame.len() {
                    let due = if length < 14 { (2, 7) } else { (0, slot) };
                    assert_eq!(slot_of(&frame[..length]), due);
                }
                for place in 0..5 {
                    let mut marked = frame.clone();
                    marked[place] ^= 1;
                    assert_eq!(slot_of(&marked), (4, 7));
                    assert_eq!(slot_of(&marked[..13]), (2, 7));
                }
            }
        }
    }

    #[test]
    fn the_settings_of_an_opening_come_before_its_lengths() {
        let open = |settings: [u8; 5], state, rows| {
            by_reference(Kind::OpenSender, &mut [settings.to_vec(), vec![7; state], vec![7; rows]])
        };
        let (good, rows) = (bytes_of(&settings()), lengths(&settings())[2]);
        assert_eq!(open(good, STATE, rows), 0);
        assert_eq!(open(good, STATE + 1, rows), 2);
        assert_eq!(open(good, STATE, rows + 1), 2);
        assert_eq!(open([0; 5], STATE + 1, rows + 1), 1);
    }

    #[test]
    fn an_opening_at_a_slot_meets_settings_before_lengths_before_the_slot() {
        let exact = lengths(&settings())[3];
        let open = |settings: [u8; 5], slot: u32, state: usize, rows: usize| {
            let mut call = Call::open_at(settings, slot, vec![7; state], vec![7; rows]);
            let before = call.things.clone();
            let reply = by_reference(call.kind, &mut call.things);
            assert_eq!(reply == 0, call.things != before);
            reply
        };
        let good = bytes_of(&settings());
        for (slot, at_slot) in [(0, 0), (END - 1, 0), (END, 7), (u32::MAX, 7)] {
            assert_eq!(open(good, slot, STATE, exact), at_slot);
            assert_eq!(open(good, slot, STATE + 1, exact), 2);
            assert_eq!(open(good, slot, STATE, exact + 1), 2);
            assert_eq!(open([0; 5], slot, STATE, exact), 1);
            assert_eq!(open([0; 5], slot, STATE + 1, exact + 1), 1);
        }
    }

    #[test]
    fn an_opening_without_a_slot_is_the_one_at_0() {
        let rows = lengths(&settings())[3];
        let (settings, state, rows) = (bytes_of(&settings()), vec![7; STATE], vec![7; rows]);
        let mut plain = Call::open(Kind::OpenReceiver, settings, state.clone(), rows.clone());
        let mut at_0 = Call::open_at(settings, 0, state, rows);
        assert_eq!(by_reference(plain.kind, &mut plain.things), 0);
        assert_eq!(by_reference(at_0.kind, &mut at_0.things), 0);
        assert_eq!(plain.things[1..], at_0.things[2..]);
    }
}
