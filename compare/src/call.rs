//! The ten calls with the things that they are lent, and the library's side of each.

use std::ops::Range;

use crate::lent::Lent;

#[derive(Clone, Copy, Debug, PartialEq, Eq, PartialOrd, Ord)]
pub enum Kind {
    OpenSender,
    OpenReceiver,
    OpenReceiverAt,
    Send,
    Heard,
    Lost,
    LookUp,
    PairCause,
    SlotDue,
    FrameSlot,
}

impl Kind {
    pub const ALL: [Kind; 10] = [
        Kind::OpenSender,
        Kind::OpenReceiver,
        Kind::OpenReceiverAt,
        Kind::Send,
        Kind::Heard,
        Kind::Lost,
        Kind::LookUp,
        Kind::PairCause,
        Kind::SlotDue,
        Kind::FrameSlot,
    ];

    pub fn name(self) -> &'static str {
        match self {
            Kind::OpenSender => "open_sender",
            Kind::OpenReceiver => "open_receiver",
            Kind::OpenReceiverAt => "open_receiver_at",
            Kind::Send => "send",
            Kind::Heard => "heard",
            Kind::Lost => "lost",
            Kind::LookUp => "look_up",
            Kind::PairCause => "pair_cause",
            Kind::SlotDue => "slot_due",
            Kind::FrameSlot => "frame_slot",
        }
    }

    /// The names of the things lent, in the order of the library's arguments. The slot of an
    /// opening and the number of a message are handed over as numbers, and the slot that is read as
    /// a lent one; here they are their four bytes and eight, high byte first.
    pub fn things(self) -> &'static [&'static str] {
        match self {
            Kind::OpenSender | Kind::OpenReceiver => &["settings", "state", "rows"],
            Kind::OpenReceiverAt => &["settings", "slot", "state", "rows"],
            Kind::Send => &["state", "rows", "message", "frame"],
            Kind::Heard => &["state", "rows", "frame", "message"],
            Kind::Lost => &["state", "rows", "message"],
            Kind::LookUp => &["state", "rows", "number", "message"],
            Kind::PairCause => &["settings", "first", "second"],
            Kind::SlotDue => &["state", "slot"],
            Kind::FrameSlot => &["frame", "slot"],
        }
    }

    /// Where the settings stand in the first thing lent: on their own, in a state or in a frame.
    pub fn settings(self) -> Range<usize> {
        match self.things()[0] {
            "settings" => 0..5,
            "state" => 4..9,
            _ => 5..10,
        }
    }
}

/// A call, with the bytes of each thing as it is lent and, afterwards, as it was left.
#[derive(Clone)]
pub struct Call {
    pub kind: Kind,
    pub things: Vec<Vec<u8>>,
}

impl Call {
    pub fn open(kind: Kind, settings: [u8; 5], state: Vec<u8>, rows: Vec<u8>) -> Call {
        Call { kind, things: vec![settings.to_vec(), state, rows] }
    }

    pub fn open_at(settings: [u8; 5], slot: u32, state: Vec<u8>, rows: Vec<u8>) -> Call {
        let slot = slot.to_be_bytes().to_vec();
        Call { kind: Kind::OpenReceiverAt, things: vec![settings.to_vec(), slot, state, rows] }
    }

    pub fn send(state: Vec<u8>, rows: Vec<u8>, message: Vec<u8>, frame: Vec<u8>) -> Call {
        Call { kind: Kind::Send, things: vec![state, rows, message, frame] }
    }

    pub fn heard(state: Vec<u8>, rows: Vec<u8>, frame: Vec<u8>, message: Vec<u8>) -> Call {
        Call { kind: Kind::Heard, things: vec![state, rows, frame, message] }
    }

    pub fn lost(state: Vec<u8>, rows: Vec<u8>, message: Vec<u8>) -> Call {
        Call { kind: Kind::Lost, things: vec![state, rows, message] }
    }

    pub fn look_up(state: Vec<u8>, rows: Vec<u8>, number: i64, message: Vec<u8>) -> Call {
        let number = number.to_be_bytes().to_vec();
        Call { kind: Kind::LookUp, things: vec![state, rows, number, message] }
    }

    pub fn pair_cause(settings: [u8; 5], first: Vec<u8>, second: Vec<u8>) -> Call {
        Call { kind: Kind::PairCause, things: vec![settings.to_vec(), first, second] }
    }

    pub fn slot_due(state: Vec<u8>, slot: u32) -> Call {
        Call { kind: Kind::SlotDue, things: vec![state, slot.to_be_bytes().to_vec()] }
    }

    pub fn frame_slot(frame: Vec<u8>, slot: u32) -> Call {
        Call { kind: Kind::FrameSlot, things: vec![frame, slot.to_be_bytes().to_vec()] }
    }

    /// The thing of this name, if the call is lent one.
    pub fn place(&self, name: &str) -> Option<usize> {
        self.kind.things().iter().position(|thing| *thing == name)
    }

    /// The thing of a name that the call has.
    pub fn thing(&mut self, name: &str) -> &mut Vec<u8> {
        let place = self.place(name).expect("a thing of this call");
        &mut self.things[place]
    }

    /// Takes the thing out, when the call is over.
    pub fn take(&mut self, name: &str) -> Vec<u8> {
        std::mem::take(self.thing(name))
    }
}

/// The number that four bytes are, high byte first.
pub fn number_of(bytes: &[u8]) -> u32 {
    u32::from_be_bytes(bytes.try_into().expect("a number is four bytes"))
}

/// The number of a message, which may be below 0, that eight bytes are, high byte first.
pub fn message_number_of(bytes: &[u8]) -> i64 {
    i64::from_be_bytes(bytes.try_into().expect("a message's number is eight bytes"))
}

/// The library's answer; what it writes is in the things afterwards.
pub fn by_library(kind: Kind, lent: &mut [Lent]) -> u32 {
    match (kind, lent) {
        (Kind::OpenSender, [settings, state, rows]) => {
            tob::calls::open_sender(settings.settings(), state.bytes(), rows.bytes())
        }
        (Kind::OpenReceiver, [settings, state, rows]) => {
            tob::calls::open_receiver(settings.settings(), state.bytes(), rows.bytes())
        }
        (Kind::OpenReceiverAt, [settings, slot, state, rows]) => {
            let slot = number_of(slot.bytes());
            tob::calls::open_receiver_at(settings.settings(), slot, state.bytes(), rows.bytes())
        }
        (Kind::Send, [state, rows, message, frame]) => {
            tob::calls::send(state.bytes(), rows.bytes(), message.bytes(), frame.bytes())
        }
        (Kind::Heard, [state, rows, frame, message]) => {
            tob::calls::heard(state.bytes(), rows.bytes(), frame.bytes(), message.bytes())
        }
        (Kind::Lost, [state, rows, message]) => {
            tob::calls::lost(state.bytes(), rows.bytes(), message.bytes())
        }
        (Kind::LookUp, [state, rows, number, message]) => {
            let number = message_number_of(number.read());
            tob::calls::look_up(state.read(), rows.read(), number, message.bytes())
        }
        (Kind::PairCause, [settings, first, second]) => {
            tob::calls::pair_cause(settings.settings(), first.read(), second.read())
        }
        (Kind::SlotDue, [state, slot]) => {
            slot.number(|slot| tob::calls::slot_due(state.read(), slot))
        }
        (Kind::FrameSlot, [frame, slot]) => {
            slot.number(|slot| tob::calls::frame_slot(frame.read(), slot))
        }
        _ => unreachable!("a call is lent the things of its kind"),
    }
}
