//! The calls that are timed and counted, each prepared so that it leaves the rows as they were.

use crate::engine::{plain, Engine, Settings, State, STATE_LEN};
use crate::history::{sizes, Reporting, Sending};
use crate::link::reply;
use crate::operation::Operation;
use crate::placed::{Placed, PAGE};
use crate::shapes::Shape;
use std::hint::black_box;

/// Which call it is.
#[derive(Clone, Copy)]
enum Kind {
    Send,
    Heard,
    Lost,
    /// Of the message with this number.
    LookUp(i64),
}

/// A call with the state before it and everything it is lent, which all lies alike in every case.
#[repr(align(64))]
pub struct Case {
    engine: Engine,
    kind: Kind,
    before: State,
    state: State,
    rows: Placed,
    /// A send's message or a report's frame.
    given: Placed,
    /// A send's frame, or a report's or a look-up's message.
    out: Placed,
}

impl Case {
    /// The call of the slot due, which is `due` or some turns of the rows later.
    pub fn of(engine: Engine, operation: Operation, shape: &Shape, lanes: u8, due: u32) -> Case {
        let settings = shape.settings(lanes);
        if operation == Operation::Send {
            return Case::send(engine, &settings, &Sending::from(&settings, due)).settled(reply::ACCEPTED);
        }
        let heard = Reporting::from(&settings, due);
        let heard = if operation == Operation::Clash { heard.damaged() } else { heard };
        let before = heard.without(operation.losses(shape));
        let case = match operation {
            Operation::LookUpHeard => Case::look_up(engine, &before, before.due - 1),
            Operation::LookUpBurst => Case::look_up(engine, &before, before.due - u32::from(shape.delay)),
            _ => Case::report(engine, &before),
        };
        case.settled(operation.reply().unwrap_or_else(|| Case::report(plain(), &before).call()))
    }

    /// A send.
    fn send(engine: Engine, settings: &Settings, before: &Sending) -> Case {
        let mut state = [0; STATE_LEN];
        assert_eq!((engine.open_sender)(settings, &mut state, &mut before.rows.clone()), reply::ACCEPTED);
        engine.set_due(&mut state, before.due);
        let frame = vec![0; sizes(settings).frame()];
        Case::placed(engine, Kind::Send, state, before.row, [&before.rows, &before.message, &frame])
    }

    /// A report of the slot due, heard or lost.
    pub fn report(engine: Engine, before: &Reporting) -> Case {
        Case::receiving(engine, if before.heard { Kind::Heard } else { Kind::Lost }, before)
    }

    /// A look-up of the message with this number.
    fn look_up(engine: Engine, before: &Reporting, number: u32) -> Case {
        Case::receiving(engine, Kind::LookUp(number.into()), before)
    }

    /// A call of the receiver.
    fn receiving(engine: Engine, kind: Kind, before: &Reporting) -> Case {
        let mut state = [0; STATE_LEN];
        assert_eq!((engine.open_receiver)(&before.settings, &mut state, &mut before.rows.clone()), reply::ACCEPTED);
        engine.set_due(&mut state, before.due);
        let message = vec![0; sizes(&before.settings).message()];
        Case::placed(engine, kind, state, before.row_due(), [&before.rows, &before.frame, &message])
    }

    /// The buffers of all engines lie alike within their pages, half a page and more from the row that is written:
    /// copies between places that are a few bytes apart but for whole pages can take ten times as long.
    fn placed(engine: Engine, kind: Kind, before: State, row: usize, [rows, given, out]: [&[u8]; 3]) -> Case {
        let (given, out) = (Placed::at(row + PAGE / 2, given), Placed::at(row + PAGE * 3 / 4, out));
        Case { engine, kind, before, state: before, rows: Placed::at(0, rows), given, out }
    }

    /// Calls twice: the reply is this one, and rows, reply and output are the same both times.
    fn settled(mut self, reply: u32) -> Case {
        assert_eq!(self.call(), reply, "{}", self.engine.name);
        let (rows, out) = (self.rows.bytes().to_vec(), self.out.bytes().to_vec());
        assert_eq!(self.call(), reply, "{}", self.engine.name);
        let same = self.rows.bytes() == rows && self.out.bytes() == out;
        assert!(same, "{}: a case does not repeat", self.engine.name);
        self
    }

    /// The call, from the state before it. Restoring is a copy of a state: the rows hold already what it writes.
    #[inline]
    pub fn call(&mut self) -> u32 {
        self.state = self.before;
        let (state, rows) = (black_box(&mut self.state), black_box(self.rows.bytes()));
        let (given, out) = (black_box(self.given.bytes()), black_box(self.out.bytes()));
        match self.kind {
            Kind::Send => (self.engine.send)(state, rows, given, out),
            Kind::Heard => (self.engine.heard)(state, rows, given, out),
            Kind::Lost => (self.engine.lost)(state, rows, out),
            Kind::LookUp(number) => (self.engine.look_up.expect("ours has it"))(state, rows, number, out),
        }
    }

    /// Only the restoring.
    #[inline]
    pub fn restore(&mut self) {
        self.state = self.before;
        black_box(&mut self.state);
    }

    /// Everything that the call is lent.
    pub fn lent(&mut self) -> [&mut [u8]; 4] {
        [&mut self.state, self.rows.bytes(), self.given.bytes(), self.out.bytes()]
    }
}
