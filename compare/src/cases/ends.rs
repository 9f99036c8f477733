//! Both ends with the same settings: what each keeps between its calls, and what it calls next.

use reference::receiver::row_count;
use reference::settings::Settings;

use crate::call::{Call, Kind};
use crate::comparison::{Comparison, Difference};
use crate::draw::Draws;
use crate::model::{bytes_of, lengths, DUE, STATE};

/// The state and the rows of one end.
pub struct End {
    pub state: Vec<u8>,
    pub rows: Vec<u8>,
}

impl End {
    /// As a call left them.
    pub fn left_by(call: &mut Call) -> End {
        End { state: call.take("state"), rows: call.take("rows") }
    }
}

pub struct Ends {
    pub settings: Settings,
    pub sender: End,
    pub receiver: End,
    /// The first slot that is sent: all that the receiver remembers are, those before its opening
    /// included. As the sender's rows are the opening's, zeros were sent in every slot before.
    pub first: u32,
}

impl Ends {
    /// Opens both, the receiver at this slot.
    pub fn opened(
        comparison: &mut Comparison,
        draws: &mut Draws,
        settings: Settings,
        opened_at: u32,
    ) -> Result<Ends, Difference> {
        let ([.., sender, receiver], bytes) = (lengths(&settings), bytes_of(&settings));
        let (state, rows) = (draws.bytes(STATE), draws.bytes(sender));
        let mut call = Call::open(Kind::OpenSender, bytes, state, rows);
        comparison.call(&mut call)?;
        let mut sender = End::left_by(&mut call);
        let first = opened_at - opened_at.min(row_count(&settings) as u32);
        sender.state[DUE].copy_from_slice(&first.to_be_bytes());
        let (state, rows) = (draws.bytes(STATE), draws.bytes(receiver));
        let without_slot = opened_at == 0 && draws.once_in(2);
        let mut call = match without_slot {
            true => Call::open(Kind::OpenReceiver, bytes, state, rows),
            false => Call::open_at(bytes, opened_at, state, rows),
        };
        comparison.call(&mut call)?;
        Ok(Ends { settings, sender, receiver: End::left_by(&mut call), first })
    }

    /// A message, every byte drawn.
    pub fn message(&self, draws: &mut Draws) -> Vec<u8> {
        draws.bytes(lengths(&self.settings)[0])
    }

    /// The send of the slot due.
    pub fn send(&self, draws: &mut Draws, message: &[u8]) -> Call {
        let End { state, rows } = &self.sender;
        let frame = draws.bytes(lengths(&self.settings)[1]);
        Call::send(state.clone(), rows.clone(), message.to_vec(), frame)
    }

    /// The report of the slot due, in which this frame was heard or nothing.
    pub fn report(&self, draws: &mut Draws, heard: Option<Vec<u8>>) -> Call {
        let End { state, rows } = &self.receiver;
        let (state, rows, buffer) = (state.clone(), rows.clone(), self.message(draws));
        match heard {
            Some(frame) => Call::heard(state, rows, frame, buffer),
            None => Call::lost(state, rows, buffer),
        }
    }

    /// The look-up of a message by its number.
    pub fn look_up(&self, draws: &mut Draws, number: i64) -> Call {
        let End { state, rows } = &self.receiver;
        Call::look_up(state.clone(), rows.clone(), number, self.message(draws))
    }
}
