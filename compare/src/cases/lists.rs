//! Lists of calls of both ends from their openings on: sends, and reports of the sender's frames
//! under losses, with look-ups after each, refused calls in between and sometimes damage. The
//! receiver is opened at slot 0 or at a later one.

use reference::fair::{fades, promised, promised_in_a_fade};
use reference::receiver::row_count;
use reference::settings::{every_code, Settings};
use reference::state::END;

use super::ends::{End, Ends};
use super::faults::faulty;
use super::laws::{Known, Said};
use super::look_ups::every_number;
use super::losses::{
    few, is_lost, known_before, losses, losses_of, one_fade, sparing, sparing_opening,
};
use super::opening_slots;
use super::rows::lanes;
use super::slots::told;
use crate::call::Call;
use crate::comparison::{Comparison, Difference};
use crate::draw::Draws;
use crate::report::Promise;

/// Lists for each code with any losses, and of them those with a receiver opened at slot 0. One
/// more has a fade, where frames can be heard inside one, one spares an earlier message, and one
/// has few losses, where N is 2 or more.
const EACH: usize = 4;
const FROM_0: usize = 2;

pub fn run(comparison: &mut Comparison) -> Result<(), Difference> {
    for code in every_code() {
        for case in 0..EACH {
            any_losses(comparison, code, case % 2 == 0, case < FROM_0)?;
        }
        if !fades(&code).is_empty() {
            a_fade(comparison, code)?;
        }
        an_earlier_message(comparison, code)?;
        if code.scattered >= 2 {
            an_early_repair(comparison, code)?;
        }
    }
    Ok(())
}

/// Losses of any kind, and sometimes damage; narrow is the narrowest window and one lane, and T may
/// be set higher there. The receiver is opened at slot 0, or at some slot.
fn any_losses(
    comparison: &mut Comparison,
    code: Settings,
    narrow: bool,
    from_0: bool,
) -> Result<(), Difference> {
    let mut draws = comparison.case("lists of calls");
    let settings = if narrow {
        let short = super::short_window(&mut draws, &code);
        draws.one_of(&[code, short])
    } else {
        let lanes = lanes(&mut draws, &code);
        super::settings(&mut draws, &code, lanes)
    };
    let openings = opening_slots(&mut draws, &settings);
    let opened_at = if from_0 { 0 } else { draws.one_of(&openings) };
    let more = if from_0 { 2 * settings.t() + 12 } else { settings.t() + 4 };
    let slots = settings.t() + 2 + draws.below(more);
    let slots = slots.min((END - opened_at) as usize);
    let lost = losses(&mut draws, &settings, slots);
    let damage = draws.once_in(3);
    List::opened(comparison, &mut draws, settings, opened_at)?.play(lost, damage)
}

/// One fade inside which frames are heard, and no damage: some message is promised surely.
fn a_fade(comparison: &mut Comparison, code: Settings) -> Result<(), Difference> {
    let mut draws = comparison.case("lists of calls");
    let lanes = draws.one_of(&[1, 1, 2]);
    let settings = super::settings(&mut draws, &code, lanes);
    let lost = one_fade(&mut draws, &settings);
    List::opened(comparison, &mut draws, settings, 0)?.play(lost, false)
}

/// A receiver opened late, losses behind that, and no damage: a message from before the opening is
/// promised surely.
fn an_earlier_message(comparison: &mut Comparison, code: Settings) -> Result<(), Difference> {
    let mut draws = comparison.case("lists of calls");
    let lanes = draws.one_of(&[1, 1, 2]);
    let settings = super::settings(&mut draws, &code, lanes);
    let opened_at = sparing_opening(&mut draws, &settings);
    let lost = sparing(&mut draws, &settings, opened_at);
    List::opened(comparison, &mut draws, settings, opened_at)?.play(lost, false)
}

/// Few losses, and no damage: some message whose own slot is lost is surely known before its last.
fn an_early_repair(comparison: &mut Comparison, code: Settings) -> Result<(), Difference> {
    let mut draws = comparison.case("lists of calls");
    let settings = super::settings(&mut draws, &code, 1);
    let lost = few(&mut draws, &settings);
    List::opened(comparison, &mut draws, settings, 0)?.play(lost, false)
}

struct List<'a> {
    comparison: &'a mut Comparison,
    draws: &'a mut Draws,
    ends: Ends,
    /// The slot at which the receiver was opened.
    opened_at: u32,
    /// Which slots are lost from there on.
    lost: Vec<bool>,
    /// The messages from the first slot on that is sent.
    messages: Vec<Vec<u8>>,
    damaged: bool,
    /// The messages that look-ups have told.
    known: Known,
}

impl<'a> List<'a> {
    fn opened(
        comparison: &'a mut Comparison,
        draws: &'a mut Draws,
        settings: Settings,
        opened_at: u32,
    ) -> Result<List<'a>, Difference> {
        let ends = Ends::opened(comparison, draws, settings, opened_at)?;
        let (lost, messages, known) = (Vec::new(), Vec::new(), Known::default());
        Ok(List { comparison, draws, ends, opened_at, lost, messages, damaged: false, known })
    }

    /// A send for each slot that the receiver misses; then a send and a report for each, lost or
    /// heard as the list says, and look-ups behind it.
    fn play(&mut self, lost: Vec<bool>, damage: bool) -> Result<(), Difference> {
        self.lost = lost;
        for _ in self.ends.first..self.opened_at {
            self.send()?;
        }
        self.look_ups(self.opened_at)?;
        for slot in (self.opened_at..).take(self.lost.len()) {
            let is_lost = self.is_lost(slot.into());
            let mut frame = self.send()?;
            if damage && self.draws.once_in(10) {
                let place = 14 + self.draws.below(frame.len() - 14);
                self.draws.change(&mut frame[place]);
                self.damaged |= !is_lost;
            }
            self.tell_slots(slot, &frame)?;
            let (reply, message) = self.report((!is_lost).then_some(frame))?;
            if !self.damaged {
                self.check_report(slot, reply, &message)?;
            }
            self.look_ups(slot + 1)?;
        }
        Ok(())
    }

    /// Slots before the opening are lost as well.
    fn is_lost(&self, slot: i64) -> bool {
        is_lost(self.opened_at, &self.lost, slot)
    }

    /// The send of the slot due, sometimes behind a refused one.
    fn send(&mut self) -> Result<Vec<u8>, Difference> {
        let message = self.ends.message(self.draws);
        let mut call = self.ends.send(self.draws, &message);
        self.messages.push(message);
        self.call(&mut call, 4)?;
        self.ends.sender = End::left_by(&mut call);
        Ok(call.take("frame"))
    }

    /// The report of the slot due, sometimes behind a refused one: the reply and the message buffer.
    fn report(&mut self, heard: Option<Vec<u8>>) -> Result<(u32, Vec<u8>), Difference> {
        let mut call = self.ends.report(self.draws, heard);
        let reply = self.call(&mut call, 4)?;
        self.ends.receiver = End::left_by(&mut call);
        Ok((reply, call.take("message")))
    }

    /// Of every third slot, when it was sent and is still to be reported: both states tell the slot
    /// due at their ends, and the frame its own.
    fn tell_slots(&mut self, slot: u32, frame: &[u8]) -> Result<(), Difference> {
        if slot % 3 == 0 {
            told(self.comparison, Call::slot_due, &self.ends.sender.state, slot + 1)?;
            told(self.comparison, Call::slot_due, &self.ends.receiver.state, slot)?;
            told(self.comparison, Call::frame_slot, frame, slot)?;
        }
        Ok(())
    }

    /// Look-ups with this slot due, some behind refused ones.
    fn look_ups(&mut self, due: u32) -> Result<(), Difference> {
        let settings = self.ends.settings;
        for number in every_number(self.draws, &settings, due) {
            let mut call = self.ends.look_up(self.draws, number);
            let reply = self.call(&mut call, 16)?;
            if reply >= 17 && !self.damaged {
                self.check_look_up(due, number, reply, &call.take("message"))?;
            }
        }
        Ok(())
    }

    /// The call, once in so many times behind one with faults.
    fn call(&mut self, call: &mut Call, times: usize) -> Result<u32, Difference> {
        if self.draws.once_in(times) {
            self.comparison.call(&mut faulty(self.draws, call))?;
        }
        self.comparison.call(call)
    }

    /// The laws of what a look-up or a report said of a message.
    fn check_laws(&self, number: i64, reply: u32, bytes: &[u8]) -> Result<(), Difference> {
        let sent = &self.messages[(number - i64::from(self.ends.first)) as usize];
        match self.known.against(&Said { number, reply, bytes, sent }) {
            None => Ok(()),
            Some(text) => Err(self.comparison.failed(&text)),
        }
    }

    fn check_look_up(
        &mut self,
        due: u32,
        number: i64,
        reply: u32,
        message: &[u8],
    ) -> Result<(), Difference> {
        self.check_laws(number, reply, message)?;
        if reply == 17 {
            self.known.add(number, due);
            if self.is_lost(number) {
                self.comparison.met.look_ups.add_repaired(&self.ends.settings);
            }
        }
        Ok(())
    }

    /// The laws; and demand 3: under fair losses, those before the opening among them, the message
    /// due is whole, as sent.
    fn check_report(&mut self, slot: u32, reply: u32, message: &[u8]) -> Result<(), Difference> {
        let settings = self.ends.settings;
        let Some(t) = slot.checked_sub(settings.t() as u32) else {
            return Ok(());
        };
        self.check_laws(t.into(), reply, message)?;
        let earlier = self.known.earlier(t.into(), slot + 1);
        if !promised(&settings, self.opened_at, &self.lost, t) {
            return Ok(());
        }
        if reply != 17 {
            return Err(self.comparison.failed(&format!("message {t} is not whole, as sent")));
        }
        self.comparison.met.add_promised(&settings, self.promise(t));
        self.check_earlier(t, earlier)
    }

    /// A promised message was known as many slots before its report as it can be.
    fn check_earlier(&mut self, t: u32, earlier: usize) -> Result<(), Difference> {
        let (settings, opened_at, lost) = (&self.ends.settings, self.opened_at, &self.lost);
        let due = known_before(settings, opened_at, lost, t);
        if earlier != due {
            let text = format!("message {t} is known {earlier} slots before its report, not {due}");
            return Err(self.comparison.failed(&text));
        }
        let losses = losses_of(settings, opened_at, lost, t);
        self.comparison.met.earlier.add(losses, settings.t(), earlier);
        Ok(())
    }

    /// What there is to say of a message that was promised.
    fn promise(&self, t: u32) -> Promise {
        let (settings, opened_at) = (&self.ends.settings, self.opened_at);
        Promise {
            in_a_fade: promised_in_a_fade(settings, opened_at, &self.lost, t),
            earlier: t < opened_at,
            no_row: opened_at >= row_count(settings) as u32,
            recovered: self.is_lost(t.into()),
        }
    }
}
