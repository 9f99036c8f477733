//! One call on both sides: reply, state and every lent byte must be alike.

use std::hint::black_box;

use reference::settings::Settings;

use crate::call::{by_library, message_number_of, number_of, Call, Kind};
use crate::draw::Draws;
use crate::lent::Lent;
use crate::model::{by_reference, lengths, receiver_of, settings_of, STATE};
use crate::report::Met;

/// Why the comparison ended.
pub type Difference = String;

pub struct Comparison {
    seed: u64,
    part: &'static str,
    /// Cases count from 0 through all parts, calls from 0 in each case.
    cases: usize,
    calls: usize,
    guards: Draws,
    pub met: Met,
}

impl Comparison {
    pub fn new(seed: u64) -> Comparison {
        let guards = Draws::of_case(seed, usize::MAX);
        Comparison { seed, part: "", cases: 0, calls: 0, guards, met: Met::default() }
    }

    /// Starts the next case, with numbers of its own.
    pub fn case(&mut self, part: &'static str) -> Draws {
        let draws = Draws::of_case(self.seed, self.cases);
        self.part = part;
        self.cases += 1;
        self.calls = 0;
        draws
    }

    pub fn cases(&self) -> usize {
        self.cases
    }

    /// Makes the call on both sides. The things are then as both left them.
    pub fn call(&mut self, call: &mut Call) -> Result<u32, Difference> {
        let before = call.clone();
        let (found, lent) = self.lend(call);
        let expected = by_reference(call.kind, &mut call.things);
        if found != expected || any_difference(call, &lent).is_some() {
            return Err(self.text(&before, call, &lent, [found, expected]));
        }
        self.count(&before, found);
        if (call.kind, found) == (Kind::Heard, 6) {
            self.other_slot(call)?;
        }
        Ok(found)
    }

    /// Makes the call by the library alone, where what is due is known and the reference would take
    /// long. It is not counted.
    pub fn library_alone(&mut self, call: &mut Call) -> Result<u32, Difference> {
        let (reply, lent) = self.lend(call);
        for (thing, lent) in call.things.iter_mut().zip(&lent) {
            thing.copy_from_slice(lent.read());
        }
        match any_difference(call, &lent) {
            None => Ok(reply),
            Some(text) => Err(self.failed(&format!("{}: {text}", call.kind.name()))),
        }
    }

    /// The library's reply, and the things as it left them.
    fn lend(&mut self, call: &Call) -> (u32, Vec<Lent>) {
        let guards = &mut self.guards;
        let mut lent: Vec<Lent> = call.things.iter().map(|t| Lent::of(guards, t)).collect();
        let reply = by_library(call.kind, &mut lent);
        // Nothing is taken as unchanged because it was lent for reading only.
        (reply, black_box(lent))
    }

    /// The slot that a call tells, if it is accepted. What is lent for it is drawn.
    pub fn slot(
        &mut self,
        call: fn(Vec<u8>, u32) -> Call,
        of: &[u8],
    ) -> Result<Option<u32>, Difference> {
        let mut call = call(of.to_vec(), self.guards.next() as u32);
        let told = self.call(&mut call)? == 0;
        Ok(told.then(|| number_of(call.thing("slot"))))
    }

    /// Behind a frame report that was refused with 6: state and frame tell slots that differ.
    fn other_slot(&mut self, heard: &Call) -> Result<(), Difference> {
        let due = self.slot(Call::slot_due, &heard.things[0])?;
        let slot = self.slot(Call::frame_slot, &heard.things[2])?;
        match due.zip(slot) {
            Some((due, slot)) if due != slot => self.met.slots.add_other(due, slot),
            _ => return Err(self.failed(&format!("refused with 6: due {due:?}, and {slot:?}"))),
        }
        Ok(())
    }

    /// Counts a call and its reply, of a look-up the number that was out of reach, of a pair what
    /// its recordings are, and of what tells a slot what it was read from.
    fn count(&mut self, call: &Call, reply: u32) {
        let settings = settings_in(call);
        self.met.add(call.kind, reply, settings);
        self.met.slots.add(call, reply);
        if let (Kind::LookUp, 8, Ok(state)) = (call.kind, reply, receiver_of(&call.things[0])) {
            self.met.look_ups.add_out_of_reach(&state, message_number_of(&call.things[2]));
        }
        if let (Kind::PairCause, Some(settings)) = (call.kind, settings) {
            self.met.pairs.add(&settings, [&call.things[1], &call.things[2]], reply);
        }
        self.calls += 1;
    }

    /// The four length functions, for any five bytes.
    pub fn lengths(&mut self, settings: [u8; 5]) -> Result<[usize; 4], Difference> {
        let expected = lengths(&settings_of(settings));
        let found = [
            tob::calls::message_len(&settings),
            tob::calls::frame_len(&settings),
            tob::calls::sender_len(&settings),
            tob::calls::receiver_len(&settings),
        ];
        if found != expected {
            let of = format!("lengths of {settings:?}");
            return Err(self.failed(&format!("{of}: library {found:?}, expected {expected:?}")));
        }
        self.met.lengths += 1;
        Ok(expected)
    }

    /// A failure of the present case.
    pub fn failed(&self, text: &str) -> Difference {
        let (seed, part) = (self.seed, self.part);
        let case = self.cases.saturating_sub(1);
        format!("seed {seed}, case {case} ({part}), call {}: {text}", self.calls)
    }

    /// The first difference: what was lent, both replies, and the first byte that differs.
    fn text(&self, before: &Call, after: &Call, lent: &[Lent], replies: [u32; 2]) -> Difference {
        let mut lines = vec![self.failed(before.kind.name())];
        lines.push(match settings_in(before) {
            Some(settings) => format!("settings: {settings:?}"),
            None => "settings: none to be read".to_string(),
        });
        for (name, thing) in before.kind.things().iter().zip(&before.things) {
            let start: Vec<String> = thing.iter().take(STATE).map(|b| format!("{b:02x}")).collect();
            lines.push(format!("lent {name}: {} bytes, {} ..", thing.len(), start.join(" ")));
        }
        lines.push(format!("reply: library {}, expected {}", replies[0], replies[1]));
        lines.push(any_difference(after, lent).unwrap_or("every lent byte is alike".to_string()));
        lines.join("\n")
    }
}

fn any_difference(expected: &Call, lent: &[Lent]) -> Option<String> {
    let names = expected.kind.things().iter();
    let mut things = names.zip(lent).zip(&expected.things);
    things.find_map(|((name, lent), due)| Some(format!("{name}, {}", lent.difference(due)?)))
}

/// The settings lent on their own, or those that the state or the frame holds.
fn settings_in(call: &Call) -> Option<Settings> {
    let bytes = call.things[0].get(call.kind.settings())?;
    Some(settings_of(bytes.try_into().ok()?))
}
