//! An accepted pair, fed to a receiver slot by slot: no report is refused, and what both aerials
//! together promise is whole, as sent, even where neither alone does.

use reference::broadcast::Frames;
use reference::fair::promised;
use reference::pair::{join, Part};
use reference::settings::Settings;
use reference::state::END;

use super::check_call;
use super::meeting::{aerials, Pair};
use crate::cases::ends::{End, Ends};
use crate::cases::opening_slots;
use crate::comparison::{Comparison, Difference};
use crate::draw::Draws;
use crate::model::bytes_of;

pub fn run(comparison: &mut Comparison, code: Settings) -> Result<(), Difference> {
    let mut draws = comparison.case("pairs fed");
    let lanes = draws.one_of(&[1, 1, 2, 3]);
    let settings = crate::cases::settings(&mut draws, &code, lanes);
    let openings = opening_slots(&mut draws, &settings);
    let opened_at = draws.one_of(&openings);
    let slots = settings.t() + 2 + draws.below(settings.t() + 8);
    let slots = slots.min((END - opened_at) as usize);
    Feeding::opened(comparison, &mut draws, settings, opened_at)?.feed(slots)
}

/// A meeting of which two aerials recorded what they heard, and the receiver that is fed.
struct Feeding<'a> {
    comparison: &'a mut Comparison,
    draws: &'a mut Draws,
    ends: Ends,
    /// The slot at which the receiver was opened.
    opened_at: u32,
    /// The messages from the first slot on that is sent.
    messages: Vec<Vec<u8>>,
    /// What each aerial recorded.
    both: [Vec<u8>; 2],
}

impl<'a> Feeding<'a> {
    fn opened(
        comparison: &'a mut Comparison,
        draws: &'a mut Draws,
        settings: Settings,
        opened_at: u32,
    ) -> Result<Feeding<'a>, Difference> {
        let ends = Ends::opened(comparison, draws, settings, opened_at)?;
        let (messages, both) = (Vec::new(), [Vec::new(), Vec::new()]);
        Ok(Feeding { comparison, draws, ends, opened_at, messages, both })
    }

    /// The meeting, the check of what was recorded, and a report for each of so many slots.
    fn feed(&mut self, slots: usize) -> Result<(), Difference> {
        self.record(slots)?;
        let lost = self.losses(slots);
        for slot in (self.opened_at..).take(slots) {
            let settings = self.ends.settings;
            let [first, second] = &self.both;
            let part = join(&settings, first, second, slot);
            let bytes = part.bytes(&settings, first, second).to_vec();
            let mut call = self.ends.report(self.draws, (part != Part::Nothing).then_some(bytes));
            let reply = self.comparison.call(&mut call)?;
            if reply < 16 {
                let text = format!("the report of slot {slot} is refused with {reply}");
                return Err(self.comparison.failed(&text));
            }
            self.ends.receiver = End::left_by(&mut call);
            self.check(slot, &lost, reply, &call.take("message"))?;
        }
        Ok(())
    }

    /// A send for each slot, up to so many behind the opening; what two aerials hear is an accepted
    /// pair.
    fn record(&mut self, slots: usize) -> Result<(), Difference> {
        let mut frames = Frames::new();
        for _ in 0..(self.opened_at - self.ends.first) as usize + slots {
            let message = self.ends.message(self.draws);
            let mut call = self.ends.send(self.draws, &message);
            self.comparison.call(&mut call)?;
            self.messages.push(message);
            self.ends.sender = End::left_by(&mut call);
            frames.push(call.take("frame"));
        }
        let both = aerials(self.draws, &frames);
        self.both = both.each_ref().map(|frames| frames.concat());
        let pair = Pair { settings: bytes_of(&self.ends.settings), both };
        check_call(self.comparison, pair.call(), 0)
    }

    /// Which slots behind the opening are lost to both aerials together, to the first and to the
    /// second.
    fn losses(&self, slots: usize) -> [Vec<bool>; 3] {
        let [first, second] = &self.both;
        [[first, second], [first, &Vec::new()], [&Vec::new(), second]].map(|[first, second]| {
            let part = |slot| join(&self.ends.settings, first, second, slot);
            let lost = (self.opened_at..).take(slots).map(|slot| part(slot) == Part::Nothing);
            lost.collect()
        })
    }

    /// Demand 3: where what is lost to both aerials is fair, the message due is whole, as sent.
    fn check(
        &mut self,
        slot: u32,
        lost: &[Vec<bool>; 3],
        reply: u32,
        message: &[u8],
    ) -> Result<(), Difference> {
        let Some(t) = slot.checked_sub(self.ends.settings.t() as u32) else {
            return Ok(());
        };
        let due = |lost: &Vec<bool>| promised(&self.ends.settings, self.opened_at, lost, t);
        let [together, first, second] = lost.each_ref().map(due);
        let sent = &self.messages[(t - self.ends.first) as usize];
        if together && (reply != 17 || message != sent) {
            return Err(self.comparison.failed(&format!("message {t} is not whole, as sent")));
        }
        if together && !first && !second {
            self.comparison.met.pairs.add_joined();
        }
        Ok(())
    }
}
