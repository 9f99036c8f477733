//! One burst of exactly B losses and nothing else: with one lane it starts at every slot, with 64
//! at any. Each message is whole, as sent, on time (demand 3). The reports of the messages whose
//! slots it loses are compared; the others are made by the library alone, as are the sends.

use std::ops::Range;

use reference::receiver::row_count;
use reference::settings::{every_code, Settings};

use super::ends::{End, Ends};
use crate::comparison::{Comparison, Difference};
use crate::draw::Draws;
use crate::lanes::LANES;
use crate::report::Promise;

pub fn run(comparison: &mut Comparison) -> Result<(), Difference> {
    for code in every_code() {
        // As many starts as there are rows: the burst lies in them in every way, and of some start
        // every message is due whose slots it touches.
        let starts = row_count(&code) as u32;
        let mut draws = comparison.case("bursts");
        let any = draws.below(starts as usize) as u32;
        for (lanes, starts) in [(1, 0..starts), (LANES, any..any + 1)] {
            let settings = super::settings(&mut draws, &code, lanes);
            Meeting::sent(comparison, &mut draws, settings, starts.end)?.every_start(starts)?;
        }
    }
    Ok(())
}

/// A meeting, all of which was sent.
struct Meeting<'a> {
    comparison: &'a mut Comparison,
    draws: &'a mut Draws,
    ends: Ends,
    messages: Vec<Vec<u8>>,
    frames: Vec<Vec<u8>>,
}

impl<'a> Meeting<'a> {
    /// Sends until the last message is due that a burst touches which starts before this slot.
    fn sent(
        comparison: &'a mut Comparison,
        draws: &'a mut Draws,
        settings: Settings,
        starts: u32,
    ) -> Result<Meeting<'a>, Difference> {
        let mut ends = Ends::opened(comparison, draws, settings, 0)?;
        let [mut messages, mut frames] = [Vec::new(), Vec::new()];
        for _ in 0..after(&settings, starts - 1) {
            let message = ends.message(draws);
            let mut call = ends.send(draws, &message);
            comparison.library_alone(&mut call)?;
            ends.sender = End::left_by(&mut call);
            messages.push(message);
            frames.push(call.take("frame"));
        }
        Ok(Meeting { comparison, draws, ends, messages, frames })
    }

    /// A burst from each of these slots on, everything before it being heard.
    fn every_start(&mut self, starts: Range<u32>) -> Result<(), Difference> {
        for slot in 0..starts.end {
            if starts.contains(&slot) {
                let End { state, rows } = &self.ends.receiver;
                let before = End { state: state.clone(), rows: rows.clone() };
                self.burst(slot)?;
                self.ends.receiver = before;
            }
            self.report(slot, &(0..0))?;
        }
        Ok(())
    }

    /// The burst from this slot on, and the reports until the last message is due that it touches.
    fn burst(&mut self, start: u32) -> Result<(), Difference> {
        let settings = self.ends.settings;
        let lost = start..start + u32::from(settings.burst);
        for slot in start..after(&settings, start) {
            self.report(slot, &lost)?;
            if let Some(t) = slot.checked_sub(settings.t() as u32) {
                let promise = Promise { recovered: lost.contains(&t), ..Promise::default() };
                self.comparison.met.add_promised(&settings, promise);
                self.comparison.met.bursts.add(&settings, t.into(), start.into());
            }
        }
        Ok(())
    }

    /// The report of a slot, and its message, which is due whole.
    fn report(&mut self, slot: u32, lost: &Range<u32>) -> Result<(), Difference> {
        let heard = (!lost.contains(&slot)).then(|| self.frames[slot as usize].clone());
        let mut call = self.ends.report(self.draws, heard);
        let t = slot.checked_sub(self.ends.settings.t() as u32);
        let reply = match t.is_some_and(|t| lost.contains(&t)) {
            true => self.comparison.call(&mut call)?,
            false => self.comparison.library_alone(&mut call)?,
        };
        self.ends.receiver = End::left_by(&mut call);
        let message = call.take("message");
        let as_due = match t {
            Some(t) => reply == 17 && message == self.messages[t as usize],
            None => reply == 16,
        };
        match as_due {
            true => Ok(()),
            false => Err(self
                .comparison
                .failed(&format!("slot {slot}, with {lost:?} lost: reply {reply}"))),
        }
    }
}

/// The slot behind the one at which the last message is due that a burst touches.
fn after(settings: &Settings, start: u32) -> u32 {
    let last_lost = start + u32::from(settings.burst) - 1;
    let last_message = last_lost + settings.k() as u32 - 1;
    last_message + settings.t() as u32 + 1
}

#[cfg(test)]
mod tests {
    use super::*;

    #[test]
    fn a_burst_is_played_until_no_message_is_left_that_it_touches() {
        // k is 2: of message t slots t − 1 to t + 3 count. Slots 4 and 5 are lost.
        assert_eq!(after(&Settings::of_code(3, 2, 2), 4), 6 + 3 + 1);
        assert_eq!(after(&Settings::of_code(1, 1, 1), 0), 2);
    }
}
