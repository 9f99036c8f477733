//! Twins: ends whose window alone makes the delay, beside ends with T set to that delay (document
//! 02 §5). Their frames and states are alike but for the byte of T, each receiver refuses the
//! other's frame, and both hand out the same messages, in reports and in look-ups.

use reference::settings::{every_code, Settings};

use super::ends::{End, Ends};
use super::laws::{Known, Said};
use super::look_ups::some_numbers;
use crate::comparison::{Comparison, Difference};
use crate::draw::Draws;
use crate::report::Promise;

/// Where T stands in a frame, and in a state.
const IN_FRAME: usize = 6;
const IN_STATE: usize = 5;

pub fn run(comparison: &mut Comparison) -> Result<(), Difference> {
    // Document 02's example, whose twin has T = 2.
    for lanes in [1, 3, 64] {
        let mut draws = comparison.case("twins");
        let example = Settings { window: 3, delay: 9, burst: 2, scattered: 1, lanes };
        Twins::opened(comparison, &mut draws, example)?.play(6)?;
    }
    for code in every_code() {
        let mut draws = comparison.case("twins");
        let settings = super::short_window(&mut draws, &code);
        Twins::opened(comparison, &mut draws, settings)?.play(1)?;
    }
    Ok(())
}

struct Twins<'a> {
    comparison: &'a mut Comparison,
    draws: &'a mut Draws,
    ends: [Ends; 2],
    /// The messages sent, and those that look-ups have told.
    messages: Vec<Vec<u8>>,
    known: Known,
}

impl<'a> Twins<'a> {
    fn opened(
        comparison: &'a mut Comparison,
        draws: &'a mut Draws,
        settings: Settings,
    ) -> Result<Twins<'a>, Difference> {
        let twin = Settings { delay: settings.t() as u8, ..settings };
        let mut open = |settings| Ends::opened(comparison, draws, settings, 0);
        let ends = [open(settings)?, open(twin)?];
        Ok(Twins { comparison, draws, ends, messages: Vec::new(), known: Known::default() })
    }

    /// A send, a report and look-ups for each slot, with so many bursts. Every message is promised.
    fn play(&mut self, count: usize) -> Result<(), Difference> {
        let settings = self.ends[0].settings;
        let lost = bursts(self.draws, &settings, count);
        for (slot, &is_lost) in lost.iter().enumerate() {
            let message = self.ends[0].message(self.draws);
            let frames = self.send(&message)?;
            self.messages.push(message);
            if slot == 0 || self.draws.once_in(4) {
                self.refuse(&frames)?;
            }
            let (reply, message) = self.report(frames, is_lost)?;
            self.look_ups(slot as u32 + 1)?;
            let Some(t) = slot.checked_sub(settings.t()) else {
                continue;
            };
            let as_sent = reply == 17 && message == self.messages[t];
            self.check(as_sent, "a message is not whole, as sent")?;
            let promise = Promise { recovered: lost[t], ..Promise::default() };
            self.ends.iter().for_each(|e| self.comparison.met.add_promised(&e.settings, promise));
        }
        Ok(())
    }

    /// The same message sent by both: their frames.
    fn send(&mut self, message: &[u8]) -> Result<[Vec<u8>; 2], Difference> {
        let mut frames = [Vec::new(), Vec::new()];
        for (ends, frame) in self.ends.iter_mut().zip(&mut frames) {
            let mut call = ends.send(self.draws, message);
            self.comparison.call(&mut call)?;
            ends.sender = End::left_by(&mut call);
            *frame = call.take("frame");
        }
        let [one, other] = &frames;
        self.check(differ_at(IN_FRAME, one, other), "frames differ in more than T, or not in T")?;
        self.check_kept(|ends| &ends.sender)?;
        Ok(frames)
    }

    /// The frame of the other one, reported to each: it is refused, and nothing changes.
    fn refuse(&mut self, frames: &[Vec<u8>; 2]) -> Result<(), Difference> {
        for (ends, other) in self.ends.iter().zip(frames.iter().rev()) {
            let mut call = ends.report(self.draws, Some(other.clone()));
            let before = call.things.clone();
            let refused = self.comparison.call(&mut call)? == 5 && call.things == before;
            self.check(refused, "the frame of the other is not refused with 5")?;
        }
        Ok(())
    }

    /// The report of its own frame by each, or of a loss: the reply and the message of both.
    fn report(&mut self, frames: [Vec<u8>; 2], lost: bool) -> Result<(u32, Vec<u8>), Difference> {
        let mut said = Vec::new();
        for (ends, frame) in self.ends.iter_mut().zip(frames) {
            let mut call = ends.report(self.draws, (!lost).then_some(frame));
            let reply = self.comparison.call(&mut call)?;
            ends.receiver = End::left_by(&mut call);
            said.push((reply, call.take("message")));
        }
        self.check(said[0] == said[1], "the reports of twins differ")?;
        self.check_kept(|ends| &ends.receiver)?;
        Ok(said.remove(0))
    }

    /// Look-ups of the same numbers by each, one of them in reach: both say the same.
    fn look_ups(&mut self, due: u32) -> Result<(), Difference> {
        let settings = self.ends[0].settings;
        for number in some_numbers(self.draws, &settings, due, 1) {
            let mut said = Vec::new();
            for ends in &self.ends {
                let mut call = ends.look_up(self.draws, number);
                let reply = self.comparison.call(&mut call)?;
                said.push((reply, (reply >= 17).then(|| call.take("message"))));
            }
            self.check(said[0] == said[1], "the look-ups of twins differ")?;
            if let (reply, Some(bytes)) = &said[0] {
                self.check_look_up(due, number, *reply, bytes)?;
            }
        }
        Ok(())
    }

    /// The laws of look-ups.
    fn check_look_up(
        &mut self,
        due: u32,
        number: i64,
        reply: u32,
        bytes: &[u8],
    ) -> Result<(), Difference> {
        let said = Said { number, reply, bytes, sent: &self.messages[number as usize] };
        if let Some(text) = self.known.against(&said) {
            return Err(self.comparison.failed(&text));
        }
        if reply == 17 {
            self.known.add(number, due);
        }
        Ok(())
    }

    /// What the same end of both keeps is alike but for T.
    fn check_kept(&self, end: fn(&Ends) -> &End) -> Result<(), Difference> {
        let [one, other] = self.ends.each_ref().map(end);
        let alike = differ_at(IN_STATE, &one.state, &other.state) && one.rows == other.rows;
        self.check(alike, "states differ in more than T, or not in T, or rows differ")
    }

    fn check(&self, holds: bool, otherwise: &str) -> Result<(), Difference> {
        match holds {
            true => Ok(()),
            false => Err(self.comparison.failed(otherwise)),
        }
    }
}

/// Whether these differ in this byte, and in no other.
fn differ_at(place: usize, one: &[u8], other: &[u8]) -> bool {
    let differences = (0..one.len()).filter(|&place| one[place] != other[place]);
    one.len() == other.len() && differences.eq([place])
}

/// So many bursts of B losses, the first of which starts at one of the first slots. After each, as
/// many slots are heard as are due until its last message is.
fn bursts(draws: &mut Draws, settings: &Settings, count: usize) -> Vec<bool> {
    let [burst, heard] = [usize::from(settings.burst), settings.t()];
    let one = [vec![true; burst], vec![false; heard]].concat();
    [vec![false; draws.below(4)], one.repeat(count)].concat()
}

#[cfg(test)]
mod tests {
    use reference::fair::promised;

    use super::*;

    #[test]
    fn bursts_are_fair_and_every_lost_message_is_due() {
        let mut draws = Draws::of_case(1, 3);
        for code in every_code() {
            let settings = crate::cases::short_window(&mut draws, &code);
            let lost = bursts(&mut draws, &settings, 3);
            let due = lost.len() - settings.t();
            assert!((0..due).all(|t| promised(&settings, 0, &lost, t as u32)), "{settings:?}");
            let recovered = lost[..due].iter().filter(|lost| **lost).count();
            assert_eq!(recovered, 3 * usize::from(code.burst));
        }
    }

    #[test]
    fn one_byte_alone_differs() {
        assert!(differ_at(1, &[1, 2, 3], &[1, 9, 3]));
        assert!(!differ_at(1, &[1, 2, 3], &[1, 2, 3]));
        assert!(!differ_at(1, &[1, 2, 3], &[1, 9, 9]));
        assert!(!differ_at(1, &[1, 2, 3], &[9, 2, 3]));
    }
}
