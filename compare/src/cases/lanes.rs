//! Every L with every k: sends, and reports and a look-up over a true history, with fair losses,
//! with all lost, and with damage of one lane alone.

use reference::frame::{place, HEADER};
use reference::settings::{every_code, Settings};
use reference::state::{ReceiverState, SenderState};

use super::history::History;
use super::rows::{any_receiver_bytes, due, opened_at, sends};
use crate::call::Call;
use crate::comparison::{Comparison, Difference};
use crate::draw::Draws;
use crate::lanes::{damaged_lanes, Damage, LANES, SYMBOLS};
use crate::model::lengths;
use crate::report::{code_of, told_by_last_frame};

/// Sends of a case.
const SENDS: usize = 2;

pub fn run(comparison: &mut Comparison) -> Result<(), Difference> {
    for lanes in 1..=LANES {
        for k in 1..=SYMBOLS {
            let mut draws = comparison.case("lanes");
            let code = code(&mut draws, k);
            let settings = super::settings(&mut draws, &code, lanes);
            let due = due(&mut draws, &settings).max(settings.t() as u32);
            sends(comparison, &mut draws, SenderState { settings, due }, SENDS)?;
            let mut reports = Reports::drawn(comparison, &mut draws, settings, due);
            reports.verdicts()?;
            for lane in turns(k, lanes) {
                reports.damaged(Damage::Frame, lane)?;
                reports.damaged(Damage::Rows, lane)?;
            }
        }
    }
    Ok(())
}

/// Any code of this k, but none whose last frame alone tells a message where another will do.
fn code(draws: &mut Draws, k: usize) -> Settings {
    let mut codes = every_code();
    codes.retain(|code| code.k() == k && (k == 1 || !told_by_last_frame(code_of(code))));
    draws.one_of(&codes)
}

/// The lanes that are damaged with this k: the last, and of the others those whose turn it is, so
/// that each has its turn with some k.
fn turns(k: usize, lanes: u8) -> Vec<u8> {
    let turn = |place: usize| (place + usize::from(lanes)) % SYMBOLS + 1 == k;
    let each = damaged_lanes(lanes).enumerate();
    each.filter(|(place, lane)| lane + 1 == lanes || turn(*place)).map(|(_, lane)| lane).collect()
}

/// Reports of one slot due, each over the rows of a true history or of what is left of it.
struct Reports<'a> {
    comparison: &'a mut Comparison,
    draws: &'a mut Draws,
    state: ReceiverState,
    history: History,
}

impl<'a> Reports<'a> {
    fn drawn(
        comparison: &'a mut Comparison,
        draws: &'a mut Draws,
        settings: Settings,
        due: u32,
    ) -> Reports<'a> {
        let history = History::drawn(draws, settings, due, 1);
        let state = ReceiverState { settings, opened_at: opened_at(draws, due), due };
        Reports { comparison, draws, state, history }
    }

    /// Message t, which is due with the slot due.
    fn number(&self) -> i64 {
        self.state.slot() - self.state.settings.t() as i64
    }

    /// Whole where a burst of B loses the message's own slot, where the slot due alone is lost, and
    /// in a look-up before that; lost where nothing else is heard.
    fn verdicts(&mut self) -> Result<(), Difference> {
        let (settings, due, t) = (self.state.settings, self.state.slot(), self.number());
        let burst = i64::from(settings.burst);
        let first = t - self.draws.below(settings.burst.into()) as i64;
        let frame = self.history.frame(self.state.due);
        self.report(self.history.rows_without(first..first + burst), Some(frame.clone()), 17)?;
        self.report(self.history.rows(), None, 17)?;
        self.look_up()?;
        let nothing = self.history.rows_without(t - settings.k() as i64..due);
        self.report(nothing.clone(), None, 18)?;
        let alone = if told_by_last_frame(code_of(&settings)) { 17 } else { 18 };
        self.report(nothing, Some(frame), alone)
    }

    /// All is heard, and one byte of one lane is another: its codeword has no word that fits.
    fn damaged(&mut self, damage: Damage, lane: u8) -> Result<(), Difference> {
        let mut rows = self.history.rows();
        let mut frame = self.history.frame(self.state.due);
        let place = place_of_damage(self.draws, &self.history, self.number(), damage, lane.into());
        self.draws.change(match damage {
            Damage::Frame => &mut frame[place],
            Damage::Rows => &mut rows[place],
        });
        self.report(rows, Some(frame), 19)?;
        self.comparison.met.lanes.add_damaged(damage, &self.state.settings, lane);
        Ok(())
    }

    /// The report of the slot due, whose reply is known.
    fn report(
        &mut self,
        rows: Vec<u8>,
        heard: Option<Vec<u8>>,
        due: u32,
    ) -> Result<(), Difference> {
        let state = any_receiver_bytes(self.draws, &self.state);
        let buffer = self.draws.bytes(lengths(&self.state.settings)[0]);
        self.check(
            match heard {
                Some(frame) => Call::heard(state, rows, frame, buffer),
                None => Call::lost(state, rows, buffer),
            },
            due,
        )
    }

    /// The look-up of the message, its own slot having been heard.
    fn look_up(&mut self) -> Result<(), Difference> {
        let state = any_receiver_bytes(self.draws, &self.state);
        let buffer = self.draws.bytes(lengths(&self.state.settings)[0]);
        self.check(Call::look_up(state, self.history.rows(), self.number(), buffer), 17)
    }

    fn check(&mut self, mut call: Call, due: u32) -> Result<(), Difference> {
        let reply = self.comparison.call(&mut call)?;
        let as_sent = call.thing("message") == self.history.message(self.number());
        match reply == due && as_sent == (due == 17) {
            true => Ok(()),
            false => Err(self.comparison.failed(&format!("{reply} and not {due}, or not as sent"))),
        }
    }
}

/// The place of a byte of a lane that the other ones tell. In the frame of slot t + T it is one of
/// the last d symbols: its codeword carries message t, and its first k symbols tell it. In the
/// rows it is one of message t in its own slot: the loss of that slot alone would be fair.
fn place_of_damage(
    draws: &mut Draws,
    history: &History,
    t: i64,
    damage: Damage,
    lane: usize,
) -> usize {
    let settings = history.settings();
    match damage {
        Damage::Frame => HEADER + place(settings, settings.t() + draws.below(settings.d()), lane),
        Damage::Rows => history.row_of(t) + 1 + place(settings, draws.below(settings.k()), lane),
    }
}

#[cfg(test)]
mod tests {
    use std::collections::BTreeSet;

    use reference::receiver::row_length;

    use super::*;
    use crate::model::{by_reference, receiver_bytes};

    /// The body bytes of one lane.
    fn of_lane(body: &[u8], settings: &Settings, lane: usize) -> Vec<u8> {
        (0..settings.n()).map(|p| body[place(settings, p, lane)]).collect()
    }

    /// What one lane says on its own: rows and a frame of L = 1.
    fn reply_of_lane(due: u32, settings: &Settings, rows: &[u8], frame: &[u8], lane: usize) -> u32 {
        let one = Settings { lanes: 1, ..*settings };
        let each = rows.chunks_exact(row_length(settings));
        let rows = each.flat_map(|row| [vec![row[0]], of_lane(&row[1..], settings, lane)].concat());
        let frame = reference::frame::of(&one, due, &of_lane(&frame[HEADER..], settings, lane));
        let state = receiver_bytes(&ReceiverState { settings: one, opened_at: 0, due });
        let mut call = Call::heard(state, rows.collect(), frame, vec![0; one.k()]);
        by_reference(call.kind, &mut call.things)
    }

    #[test]
    fn damage_of_one_lane_makes_that_lane_clash_and_no_other() {
        let mut draws = Draws::of_case(1, 13);
        for code in every_code() {
            let settings = Settings { lanes: 3, ..code };
            let due = 40 + draws.below(40) as u32;
            let (history, t) =
                (History::drawn(&mut draws, settings, due, 1), i64::from(due) - code.t() as i64);
            for damage in [Damage::Frame, Damage::Rows] {
                let damaged = draws.below(3);
                let place = place_of_damage(&mut draws, &history, t, damage, damaged);
                let (mut rows, mut frame) = (history.rows(), history.frame(due));
                let thing = if damage == Damage::Frame { &mut frame } else { &mut rows };
                draws.change(&mut thing[place]);
                let replies =
                    [0, 1, 2].map(|lane| reply_of_lane(due, &settings, &rows, &frame, lane));
                let expected = [0, 1, 2].map(|lane| if lane == damaged { 19 } else { 17 });
                assert_eq!(replies, expected, "{settings:?} {damage:?}");
            }
        }
    }

    #[test]
    fn every_lane_that_is_to_be_damaged_has_its_turn() {
        for lanes in 1..=LANES {
            let all: BTreeSet<u8> = (1..=SYMBOLS).flat_map(|k| turns(k, lanes)).collect();
            assert!(damaged_lanes(lanes).eq(all));
            assert!((1..=SYMBOLS).all(|k| turns(k, lanes).contains(&(lanes - 1))));
        }
    }

    #[test]
    fn there_is_a_code_for_every_k() {
        let mut draws = Draws::of_case(1, 14);
        assert!((1..=SYMBOLS).all(|k| code(&mut draws, k).k() == k));
    }
}
