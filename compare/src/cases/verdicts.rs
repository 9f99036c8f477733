//! For every code, rows for which each reply of a report is due: a frame report, a loss report and
//! look-ups each.

use reference::settings::{every_code, Settings};
use reference::state::ReceiverState;

use super::ends::End;
use super::history::{Change, History};
use super::look_ups::{self, any_in_reach, in_reach};
use super::rows::{any_receiver_bytes, opened_at};
use crate::call::Call;
use crate::comparison::{Comparison, Difference};
use crate::draw::Draws;
use crate::model::lengths;

/// Only for a slot due below the delay is the reply "none yet"; the others are mostly whole, lost and clash.
const CHANGES: [Change; 4] = [Change::True, Change::AllLost, Change::OnlyBodies, Change::Damage];

pub fn run(comparison: &mut Comparison) -> Result<(), Difference> {
    for code in every_code() {
        let mut draws = comparison.case("verdicts");
        let lanes = draws.one_of(&[1, 2, 3]);
        let any = super::settings(&mut draws, &code, lanes);
        let short = Settings { lanes, ..super::short_window(&mut draws, &code) };
        for settings in [any, short] {
            every_change(comparison, &mut draws, settings)?;
        }
    }
    Ok(())
}

/// Each change of the rows, once for a slot due below the delay, and once from there on.
fn every_change(
    comparison: &mut Comparison,
    draws: &mut Draws,
    settings: Settings,
) -> Result<(), Difference> {
    let below = draws.below(settings.t()) as u32;
    let above = super::rows::due(draws, &settings).max(settings.t() as u32);
    for due in [below, above] {
        for change in CHANGES {
            let opened_at = opened_at(draws, due);
            each(comparison, draws, ReceiverState { settings, opened_at, due }, change)?;
        }
    }
    Ok(())
}

/// The two reports of the slot due, and look-ups of the first number in reach and of one more, over
/// the same rows.
fn each(
    comparison: &mut Comparison,
    draws: &mut Draws,
    state: ReceiverState,
    change: Change,
) -> Result<(), Difference> {
    let history = History::drawn(draws, state.settings, state.due, 1);
    let rows = history.changed_rows(draws, change);
    let buffer = draws.bytes(lengths(&state.settings)[0]);
    let frame = history.frame(state.due);
    let reach = in_reach(&state.settings, state.due);
    let receiver = End { state: any_receiver_bytes(draws, &state), rows };
    if !reach.is_empty() {
        let numbers = [reach.start, any_in_reach(draws, &reach)];
        look_ups::over(comparison, draws, &state.settings, &receiver, &numbers)?;
    }
    let End { state, rows } = receiver;
    comparison.call(&mut Call::lost(state.clone(), rows.clone(), buffer.clone()))?;
    comparison.call(&mut Call::heard(state, rows, frame, buffer))?;
    Ok(())
}
