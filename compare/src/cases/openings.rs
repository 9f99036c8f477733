//! Openings of both ends: settings of all kinds, lengths that are right or wrong, and of the
//! receiver any slots.

use reference::settings::{every_code, Settings};
use reference::state::END;

use super::bounds;
use super::faults::other_length;
use super::opening_slots;
use crate::call::{Call, Kind};
use crate::comparison::{Comparison, Difference};
use crate::draw::Draws;
use crate::model::{bytes_of, STATE};

/// Openings of each end with drawn settings.
const DRAWN: usize = 30_000;

/// Rows of settings that are not accepted are shorter than this.
const LONG: i64 = 100_000;

pub fn run(comparison: &mut Comparison) -> Result<(), Difference> {
    for code in every_code() {
        let mut draws = comparison.case("openings of a code");
        of_code(comparison, &mut draws, code)?;
        at_slots(comparison, &mut draws, code)?;
    }
    let mut draws = comparison.case("openings with drawn settings");
    for _ in 0..DRAWN {
        let settings = bounds::any(&mut draws);
        both(comparison, &mut draws, settings)?;
    }
    Ok(())
}

/// Each bound and its neighbours.
fn of_code(comparison: &mut Comparison, draws: &mut Draws, c: Settings) -> Result<(), Difference> {
    let [w, t, b, n, l] = bytes_of(&c);
    for lanes in [0, 1, 2, 3, 16, 64, 65] {
        for [w, t] in [[w, t], [255, t], [w, w], [w, 255]] {
            both(comparison, draws, [w, t, b, n, lanes])?;
        }
    }
    for window in [0, b - 1, b, b + 1, t - 1, t] {
        for t in [t, 255] {
            both(comparison, draws, [window, t, b, n, l])?;
        }
    }
    for changed in [
        [w, t, b, 0, l],
        [w, t, b, b + 1, l],
        [w, t, n - 1, n, l],
        [w, t, t + 1, n, l],
        [w, b - 1, b, n, l],
        [255, 255, b, n, l],
        [w + 1, 255, b, n, l],
        [w + 1, t + 1, b, n, l],
        [w, t, b + 1, n, l],
        [w, t, b, n - 1, l],
    ] {
        both(comparison, draws, changed)?;
    }
    Ok(())
}

/// An opening of each end with the right lengths, and one that may have others. The receiver is
/// opened with a slot or without.
fn both(comparison: &mut Comparison, draws: &mut Draws, s: [u8; 5]) -> Result<(), Difference> {
    let [sender, receiver] = lengths_of_rows(s);
    let of_receiver = draws.one_of(&[Kind::OpenReceiver, Kind::OpenReceiverAt]);
    for (kind, rows) in [(Kind::OpenSender, sender), (of_receiver, receiver)] {
        for exact in [true, false] {
            let rows = if exact { rows } else { other_length(draws, rows) };
            let once = !exact && draws.once_in(4);
            let state = if once { other_length(draws, STATE) } else { STATE };
            let (state, rows) = (draws.bytes(state), draws.bytes(rows));
            let mut call = match kind {
                Kind::OpenReceiverAt => Call::open_at(s, any_number(draws), state, rows),
                _ => Call::open(kind, s, state, rows),
            };
            comparison.call(&mut call)?;
        }
    }
    Ok(())
}

/// Any number as a slot: one that there is, one that there is not, or one near the last.
fn any_number(draws: &mut Draws) -> u32 {
    let near = END - 2 + draws.below(4) as u32;
    let low = draws.below(64) as u32;
    let any = draws.next() as u32;
    draws.one_of(&[low, near, any])
}

/// A receiver opened at each slot of a code, and at slots that there are not: with nothing wrong,
/// and with settings and lengths that are wrong, alone and together.
fn at_slots(comparison: &mut Comparison, draws: &mut Draws, c: Settings) -> Result<(), Difference> {
    let lanes = super::rows::lanes(draws, &c);
    let good = super::settings(draws, &c, lanes);
    // The delay is then B − 1: the settings are not accepted, and every length is still theirs.
    let bad = Settings { window: c.burst, ..good };
    let past = END + 1 + draws.below(1000) as u32;
    for slot in opening_slots(draws, &c).into_iter().chain([END, past, u32::MAX]) {
        for settings in [good, bad].map(|settings| bytes_of(&settings)) {
            let rows = lengths_of_rows(settings)[1];
            let others = [other_length(draws, STATE), other_length(draws, rows)];
            for (state, rows) in [(STATE, rows), (others[0], rows), (STATE, others[1])] {
                let (state, rows) = (draws.bytes(state), draws.bytes(rows));
                comparison.call(&mut Call::open_at(settings, slot, state, rows))?;
            }
        }
    }
    Ok(())
}

/// The lengths of the rows by document 01's products, even where the settings are not accepted:
/// a wrong opening would then find nothing else to refuse. 0 where one is negative or long.
fn lengths_of_rows(settings: [u8; 5]) -> [usize; 2] {
    let [w, t, b, n, l] = settings.map(i64::from);
    let delay = t.min(w - 1).max(0);
    let k = delay - n + 1;
    let symbols = k + b;
    let lengths = [(symbols - 1) * k * l, (k + delay) * (1 + symbols * l)];
    lengths.map(|length| if (0..LONG).contains(&length) { length as usize } else { 0 })
}

#[cfg(test)]
mod tests {
    use super::*;
    use crate::model::{lengths, settings_of};

    #[test]
    fn the_lengths_of_accepted_settings_are_the_references() {
        for [w, t, b, n, l] in every_code().iter().map(bytes_of) {
            for [w, t] in [[w, t], [255, t], [w, w], [w, 255]] {
                let settings = [w, t, b, n, l];
                assert_eq!(lengths_of_rows(settings), lengths(&settings_of(settings))[2..]);
            }
        }
    }
}
