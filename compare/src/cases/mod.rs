//! The cases, in parts; each part goes through its cases until the first difference.

mod bounds;
mod bursts;
mod ends;
mod faults;
mod history;
mod lanes;
mod laws;
mod lists;
mod look_ups;
mod losses;
mod openings;
mod pairs;
mod refused;
mod rows;
mod slots;
mod twins;
mod verdicts;

use reference::receiver::row_count;
use reference::settings::Settings;
use reference::state::END;

use crate::comparison::{Comparison, Difference};
use crate::draw::Draws;

type Part = fn(&mut Comparison) -> Result<(), Difference>;

pub const PARTS: [(&str, Part); 11] = [
    ("lengths", bounds::run),
    ("openings", openings::run),
    ("refused calls", refused::run),
    ("verdicts", verdicts::run),
    ("rows handed in", rows::run),
    ("lists of calls", lists::run),
    ("twins", twins::run),
    ("pairs of recordings", pairs::run),
    ("lanes", lanes::run),
    ("bursts", bursts::run),
    ("slots told", slots::run),
];

/// Settings that have the delay of a code: mostly T is set to it and the window is any above it,
/// and once in three times the window alone makes it.
fn settings(draws: &mut Draws, code: &Settings, lanes: u8) -> Settings {
    match draws.once_in(3) {
        true => Settings { lanes, ..short_window(draws, code) },
        false => Settings { window: above(draws, code), lanes, ..*code },
    }
}

/// A code with T set higher than its own, so that the window is at most T (document 02 §5).
fn short_window(draws: &mut Draws, code: &Settings) -> Settings {
    Settings { delay: above(draws, code), ..*code }
}

/// A byte above the T of a code: the next, any, a near one, or 255.
fn above(draws: &mut Draws, code: &Settings) -> u8 {
    let more = draws.below(255 - code.t()) as u8;
    code.delay + 1 + draws.one_of(&[0, more, more % 16, 254 - code.delay])
}

/// Any slot there is.
fn any_slot(draws: &mut Draws) -> u32 {
    (draws.next() % u64::from(END)) as u32
}

/// Opening slots of a code: none missed, one, all but one of those remembered, all of them and one
/// more, any number, and the last slot of all.
fn opening_slots(draws: &mut Draws, code: &Settings) -> [u32; 7] {
    let remembered = row_count(code) as u32;
    let any = any_slot(draws);
    [0, 1, remembered - 1, remembered, remembered + 1, any, END - 1]
}

#[cfg(test)]
mod tests {
    use reference::settings::every_code;

    use super::*;

    #[test]
    fn drawn_settings_have_the_delay_of_their_code() {
        let mut draws = Draws::of_case(1, 5);
        let mut count = 0;
        for code in every_code() {
            let [any, short] = [settings(&mut draws, &code, 1), short_window(&mut draws, &code)];
            for drawn in [any, short] {
                assert!(drawn.accepted(), "{drawn:?}");
                assert_eq!((drawn.t(), drawn.k(), drawn.n()), (code.t(), code.k(), code.n()));
            }
            assert!(short.window <= short.delay, "{short:?}");
            count += usize::from(any.window <= any.delay);
        }
        // About one in three.
        assert!((90..160).contains(&count), "{count}");
    }
}
