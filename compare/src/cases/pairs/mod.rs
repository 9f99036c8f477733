//! Pairs of recordings (document 02 §7): of every code, with changes of all kinds and with every
//! choice of causes; some are fed to a receiver, some changed at every byte, some as long as may be.

mod causes;
mod changes;
mod feeding;
mod long;
mod meeting;
mod places;

use reference::settings::{every_code, Settings};

use causes::OF_PAIR;
use changes::CHANGES;
use meeting::{aerials, meeting, Pair};

use crate::call::Call;
use crate::comparison::{Comparison, Difference};
use crate::draw::Draws;
use crate::model::bytes_of;

/// Slots of a meeting.
const SLOTS: usize = 9;

/// The most lanes: the codes take 1 to so many by turns.
const LANES: usize = 64;

pub fn run(comparison: &mut Comparison) -> Result<(), Difference> {
    for (number, code) in every_code().into_iter().enumerate() {
        let mut draws = comparison.case("pairs");
        let lanes = (number % LANES) as u8 + 1;
        let any = super::settings(&mut draws, &code, lanes);
        let lanes = super::rows::lanes(&mut draws, &code);
        let short = Settings { lanes, ..super::short_window(&mut draws, &code) };
        for settings in [any, short] {
            every_change(comparison, &mut draws, settings)?;
        }
        every_choice(comparison, &mut draws, short)?;
        feeding::run(comparison, code)?;
    }
    places::run(comparison)?;
    long::run(comparison)
}

/// Frames of 16, 64 and 128 bytes, of which 64 KiB are a whole number, and of 18, 270 and 1,038, of
/// which they are not.
fn of_lengths() -> [Settings; 6] {
    [(1, 1, 1, 1), (1, 1, 1, 25), (1, 1, 1, 57), (3, 2, 2, 1), (8, 8, 1, 16), (15, 15, 15, 64)]
        .map(|(t, b, n, lanes)| Settings { lanes, ..Settings::of_code(t, b, n) })
}

/// The check of a pair, whose number is known.
fn check(
    comparison: &mut Comparison,
    settings: Settings,
    [first, second]: [&[u8]; 2],
    due: u32,
) -> Result<(), Difference> {
    let call = Call::pair_cause(bytes_of(&settings), first.to_vec(), second.to_vec());
    check_call(comparison, call, due)
}

/// The same of a call as it is.
fn check_call(comparison: &mut Comparison, mut call: Call, due: u32) -> Result<(), Difference> {
    match comparison.call(&mut call)? {
        number if number == due => Ok(()),
        number => Err(comparison.failed(&format!("the pair has {number}, where {due} is due"))),
    }
}

/// Each change of what two aerials recorded of one meeting, either recording being the first: the
/// number is the same.
fn every_change(
    comparison: &mut Comparison,
    draws: &mut Draws,
    settings: Settings,
) -> Result<(), Difference> {
    let frames = meeting(draws, settings, SLOTS);
    for change in CHANGES {
        let mut pair = Pair { settings: bytes_of(&settings), both: aerials(draws, &frames) };
        change(draws, &mut pair);
        let number = comparison.call(&mut pair.call())?;
        let swapped = comparison.call(&mut pair.swapped().call())?;
        if swapped != number {
            let text = format!("the pair has {number}, and {swapped} the other way round");
            return Err(comparison.failed(&text));
        }
    }
    Ok(())
}

/// A pair with every choice of the six causes: the first of them is the number. Each is made behind
/// those that are checked later.
fn every_choice(
    comparison: &mut Comparison,
    draws: &mut Draws,
    settings: Settings,
) -> Result<(), Difference> {
    let frames = meeting(draws, settings, SLOTS);
    for choice in 0..1 << OF_PAIR.len() {
        let mut pair = Pair { settings: bytes_of(&settings), both: aerials(draws, &frames) };
        let mut due = 0;
        for (place, (cause, fault)) in OF_PAIR.into_iter().enumerate().rev() {
            if choice >> place & 1 == 1 {
                fault(draws, &mut pair);
                due = cause;
            }
        }
        check_call(comparison, pair.call(), due)?;
    }
    Ok(())
}

#[cfg(test)]
mod tests {
    use reference::frame;
    use reference::play::LONGEST;

    use super::*;

    #[test]
    fn frames_have_the_lengths_that_are_said() {
        let lengths = of_lengths().map(|settings| frame::length(&settings));
        assert_eq!(lengths, [16, 64, 128, 18, 270, 1038]);
        assert_eq!(
            lengths.map(|one| LONGEST.is_multiple_of(one)),
            [true, true, true, false, false, false]
        );
    }
}
