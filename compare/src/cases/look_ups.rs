//! Look-ups: which numbers are tried, and the call over a receiver's state and rows.

use std::ops::Range;

use reference::settings::Settings;

use super::ends::End;
use crate::call::Call;
use crate::comparison::{Comparison, Difference};
use crate::draw::Draws;
use crate::model::lengths;

/// How many far numbers are tried at a time.
const FAR: usize = 3;

/// The numbers that can be looked up: the last T before the slot due, from 0 on.
pub fn in_reach(settings: &Settings, due: u32) -> Range<i64> {
    let due = i64::from(due);
    (due - settings.t() as i64).max(0)..due
}

/// Every number from due − T − 2 to due + 2, and some far ones.
pub fn every_number(draws: &mut Draws, settings: &Settings, due: u32) -> Vec<i64> {
    let mut numbers = far_numbers(draws, due);
    numbers.extend(around(settings, due));
    numbers
}

/// The same, but of those in reach only so many as this: the first, the last or any.
pub fn some_numbers(draws: &mut Draws, settings: &Settings, due: u32, count: usize) -> Vec<i64> {
    let reach = in_reach(settings, due);
    let mut numbers = far_numbers(draws, due);
    numbers.extend(around(settings, due).filter(|number| !reach.contains(number)));
    if !reach.is_empty() {
        numbers.extend((0..count).map(|_| any_in_reach(draws, &reach)));
    }
    numbers
}

/// One of those in reach, of which there is at least one.
pub fn any_in_reach(draws: &mut Draws, reach: &Range<i64>) -> i64 {
    let any = reach.start + draws.below((reach.end - reach.start) as usize) as i64;
    draws.one_of(&[reach.start, any, any, reach.end - 1])
}

/// From due − T − 2 to due + 2: those in reach, and two or more on each side.
fn around(settings: &Settings, due: u32) -> Range<i64> {
    let due = i64::from(due);
    due - settings.t() as i64 - 2..due + 3
}

/// Some of the far numbers.
fn far_numbers(draws: &mut Draws, due: u32) -> Vec<i64> {
    (0..FAR).map(|_| far_number(draws, due)).collect()
}

/// A number far from the slot due: about 0, at the ends of all numbers, 2^32 away, like one in
/// reach but for the sign or for the upper half, or any.
pub fn far_number(draws: &mut Draws, due: u32) -> i64 {
    const HALF: i64 = 1 << 32;
    let due = i64::from(due);
    let near = due - 1 - draws.below(20) as i64;
    let any = draws.next() as i64;
    let upper = (any << 32).wrapping_add(near);
    let of_32_bits = [HALF, -HALF, HALF - 1, due + HALF, near + HALF, near - HALF, upper];
    let others = [-1, 0, i64::MIN, i64::MIN + 1, i64::MAX, -near, near ^ i64::MIN, any];
    draws.one_of(&[&of_32_bits[..], &others].concat())
}

/// A number out of reach, beside those in reach or far from them.
pub fn out_of_reach(draws: &mut Draws, settings: &Settings, due: u32) -> i64 {
    let far = far_number(draws, due);
    let Range { start, end } = around(settings, due);
    let number = draws.one_of(&[start, start + 1, end - 3, end - 1, far, far, far, far]);
    if in_reach(settings, due).contains(&number) {
        start
    } else {
        number
    }
}

/// Look-ups of these numbers over any state and rows, each with a buffer full of drawn bytes.
pub fn over(
    comparison: &mut Comparison,
    draws: &mut Draws,
    settings: &Settings,
    receiver: &End,
    numbers: &[i64],
) -> Result<(), Difference> {
    for &number in numbers {
        let buffer = draws.bytes(lengths(settings)[0]);
        let End { state, rows } = receiver;
        comparison.call(&mut Call::look_up(state.clone(), rows.clone(), number, buffer))?;
    }
    Ok(())
}

#[cfg(test)]
mod tests {
    use reference::settings::every_code;
    use reference::state::END;

    use super::*;

    #[test]
    fn every_number_in_reach_is_tried_and_two_on_each_side() {
        let mut draws = Draws::of_case(1, 6);
        for code in every_code() {
            let delay = code.t() as i64;
            for due in [0, 1, delay - 1, delay, delay + 1, 40, i64::from(END) - 1] {
                let reach = in_reach(&code, due as u32);
                let numbers = every_number(&mut draws, &code, due as u32);
                assert!((due - delay - 2..=due + 2).all(|number| numbers.contains(&number)));
                let numbers = some_numbers(&mut draws, &code, due as u32, 2);
                let count = numbers.iter().filter(|&number| reach.contains(number)).count();
                // A far number may be in reach as well: 0 is.
                assert!(if reach.is_empty() { count == 0 } else { (2..=2 + FAR).contains(&count) });
                for number in [due - delay - 2, due - delay - 1, due, due + 1, due + 2] {
                    assert!(numbers.contains(&number) && !reach.contains(&number));
                }
            }
        }
    }

    #[test]
    fn what_is_out_of_reach_is_beside_it_or_far_away() {
        let mut draws = Draws::of_case(1, 7);
        let code = Settings::of_code(3, 2, 2);
        for due in [0, 1, 3, 3_000_000_000] {
            let near = i64::from(due) - 5..i64::from(due) + 3;
            let [mut beside, mut far] = [0, 0];
            for _ in 0..1000 {
                let number = out_of_reach(&mut draws, &code, due);
                assert!(!in_reach(&code, due).contains(&number), "{due} {number}");
                beside += usize::from(near.contains(&number));
                far += usize::from(!(-100..1 << 32).contains(&number));
            }
            assert!(beside > 300 && far > 200, "{due} {beside} {far}");
        }
    }
}
