//! What look-ups met (document 02 §6), by code: each reason for which a number is out of reach,
//! and messages that are whole before their last slot although their own was lost.

use reference::settings::{every_code, Settings};
use reference::state::ReceiverState;

use crate::report::{code_of, Counts};

#[derive(Default)]
pub struct LookUps {
    /// Refused with 8 for one reason alone, by the reasons in document 02's order.
    out_of_reach: [Counts; 3],
    /// Of the first, those of a number that T as set would reach.
    within_t_as_set: Counts,
    /// Whole, of a message whose own slot was lost.
    repaired: Counts,
}

impl LookUps {
    /// One look-up that was refused with 8.
    pub fn add_out_of_reach(&mut self, state: &ReceiverState, number: i64) {
        let reasons = reasons(state.slot(), state.settings.t(), number);
        if let Some(reason) = alone(reasons) {
            let code = code_of(&state.settings);
            *self.out_of_reach[reason].entry(code).or_default() += 1;
            let by_t_as_set = self::reasons(state.slot(), state.settings.delay.into(), number);
            if by_t_as_set == [false; 3] {
                *self.within_t_as_set.entry(code).or_default() += 1;
            }
        }
    }

    /// One that was whole, of a message whose own slot was lost.
    pub fn add_repaired(&mut self, settings: &Settings) {
        *self.repaired.entry(code_of(settings)).or_default() += 1;
    }

    /// What every code must have met that can: what it is called, how often each code met it, and
    /// how many codes there are that can.
    pub fn demands(&self) -> [(&'static str, &Counts, usize); 5] {
        let [too_early, negative, too_late] = &self.out_of_reach;
        let every = every_code().len();
        [
            ("refused with 8, the number being below due − T alone", too_early, every),
            ("refused with 8, the number being below 0 alone", negative, every),
            ("refused with 8, the number not being below due", too_late, every),
            (
                "refused with 8, with a number that T as set would reach",
                &self.within_t_as_set,
                every,
            ),
            (
                "whole before the last slot, its own being lost",
                &self.repaired,
                with_early_repairs(),
            ),
        ]
    }
}

/// The three reasons to refuse a number: below due − T, below 0, not below due.
fn reasons(due: i64, delay: usize, number: i64) -> [bool; 3] {
    [number < due - delay as i64, number < 0, number >= due]
}

/// The reason that holds, if no other does.
fn alone(reasons: [bool; 3]) -> Option<usize> {
    let mut holding = (0..3).filter(|&reason| reasons[reason]);
    holding.next().filter(|_| holding.next().is_none())
}

/// How many codes can repair a message before its last slot: where N is 1, its first symbol stands
/// in its own slot and, of those behind, in its last alone.
fn with_early_repairs() -> usize {
    every_code().iter().filter(|code| code.scattered >= 2).count()
}

#[cfg(test)]
mod tests {
    use super::*;

    /// How many codes met each demand, after these look-ups that were refused with 8.
    fn met(refused: &[(Settings, u32, i64)]) -> [usize; 5] {
        let mut look_ups = LookUps::default();
        for &(settings, due, number) in refused {
            look_ups.add_out_of_reach(&ReceiverState { settings, opened_at: 0, due }, number);
        }
        look_ups.demands().map(|(_, counts, _)| counts.len())
    }

    #[test]
    fn a_reason_counts_where_it_is_the_only_one() {
        let card = Settings::of_code(3, 2, 2);
        assert_eq!(met(&[(card, 9, 5), (card, 9, 0)]), [1, 0, 0, 0, 0]);
        // Below 0, and below due − T as well.
        assert_eq!(met(&[(card, 9, -1), (card, 3, -1), (card, 2, -2)]), [0; 5]);
        assert_eq!(met(&[(card, 2, -1), (card, 0, -3)]), [0, 1, 0, 0, 0]);
        assert_eq!(met(&[(card, 0, 0), (card, 9, 9), (card, 9, i64::MAX)]), [0, 0, 1, 0, 0]);
        let code = Settings::of_code(1, 1, 1);
        assert_eq!(met(&[(code, 0, -1), (code, 0, 0), (code, 2, 0)]), [1, 1, 1, 0, 0]);
    }

    #[test]
    fn a_number_within_t_as_set_counts_where_the_window_makes_the_delay() {
        let short = Settings { delay: 5, ..Settings::of_code(3, 2, 2) };
        assert_eq!(met(&[(short, 9, 4)]), [1, 0, 0, 1, 0]);
        assert_eq!(met(&[(short, 9, 3)]), [1, 0, 0, 0, 0]);
    }

    #[test]
    fn a_repair_counts_by_code() {
        let mut look_ups = LookUps::default();
        let [card, other] = [Settings::of_code(3, 2, 2), Settings::of_code(4, 2, 2)];
        [card, other, card].iter().for_each(|code| look_ups.add_repaired(code));
        assert_eq!(look_ups.demands().map(|(_, counts, _)| counts.len()), [0, 0, 0, 0, 2]);
        assert_eq!(with_early_repairs(), 308);
    }
}
