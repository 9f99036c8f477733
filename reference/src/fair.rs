//! Fair losses (demand 3): which stretches of slots are fair, and which messages are promised.
//! The rule is document 02's, §1; document 01's narrower one tells what is fair only since then.
//! A receiver may be opened at a later slot (document 02 §3): what it missed counts as lost.

use crate::settings::Settings;

/// Whether a stretch of slots is fair: for each of them, whether it was lost.
type Rule = fn(&Settings, &[bool]) -> bool;

/// Document 02, §1: at most N losses, or the last is at most B − 1 slots behind the first.
/// What is heard between the two makes no difference.
pub fn fair(settings: &Settings, stretch: &[bool]) -> bool {
    let (count, span) = count_and_span(stretch);
    count <= usize::from(settings.scattered) || span <= usize::from(settings.burst)
}

/// Document 01: at most N losses, or a single run of at most B, with nothing heard inside it.
pub fn fair_by_01(settings: &Settings, stretch: &[bool]) -> bool {
    let (count, span) = count_and_span(stretch);
    let unbroken = span == count;
    count <= usize::from(settings.scattered) || unbroken && count <= usize::from(settings.burst)
}

/// How many slots of a stretch are lost, and how many there are from the first loss to the last.
fn count_and_span(stretch: &[bool]) -> (usize, usize) {
    let count = stretch.iter().filter(|lost| **lost).count();
    let first = stretch.iter().position(|lost| *lost);
    let last = stretch.iter().rposition(|lost| *lost);
    (count, last.zip(first).map_or(0, |(last, first)| last - first + 1))
}

/// Whether message t is promised to a receiver opened at a slot. The list says of each slot from
/// there on whether it was lost; slot t + T is in it, while slot t may be an earlier one.
pub fn promised(settings: &Settings, opened_at: u32, lost: &[bool], t: u32) -> bool {
    every_stretch(settings, opened_at, lost, t, fair)
}

/// The same under document 01's rule.
pub fn promised_by_01(settings: &Settings, opened_at: u32, lost: &[bool], t: u32) -> bool {
    every_stretch(settings, opened_at, lost, t, fair_by_01)
}

/// Promised, and not so under document 01's rule: a frame was heard inside a fade.
pub fn promised_in_a_fade(settings: &Settings, opened_at: u32, lost: &[bool], t: u32) -> bool {
    promised(settings, opened_at, lost, t) && !promised_by_01(settings, opened_at, lost, t)
}

/// Every stretch of at most W slots among slots t − k + 1 to t + T.
fn every_stretch(settings: &Settings, opened_at: u32, lost: &[bool], t: u32, rule: Rule) -> bool {
    let from = i64::from(t) - settings.k() as i64 + 1;
    let to = i64::from(t) + settings.t() as i64;
    let slots: Vec<bool> = (from..=to).map(|slot| counts_as_lost(opened_at, lost, slot)).collect();
    let longest = usize::from(settings.window).min(slots.len());
    (1..=longest).all(|length| slots.windows(length).all(|stretch| rule(settings, stretch)))
}

/// From the opening slot on the list tells. Of the slots before it those from 0 on are losses
/// (document 02 §3), and those before 0 count as heard.
fn counts_as_lost(opened_at: u32, lost: &[bool], slot: i64) -> bool {
    match usize::try_from(slot - i64::from(opened_at)) {
        Ok(place) => lost[place],
        Err(_) => slot >= 0,
    }
}

/// Every fade of a code: at most B slots and more than N losses, the first and the last slot
/// among them, and a frame heard in between. There are some exactly where N + 2 ≤ B.
pub fn fades(settings: &Settings) -> Vec<Vec<bool>> {
    let all = (3..=usize::from(settings.burst)).flat_map(|length| {
        let inner = move |bits: u32| (0..length - 2).map(move |slot| bits >> slot & 1 == 1);
        let fade = move |bits| [true].into_iter().chain(inner(bits)).chain([true]).collect();
        (0..1 << (length - 2)).map(fade)
    });
    all.filter(|fade: &Vec<bool>| !fair_by_01(settings, fade)).collect()
}

#[cfg(test)]
mod tests {
    use super::*;
    use crate::patterns::Draws;
    use crate::settings::every_code;

    /// So many slots, of which these are lost.
    fn lost<const COUNT: usize>(slots: usize, lost: [usize; COUNT]) -> Vec<bool> {
        (0..slots).map(|slot| lost.contains(&slot)).collect()
    }

    /// Every stretch of so many slots.
    fn every(slots: usize) -> impl Iterator<Item = Vec<bool>> {
        let stretch = move |bits: u32| (0..slots).map(|slot| bits >> slot & 1 == 1).collect();
        (0..1 << slots).map(stretch)
    }

    /// Whether a stretch is fair, and whether it is so under document 01's rule.
    fn both(code: &Settings, stretch: &[bool]) -> (bool, bool) {
        (fair(code, stretch), fair_by_01(code, stretch))
    }

    #[test]
    fn what_is_promised_on_the_card() {
        let code = Settings::of_code(3, 2, 2);
        for promised in [promised, promised_by_01] {
            assert!(promised(&code, 0, &lost(9, [0, 1]), 0));
            assert!(promised(&code, 0, &lost(9, [0, 3]), 0));
            assert!(!promised(&code, 0, &lost(9, [1, 2, 4]), 1));
            assert!(promised(&code, 0, &lost(9, [1, 2, 7]), 3));
            // Case 11: messages 0 and 1 are lost, and message 2 is whole.
            let case_11 = lost(9, [0, 1, 2]);
            assert_eq!([0, 1, 2].map(|t| promised(&code, 0, &case_11, t)), [false, false, true]);
        }
    }

    #[test]
    fn a_frame_heard_inside_a_fade_of_four() {
        let code = Settings::of_code(4, 4, 1);
        assert_eq!(both(&code, &lost(8, [1, 2, 3, 4])), (true, true));
        // Message t has slots t − 3 to t + 4; it counts where they hold losses on both sides of
        // the frame heard.
        for (fade, messages) in [([3, 4, 6], 2..8), ([3, 5, 6], 1..7)] {
            let lost = lost(16, fade);
            assert_eq!(both(&code, &lost[1..9]), (true, false));
            assert!((0..12).all(|t| promised(&code, 0, &lost, t)));
            let only = (0..12).filter(|&t| promised_in_a_fade(&code, 0, &lost, t));
            assert!(only.eq(messages));
        }
    }

    #[test]
    fn a_first_and_a_last_loss_too_far_apart() {
        let code = Settings::of_code(4, 4, 1);
        assert_eq!(both(&code, &lost(8, [1, 4])), (true, false));
        assert_eq!(both(&code, &lost(8, [1, 5])), (false, false));
        assert_eq!(both(&code, &lost(8, [0, 2, 4, 6])), (false, false));
        assert_eq!(both(&code, &lost(8, [0, 1, 2, 3, 4])), (false, false));
        // So many losses may be anywhere, but not one more.
        let code = Settings::of_code(5, 4, 3);
        assert_eq!(both(&code, &lost(8, [0, 3, 7])), (true, true));
        assert_eq!(both(&code, &lost(8, [0, 1, 3, 7])), (false, false));
    }

    #[test]
    fn fades_in_stretches_of_their_own() {
        // W is 5: between the two fades W − 1 slots are heard, or one less.
        let code = Settings::of_code(4, 4, 1);
        let (apart, nearer) = (lost(16, [0, 2, 3, 8, 10, 11]), lost(16, [0, 2, 3, 7, 9, 10]));
        assert!((0..12).all(|t| promised(&code, 0, &apart, t)));
        // Message t has slots t − 3 to t + 4: of the nearer fades message 2 sees the first alone,
        // and message 7 the second.
        let kept = (0..12).filter(|&t| promised(&code, 0, &nearer, t));
        assert!(kept.eq([0, 1, 2, 7, 8, 9, 10, 11]));
    }

    #[test]
    fn a_window_longer_than_the_delay_and_shorter_than_what_a_message_sees() {
        // W is 8: message t has slots t − 4 to t + 5. Between two bursts 7 slots are heard, or 6.
        let code = Settings { window: 8, ..Settings::of_code(5, 2, 1) };
        let (apart, nearer) = (lost(20, [3, 4, 12, 13]), lost(20, [3, 4, 11, 12]));
        let kept = |window: u8, lost: &[bool]| -> Vec<u32> {
            let code = Settings { window, ..code };
            (0..15).filter(|&t| promised(&code, 0, lost, t)).collect()
        };
        assert!(kept(8, &apart).into_iter().eq(0..15));
        assert!(kept(8, &nearer).into_iter().eq((0..6).chain(9..15)));
        // In the narrowest window both are kept, and in the widest neither is.
        assert!(kept(6, &nearer).into_iter().eq(0..15));
        assert!(kept(255, &apart).into_iter().eq((0..7).chain(9..15)));
    }

    #[test]
    fn two_losses_are_fair_from_w_slots_apart_on() {
        // N is 1, and losses B slots apart are too far for a burst. Message k − 1 has the slots
        // from 0 on; of them slot 0 is lost, and one more.
        for code in every_code().iter().filter(|code| code.scattered == 1) {
            let slots = code.k() + code.t();
            let is_promised = |window: usize, apart: usize| {
                let settings = Settings { window: window as u8, ..*code };
                promised(&settings, 0, &lost(slots, [0, apart]), code.k() as u32 - 1)
            };
            for window in code.t() + 1..=slots + 1 {
                let kept = (code.burst.into()..slots).filter(|&apart| is_promised(window, apart));
                assert!(kept.eq(window..slots), "{code:?} {window}");
            }
        }
    }

    #[test]
    fn the_wider_rule_is_wider_and_a_frame_more_never_harms() {
        for code in every_code().iter().filter(|code| code.t() <= 8) {
            for stretch in every(9).filter(|stretch| fair_by_01(code, stretch)) {
                assert!(fair(code, &stretch));
            }
            for mut stretch in every(9).filter(|stretch| fair(code, stretch)) {
                for slot in 0..9 {
                    let was = std::mem::replace(&mut stretch[slot], false);
                    assert!(fair(code, &stretch));
                    stretch[slot] = was;
                }
            }
        }
    }

    #[test]
    fn a_code_has_fades_exactly_where_n_and_2_are_at_most_b() {
        for code in every_code() {
            let wider = |stretch: &Vec<bool>| both(&code, stretch) == (true, false);
            let some = every(usize::from(code.burst)).any(|stretch| wider(&stretch));
            let fades = fades(&code);
            assert_eq!(some, code.scattered + 2 <= code.burst);
            assert_eq!(some, !fades.is_empty());
            assert!(fades.iter().all(wider));
        }
    }

    #[test]
    fn bursts_in_a_window_shorter_than_the_delay_set() {
        // W is 3 and T is set to 9: message t has slots t − 1 to t + 2, in stretches of three.
        let short = Settings { delay: 9, ..Settings::of_code(2, 2, 1) };
        let (apart, nearer) = (lost(16, [4, 5, 8, 9]), lost(16, [4, 5, 7, 8]));
        assert!((0..14).all(|t| promised(&short, 0, &apart, t)));
        // Slots 5 to 7 hold losses on both sides of a frame heard, and messages 5 and 6 have them.
        let kept = (0..14).filter(|&t| promised(&short, 0, &nearer, t));
        assert!(kept.eq((0..5).chain(7..14)));
    }

    #[test]
    fn what_is_promised_goes_by_the_delay_and_not_by_t_as_set() {
        let mut draws = Draws::from(20261130);
        for code in every_code() {
            let set = [code.delay + 1, 16, 255].map(|delay| Settings { delay, ..code });
            for opened_at in openings(&code) {
                let lost: Vec<bool> = (0..=code.t()).map(|_| draws.below(4) == 0).collect();
                let t = (opened_at + draws.below(2) as u32).saturating_sub(code.t() as u32);
                let expected = promised(&code, opened_at, &lost, t);
                assert!(set.iter().all(|s| promised(s, opened_at, &lost, t) == expected));
            }
        }
    }

    /// Opening slots from 0 to a few more than a receiver remembers.
    fn openings(code: &Settings) -> std::ops::Range<u32> {
        0..(code.k() + code.t()) as u32 + 3
    }

    #[test]
    fn slots_before_the_opening_are_losses() {
        let mut draws = Draws::from(20261129);
        for code in every_code() {
            let delay = code.t() as u32;
            for opened_at in openings(&code) {
                let slots = code.t() + 2;
                let once_in = 2 + draws.below(8);
                let lost: Vec<bool> = (0..slots).map(|_| draws.below(once_in) == 0).collect();
                let from_0 = [&vec![true; opened_at as usize], &lost[..]].concat();
                for t in opened_at.saturating_sub(delay)..opened_at + 2 {
                    let late = promised(&code, opened_at, &lost, t);
                    assert_eq!(late, promised(&code, 0, &from_0, t), "{code:?} {opened_at} {t}");
                }
            }
        }
    }

    #[test]
    fn what_is_promised_of_earlier_messages_if_nothing_more_is_lost() {
        for code in every_code() {
            let (k, delay, burst) = (code.k() as u32, code.t() as u32, code.burst.into());
            for opened_at in openings(&code).chain([2_000_000_000, 3_999_999_990]) {
                // The slots missed that message t sees are one run, of at most B.
                let run = |t: u32| opened_at - (t + 1).saturating_sub(k);
                let heard = vec![false; code.t()];
                for t in opened_at.saturating_sub(delay)..opened_at {
                    let promised = promised(&code, opened_at, &heard, t);
                    assert_eq!(promised, run(t) <= burst, "{code:?} {opened_at} {t}");
                }
            }
        }
    }

    #[test]
    fn how_many_codes_are_promised_the_last_message_before_an_opening() {
        let last = |code: &Settings, opened_at: u32| {
            promised(code, opened_at, &vec![false; code.t()], opened_at - 1)
        };
        let count = |opened_at: fn(&Settings) -> u32| {
            every_code().iter().filter(|code| last(code, opened_at(code))).count()
        };
        assert_eq!(count(|_| 1), 372);
        // Here k slots or more are missed, and B is k or more in so many codes.
        assert_eq!(count(|code| (code.k() + code.t()) as u32), 204);
        assert_eq!(count(|_| 2_000_000_000), 204);
    }
}
