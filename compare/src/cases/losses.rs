//! Losses: patterns of several kinds. Which messages they promise, the reference says (demand 3).

use reference::fair::{fades, promised};
use reference::receiver::row_count;
use reference::settings::Settings;
use reference::state::END;

use crate::draw::Draws;
use crate::earlier::{Losses, Own};

/// Which slots are lost, from the opening on.
pub fn losses(draws: &mut Draws, settings: &Settings, slots: usize) -> Vec<bool> {
    match draws.below(7) {
        0 => bursts(draws, settings, slots, usize::from(settings.burst)),
        1 => bursts(draws, settings, slots, usize::from(settings.burst) + 2),
        2 => scattered(draws, settings, slots),
        3 => (0..slots).map(|_| draws.once_in(5)).collect(),
        4 => (0..slots).map(|_| draws.once_in(2)).collect(),
        5 => broken(draws, settings, slots),
        _ => vec![false; slots],
    }
}

/// Bursts of at most so many losses, mostly with W − 1 slots or more between them.
fn bursts(draws: &mut Draws, settings: &Settings, slots: usize, most: usize) -> Vec<bool> {
    let mut lost = vec![false; slots];
    let mut slot = draws.below(slots);
    while slot < slots {
        let end = slot + 1 + draws.below(most);
        lost[slot..end.min(slots)].fill(true);
        let between = usize::from(settings.window) - 1;
        slot = end + draws.one_of(&[between, between, between + 3, between / 2 + 1]);
    }
    lost
}

/// Bursts of at most B slots, inside which a frame is heard now and then.
fn broken(draws: &mut Draws, settings: &Settings, slots: usize) -> Vec<bool> {
    let lost = bursts(draws, settings, slots, usize::from(settings.burst));
    let inside = |slot: usize| slot > 0 && slot + 1 < slots && lost[slot - 1] && lost[slot + 1];
    (0..slots).map(|slot| lost[slot] && !(inside(slot) && draws.once_in(3))).collect()
}

/// At most N losses among any W slots.
fn scattered(draws: &mut Draws, settings: &Settings, slots: usize) -> Vec<bool> {
    let mut lost = vec![false; slots];
    for slot in 0..slots {
        let from = (slot + 1).saturating_sub(usize::from(settings.window));
        let before = lost[from..slot].iter().filter(|lost| **lost).count();
        lost[slot] = before < usize::from(settings.scattered) && draws.once_in(3);
    }
    lost
}

/// One fade inside which frames are heard, for a code that has such fades. The list goes on until
/// the last message lost in it is due, so that some message is promised by the wider rule only.
pub fn one_fade(draws: &mut Draws, settings: &Settings) -> Vec<bool> {
    let fades = fades(settings);
    let mut lost = vec![false; draws.below(settings.k())];
    lost.extend(&fades[draws.below(fades.len())]);
    lost.resize(lost.len() + settings.t(), false);
    lost
}

/// An opening slot behind which the last message before it is promised if nothing more is lost.
/// Where the code's bursts are long enough it is one that leaves no row received.
pub fn sparing_opening(draws: &mut Draws, settings: &Settings) -> u32 {
    let burst = usize::from(settings.burst);
    if settings.k() > burst {
        return 1 + draws.below(burst) as u32;
    }
    let remembered = row_count(settings) as u32;
    // The last one at which the message is still due before the slots end.
    let last = END - settings.t() as u32;
    let any = remembered + (draws.next() % u64::from(last - remembered)) as u32;
    draws.one_of(&[remembered, remembered + 1, any, last])
}

/// As many losses as leave the last message before the opening promised, tried in a drawn order,
/// or none. The list goes on until that message is due.
pub fn sparing(draws: &mut Draws, settings: &Settings, opened_at: u32) -> Vec<bool> {
    let slots = settings.t();
    let mut lost = vec![false; slots];
    let first = draws.below(slots);
    let tried = draws.one_of(&[0, slots, slots]);
    for slot in (0..tried).map(|step| (first + step) % slots) {
        lost[slot] = true;
        lost[slot] = promised(settings, opened_at, &lost, opened_at - 1);
    }
    lost
}

/// At most N − 1 losses, for a code whose N is 2 or more. The list ends with the last slot of the
/// first message lost, which is known before that.
pub fn few(draws: &mut Draws, settings: &Settings) -> Vec<bool> {
    let first = draws.below(3);
    let mut lost = vec![false; first + settings.t() + 1];
    lost[first] = true;
    for _ in 0..draws.below(usize::from(settings.scattered) - 1) {
        lost[first + 1 + draws.below(settings.t())] = true;
    }
    lost
}

/// Whether a slot counts as lost: from the opening on the list tells; before it those from 0 on do.
pub fn is_lost(opened_at: u32, lost: &[bool], slot: i64) -> bool {
    match usize::try_from(slot - i64::from(opened_at)) {
        Ok(place) => lost[place],
        Err(_) => slot >= 0,
    }
}

/// How many slots before its last a promised message is known: T if its own slot is heard, and else
/// as many as come after the k-th slot heard behind its own. Fewer than k leave its first symbol
/// open, and k tell the message, the losses being fair.
pub fn known_before(settings: &Settings, opened_at: u32, lost: &[bool], t: u32) -> usize {
    let own = i64::from(t);
    let last = own + settings.t() as i64;
    if !is_lost(opened_at, lost, own) {
        return settings.t();
    }
    let mut heard = (own + 1..=last).filter(|&slot| !is_lost(opened_at, lost, slot));
    heard.nth(settings.k() - 1).map_or(0, |slot| (last - slot) as usize)
}

/// What a promised message has lost of slots t − k + 1 to t + T, and whether of its own.
pub fn losses_of(settings: &Settings, opened_at: u32, lost: &[bool], t: u32) -> (Losses, Own) {
    let t = i64::from(t);
    let mut slots: Vec<i64> = (t - settings.k() as i64 + 1..=t + settings.t() as i64).collect();
    slots.retain(|&slot| is_lost(opened_at, lost, slot));
    let losses = match (slots.first(), slots.last()) {
        (Some(first), Some(last)) if last - first + 1 == slots.len() as i64 => Losses::Burst,
        (Some(_), Some(_)) => Losses::Others,
        _ => Losses::None,
    };
    let own = match (slots.contains(&t), settings.scattered) {
        (false, _) => Own::Heard,
        (true, 1) => Own::LostAndNIs1,
        (true, _) => Own::Lost,
    };
    (losses, own)
}

#[cfg(test)]
mod tests {
    use reference::broadcast;
    use reference::fair::promised_in_a_fade;
    use reference::receiver::{self, Reply};
    use reference::settings::every_code;

    use super::*;

    #[test]
    fn sparing_losses_leave_an_earlier_message_promised() {
        let mut draws = Draws::of_case(1, 2);
        let mut with_losses = 0;
        for code in every_code() {
            let opened_at = sparing_opening(&mut draws, &code);
            let no_row = opened_at as usize >= row_count(&code);
            assert_eq!(no_row, code.k() <= usize::from(code.burst));
            let lost = sparing(&mut draws, &code, opened_at);
            assert!(promised(&code, opened_at, &lost, opened_at - 1), "{code:?} {opened_at}");
            assert!(u64::from(opened_at) + lost.len() as u64 <= u64::from(END));
            with_losses += usize::from(lost.contains(&true));
        }
        assert!(with_losses > 100, "{with_losses}");
    }

    /// What a look-up of this message says in front of its last slot, of zeros that were sent.
    fn before_its_last_slot(code: Settings, lost: &[bool], number: usize) -> Reply {
        let mut buffer = vec![7; code.k()];
        let mut rows = vec![7; receiver::rows_length(&code)];
        let (mut state, _) = receiver::open(code, 0, &mut rows);
        let frames = broadcast::of(code, &vec![vec![0; code.k()]; lost.len()]);
        for (frame, lost) in frames.iter().zip(lost).take(number + code.t()) {
            state = match lost {
                true => receiver::report_loss(state, &mut rows, &mut buffer).0,
                false => receiver::report_frame(state, &mut rows, frame, &mut buffer).0,
            };
        }
        receiver::look_up(state, &rows, number as i64, &mut buffer).expect("no cause")
    }

    #[test]
    fn of_few_losses_the_first_is_repaired_before_the_last_slot_of_its_message() {
        let mut draws = Draws::of_case(1, 8);
        for code in every_code().into_iter().filter(|code| code.scattered >= 2) {
            let lost = few(&mut draws, &code);
            let count = lost.iter().filter(|lost| **lost).count();
            let first = lost.iter().position(|lost| *lost).expect("a loss");
            assert!(count < usize::from(code.scattered) && lost.len() == first + code.t() + 1);
            if code.t() <= 5 {
                assert_eq!(before_its_last_slot(code, &lost, first), Reply::Whole, "{code:?}");
            }
        }
    }

    /// What message t has lost, in a list of nine slots from the opening on.
    fn of(code: Settings, opened_at: u32, lost: &[u32], t: u32) -> (Losses, Own) {
        let list: Vec<bool> = (opened_at..opened_at + 9).map(|s| lost.contains(&s)).collect();
        losses_of(&code, opened_at, &list, t)
    }

    #[test]
    fn what_a_message_has_lost() {
        // k is 2: of message t slots t − 1 to t + 3 count.
        let code = Settings::of_code(3, 2, 2);
        assert_eq!(of(code, 0, &[], 0), (Losses::None, Own::Heard));
        assert_eq!(of(code, 0, &[0, 6], 2), (Losses::None, Own::Heard));
        assert_eq!(of(code, 0, &[1], 2), (Losses::Burst, Own::Heard));
        assert_eq!(of(code, 0, &[2, 3], 3), (Losses::Burst, Own::Lost));
        assert_eq!(of(code, 0, &[1, 5], 2), (Losses::Others, Own::Heard));
        assert_eq!(of(code, 0, &[2, 4], 2), (Losses::Others, Own::Lost));
        assert_eq!(of(Settings::of_code(3, 2, 1), 0, &[2], 2), (Losses::Burst, Own::LostAndNIs1));
        // Slots before the opening are lost, but for those before 0.
        assert_eq!(of(code, 7, &[], 6), (Losses::Burst, Own::Lost));
        assert_eq!(of(code, 7, &[9], 6), (Losses::Others, Own::Lost));
        assert_eq!(of(code, 7, &[], 7), (Losses::Burst, Own::Heard));
        assert_eq!(of(code, 7, &[], 8), (Losses::None, Own::Heard));
        assert_eq!(of(code, 1, &[], 0), (Losses::Burst, Own::Lost));
    }

    #[test]
    fn when_a_message_is_known() {
        let before = |code: Settings, opened_at: u32, lost: &[usize], t: u32| {
            let list: Vec<bool> = (0..9).map(|slot| lost.contains(&slot)).collect();
            known_before(&code, opened_at, &list, t)
        };
        // k is 2, and T is 3: case 10, a single loss, and slots that are lost behind it.
        let code = Settings::of_code(3, 2, 2);
        assert_eq!([0, 1, 2].map(|t| before(code, 0, &[0, 1], t)), [0, 1, 3]);
        assert_eq!(before(code, 0, &[1], 1), 1);
        assert_eq!(before(code, 0, &[1, 3], 1), 0);
        assert_eq!(before(code, 0, &[1, 4], 1), 1);
        // Opened at slot 7: the list is of slots 7 and later.
        assert_eq!([5, 6, 7].map(|t| before(code, 7, &[], t)), [0, 1, 3]);
        // Where N is 1, k is T.
        let one = Settings::of_code(3, 2, 1);
        assert_eq!([0, 1, 2].map(|t| before(one, 0, &[1], t)), [3, 0, 3]);
    }

    #[test]
    fn one_fade_is_fair_by_the_wider_rule_only() {
        let mut draws = Draws::of_case(1, 1);
        for code in every_code().iter().filter(|code| !fades(code).is_empty()) {
            let lost = one_fade(&mut draws, code);
            let mut due = 0..(lost.len() - code.t()) as u32;
            let wider = due.any(|t| promised_in_a_fade(code, 0, &lost, t));
            assert!(wider, "{code:?} {lost:?}");
        }
    }
}
