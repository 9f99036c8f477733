//! Which settings are accepted, and the lengths: the neighbours of each bound, and many drawn.

use reference::settings::every_code;

use crate::comparison::{Comparison, Difference};
use crate::draw::Draws;
use crate::model::{bytes_of, STATE};

/// Settings drawn for the length functions.
const DRAWN: usize = 200_000;

pub fn run(comparison: &mut Comparison) -> Result<(), Difference> {
    let mut draws = comparison.case("lengths");
    if tob::calls::state_len() != STATE {
        return Err(comparison.failed(&format!("state_len is {}", tob::calls::state_len())));
    }
    every_small(comparison)?;
    every_triple(comparison)?;
    every_pair(comparison)?;
    for _ in 0..DRAWN {
        let settings = any(&mut draws);
        comparison.lengths(settings)?;
    }
    Ok(())
}

/// T, B and N up to 18, with W and L at their bounds and beside them; and with a window of T + 1 and
/// T set higher.
fn every_small(comparison: &mut Comparison) -> Result<(), Difference> {
    for number in 0..19_usize.pow(3) {
        let [t, b, n] = [number / 361, number / 19 % 19, number % 19].map(|digit| digit as u8);
        let windows = [0, t.saturating_sub(1), t, t + 1, t + 2, 254, 255, b, b + 1].map(|w| [w, t]);
        let higher = [t + 1, t + 2, 254, 255].map(|set| [t + 1, set]);
        for [w, t] in windows.into_iter().chain(higher) {
            for l in [0, 1, 2, 63, 64, 65, 128, 255] {
                comparison.lengths([w, t, b, n, l])?;
            }
        }
    }
    Ok(())
}

/// Every T, B and N of all in the widest window, and every W, B and N where T is set to 255: as
/// many have a length as there are accepted (T, B, N).
fn every_triple(comparison: &mut Comparison) -> Result<(), Difference> {
    let all = || (0..1_u32 << 24).map(u32::to_be_bytes);
    accepted(comparison, all().map(|[_, t, b, n]| [255, t, b, n, 1]), 372)?;
    accepted(comparison, all().map(|[_, w, b, n]| [w, 255, b, n, 1]), 372)
}

/// Every W and T, with B and N of a few codes. A delay from B on has a length while n is at most
/// 16; it is T where W is larger, and W − 1 where T is.
fn every_pair(comparison: &mut Comparison) -> Result<(), Difference> {
    for [b, n] in [[1, 1], [2, 1], [3, 3], [8, 1], [15, 15]] {
        let all = (0..=u16::MAX).map(u16::to_be_bytes);
        let delays = usize::from(b)..=usize::from(15 + n - b);
        let due = delays.map(|delay| 2 * (255 - delay)).sum();
        accepted(comparison, all.map(|[w, t]| [w, t, b, n, 1]), due)?;
    }
    Ok(())
}

/// Of these settings so many have lengths.
fn accepted(
    comparison: &mut Comparison,
    all: impl Iterator<Item = [u8; 5]>,
    due: usize,
) -> Result<(), Difference> {
    let mut found = 0;
    for settings in all {
        found += usize::from(comparison.lengths(settings)? != [0; 4]);
    }
    match found == due {
        true => Ok(()),
        false => Err(comparison.failed(&format!("{found} accepted settings, and not {due}"))),
    }
}

/// Five bytes: any, or accepted ones, or accepted ones with one or two changed.
pub fn any(draws: &mut Draws) -> [u8; 5] {
    let codes = every_code();
    let code = draws.one_of(&codes);
    let lanes = draws.below(64) as u8 + 1;
    let mut bytes = bytes_of(&super::settings(draws, &code, lanes));
    match draws.below(8) {
        0 => bytes = std::array::from_fn(|_| draws.byte()),
        1 => (),
        2 => wrapped(draws, &mut bytes),
        changes => {
            for _ in 0..1 + changes % 2 {
                let place = draws.below(5);
                bytes[place] = beside(draws, &bytes, place);
            }
        }
    }
    bytes
}

/// T − N + 1 + B is small if only eight bits of it are kept, with T as set or W − 1 for T.
fn wrapped(draws: &mut Draws, bytes: &mut [u8; 5]) {
    let scattered = draws.below(120) as u8 + 1;
    let burst = scattered + draws.below(8) as u8;
    let kept = draws.below(18) as u8;
    let delay = kept.wrapping_add(scattered).wrapping_sub(burst).wrapping_sub(1);
    let [w, t] = draws.one_of(&[[255, delay], [delay.wrapping_add(1), 255]]);
    bytes[..4].copy_from_slice(&[w, t, burst, scattered]);
}

/// A byte beside this one, beside another setting, at a bound, or any.
fn beside(draws: &mut Draws, bytes: &[u8; 5], place: usize) -> u8 {
    let other = bytes[draws.below(5)];
    let near = [bytes[place], other].map(|byte| [byte.wrapping_sub(1), byte, byte.wrapping_add(1)]);
    let bounds = [0, 1, 15, 16, 64, 65, 255, draws.byte()];
    draws.one_of(&[&near.concat()[..], &bounds].concat())
}
