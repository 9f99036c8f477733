//! Which bursts of exactly B losses messages met, by code and by where the burst starts beside the
//! message's own slot.

use std::collections::{BTreeMap, BTreeSet};
use std::ops::Range;

use reference::settings::{every_code, Settings};

use crate::report::{code_of, Code};

#[derive(Default)]
pub struct Bursts {
    /// How many slots behind the message's own the burst starts.
    starts: BTreeMap<Code, BTreeSet<i64>>,
    messages: usize,
}

impl Bursts {
    /// One message that was whole, as sent, on time, all being heard but this burst.
    pub fn add(&mut self, settings: &Settings, message: i64, start: i64) {
        let behind = start - message;
        if starts(settings).contains(&behind) {
            self.messages += 1;
            self.starts.entry(code_of(settings)).or_default().insert(behind);
        }
    }

    /// How many codes met a burst at every start.
    pub fn covered(&self) -> usize {
        let met = |code: &Settings| self.starts.get(&code_of(code)).map_or(0, BTreeSet::len);
        every_code().iter().filter(|code| met(code) == starts(code).count()).count()
    }

    pub fn messages(&self) -> usize {
        self.messages
    }
}

/// Where a burst of B starts that loses some of slots t − k + 1 to t + T, counted from t on.
fn starts(settings: &Settings) -> Range<i64> {
    let [k, burst] = [settings.k() as i64, i64::from(settings.burst)];
    2 - k - burst..settings.t() as i64 + 1
}

#[cfg(test)]
mod tests {
    use super::*;

    #[test]
    fn a_code_is_covered_with_a_burst_at_every_start() {
        // k is 2: of message t slots t − 1 to t + 3 count.
        let code = Settings::of_code(3, 2, 2);
        assert!(starts(&code).eq([-2, -1, 0, 1, 2, 3]));
        for without in starts(&code) {
            let mut bursts = Bursts::default();
            for start in starts(&code).filter(|start| *start != without) {
                bursts.add(&code, 9, 9 + start);
            }
            // These lose nothing that counts.
            [-3, 4].into_iter().for_each(|start| bursts.add(&code, 9, 9 + start));
            assert_eq!((bursts.covered(), bursts.messages()), (0, 5));
            bursts.add(&code, 0, without);
            assert_eq!((bursts.covered(), bursts.messages()), (1, 6));
        }
    }
}
