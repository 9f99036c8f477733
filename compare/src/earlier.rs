//! A small table: how many slots earlier than by its report a message is known by look-ups.
//! It counts messages of drawn meetings with a sender's own frames, due under fair losses: their
//! reports, T slots behind their own, hand them out whole. Every message in reach is looked up
//! after each report. One that is whole from the report of slot s on is known t + T − s slots
//! earlier: T slots if s is its own slot, and 0 if only its own report tells it.

use std::collections::BTreeMap;

use crate::report::grouped;

/// The fair losses among slots t − k + 1 to t + T, which are all that counts for message t.
#[derive(Clone, Copy, Debug, PartialEq, Eq, PartialOrd, Ord)]
pub enum Losses {
    None,
    /// One unbroken run, of one slot or more.
    Burst,
    Others,
}

/// The message's own slot. Where it is lost and N is 1, only the last slot repairs the message.
#[derive(Clone, Copy, Debug, PartialEq, Eq, PartialOrd, Ord)]
pub enum Own {
    Heard,
    LostAndNIs1,
    Lost,
}

/// What is added up of the messages of a row.
struct Sums {
    messages: usize,
    delays: usize,
    earlier: usize,
    known_earlier: usize,
    least: usize,
    greatest: usize,
}

const NONE: Sums =
    Sums { messages: 0, delays: 0, earlier: 0, known_earlier: 0, least: usize::MAX, greatest: 0 };

const HEAD: &str = "\
slots by which look-ups know a message before its report:
| losses | own slot | messages | mean T | slots earlier, mean | least | most | known earlier |
|---|---|--:|--:|--:|--:|--:|--:|";

#[derive(Default)]
pub struct Earlier {
    rows: BTreeMap<(Losses, Own), Sums>,
}

impl Earlier {
    /// One message: its T, and how many slots earlier it was known.
    pub fn add(&mut self, row: (Losses, Own), delay: usize, earlier: usize) {
        let sums = self.rows.entry(row).or_insert(NONE);
        sums.messages += 1;
        sums.delays += delay;
        sums.earlier += earlier;
        sums.known_earlier += usize::from(earlier > 0);
        sums.least = sums.least.min(earlier);
        sums.greatest = sums.greatest.max(earlier);
    }

    pub fn text(&self) -> String {
        let rows = self.rows.iter().map(|(row, sums)| line(*row, sums));
        [HEAD.to_string()].into_iter().chain(rows).collect::<Vec<_>>().join("\n")
    }
}

fn line((losses, own): (Losses, Own), sums: &Sums) -> String {
    let losses = match losses {
        Losses::None => "none",
        Losses::Burst => "one burst",
        Losses::Others => "other fair ones",
    };
    let own = match own {
        Own::Heard => "heard",
        Own::LostAndNIs1 => "lost, N = 1",
        Own::Lost => "lost, N > 1",
    };
    let Sums { messages, least, greatest, .. } = *sums;
    let mean = |sum: usize| sum as f64 / messages as f64;
    let [delay, earlier] = [sums.delays, sums.earlier].map(|sum| format!("{:.1}", mean(sum)));
    let share = format!("{:.0} %", 100.0 * mean(sums.known_earlier));
    let messages = grouped(messages);
    format!(
        "| {losses} | {own} | {messages} | {delay} | {earlier} | {least} | {greatest} | {share} |"
    )
}

#[cfg(test)]
mod tests {
    use super::*;

    #[test]
    fn a_row_has_means_bounds_and_a_share() {
        let mut table = Earlier::default();
        for earlier in [0, 0, 1, 3] {
            table.add((Losses::Burst, Own::Lost), 4 + earlier, earlier);
        }
        table.add((Losses::Burst, Own::LostAndNIs1), 9, 0);
        table.add((Losses::None, Own::Heard), 9, 9);
        let rows = [
            "| none | heard | 1 | 9.0 | 9.0 | 9 | 9 | 100 % |",
            "| one burst | lost, N = 1 | 1 | 9.0 | 0.0 | 0 | 0 | 0 % |",
            "| one burst | lost, N > 1 | 4 | 5.0 | 1.0 | 0 | 3 | 50 % |",
        ];
        assert_eq!(table.text(), format!("{HEAD}\n{}", rows.join("\n")));
    }
}
