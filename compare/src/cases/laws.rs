//! The laws of look-ups and reports with a sender's own frames (document 02 §6), beside the
//! comparison: no clash; whole bytes are the message as sent; once whole stays whole.

use std::collections::BTreeMap;

/// Which messages are known, and since when.
#[derive(Default)]
pub struct Known {
    /// For each message that a look-up said to be whole, the slot due at the first of these.
    since: BTreeMap<i64, u32>,
}

/// What a look-up or a report said of a message that was sent.
pub struct Said<'a> {
    pub number: i64,
    pub reply: u32,
    pub bytes: &'a [u8],
    pub sent: &'a [u8],
}

impl Known {
    /// What is against a law. Bytes that are the message as sent are the same each time.
    pub fn against(&self, said: &Said) -> Option<String> {
        let text = match said.reply {
            17 if said.bytes == said.sent => return None,
            17 => "is whole, and not as sent",
            18 if self.since.contains_key(&said.number) => "was whole, and is lost",
            18 => return None,
            19 => "clashes, with a sender's own frames",
            _ => "has no verdict",
        };
        Some(format!("message {} {text}", said.number))
    }

    /// A look-up that said whole, with its slot due.
    pub fn add(&mut self, number: i64, due: u32) {
        self.since.entry(number).or_insert(due);
    }

    /// How many slots earlier a message was known than at the report that made this the slot due.
    /// It is out of reach from then on.
    pub fn earlier(&mut self, number: i64, due: u32) -> usize {
        self.since.remove(&number).map_or(0, |since| (due - since) as usize)
    }
}

#[cfg(test)]
mod tests {
    use super::*;

    const SENT: [u8; 2] = [1, 2];

    fn said(number: i64, reply: u32, bytes: &[u8]) -> Said<'_> {
        Said { number, reply, bytes, sent: &SENT }
    }

    #[test]
    fn each_law_can_be_broken() {
        let mut known = Known::default();
        let zeros = [0, 0];
        let broken = |known: &Known, said: Said| known.against(&said).is_some();
        assert!(!broken(&known, said(5, 17, &SENT)));
        assert!(broken(&known, said(5, 17, &[1, 3])));
        assert!(broken(&known, said(5, 19, &zeros)));
        assert!(broken(&known, said(5, 16, &zeros)));
        assert!(!broken(&known, said(5, 18, &zeros)));
        known.add(5, 9);
        assert!(broken(&known, said(5, 18, &zeros)));
        assert!(!broken(&known, said(6, 18, &zeros)));
        assert!(!broken(&known, said(5, 17, &SENT)));
    }

    #[test]
    fn earlier_counts_from_the_first_look_up_that_was_whole() {
        let mut known = Known::default();
        known.add(5, 7);
        known.add(5, 8);
        // Of T = 4: slot 9 makes slot 10 due.
        assert_eq!(known.earlier(5, 10), 3);
        assert_eq!(known.earlier(5, 10), 0);
        assert_eq!(known.earlier(6, 11), 0);
    }
}
