//! What was met: the calls of each kind with their replies, and the codes covered.

use std::collections::{BTreeMap, BTreeSet};

use reference::settings::{every_code, Settings};

use crate::bursts::Bursts;
use crate::call::Kind;
use crate::earlier::Earlier;
use crate::lanes::{Lanes, LANES};
use crate::look_ups::LookUps;
use crate::pairs::Pairs;
use crate::slots::Slots;

/// Every number that a call can reply; a comparison that never met one of them proves little.
const REPLIES: [u32; 15] = [0, 1, 2, 3, 4, 5, 6, 7, 8, 9, 10, 16, 17, 18, 19];

/// The number of accepted (T, B, N).
const CODES: usize = 372;

pub type Code = (u8, u8, u8);

/// How often each code met something.
pub type Counts = BTreeMap<Code, usize>;

/// The accepted replies of each kind of call that codes have met.
type Accepted = BTreeMap<Code, BTreeSet<(Kind, u32)>>;

/// What there is to say of a message that was promised.
#[derive(Clone, Copy, Default)]
pub struct Promise {
    /// It was promised by the wider rule only.
    pub in_a_fade: bool,
    /// It was sent before the slot at which the receiver was opened.
    pub earlier: bool,
    /// That opening left no row received.
    pub no_row: bool,
    /// Its own slot was lost.
    pub recovered: bool,
}

#[derive(Default)]
pub struct Met {
    replies: BTreeMap<(Kind, u32), usize>,
    codes: Accepted,
    /// Those with a window at or below T as set.
    short: Accepted,
    pub lanes: Lanes,
    windows: BTreeSet<u8>,
    /// T as set.
    delays: BTreeSet<u8>,
    /// Settings handed to the four length functions.
    pub lengths: usize,
    /// Messages due under fair losses; each was handed out whole, as sent.
    fair: usize,
    /// How many of them were promised by the wider rule only, by code.
    fades: Counts,
    /// How many of them were of slots before the opening, by code.
    before_opening: Counts,
    /// How many of those behind an opening that left no row received, by code.
    before_opening_with_no_row: Counts,
    /// How many of the messages had their own slot lost, where the window was at or below T as set,
    /// by code.
    recovered_when_short: Counts,
    /// The same where there were as many lanes as there can be.
    recovered_with_every_lane: Counts,
    pub bursts: Bursts,
    pub slots: Slots,
    pub look_ups: LookUps,
    pub pairs: Pairs,
    pub earlier: Earlier,
}

impl Met {
    /// One call and its reply; the settings are those lent on their own or those of the state or of
    /// the frame, which may tell its slot with any.
    pub fn add(&mut self, kind: Kind, reply: u32, settings: Option<Settings>) {
        *self.replies.entry((kind, reply)).or_default() += 1;
        let settings = settings.filter(Settings::accepted);
        if let (true, Some(s)) = (matches!(reply, 0 | 16..=19), settings) {
            self.codes.entry(code_of(&s)).or_default().insert((kind, reply));
            if is_short(&s) {
                self.short.entry(code_of(&s)).or_default().insert((kind, reply));
            }
            self.lanes.add(kind, reply, &s);
            self.windows.insert(s.window);
            self.delays.insert(s.delay);
        }
    }

    /// One message that was promised, and was whole, as sent.
    pub fn add_promised(&mut self, settings: &Settings, promise: Promise) {
        self.fair += 1;
        for (holds, counts) in [
            (promise.in_a_fade, &mut self.fades),
            (promise.earlier, &mut self.before_opening),
            (promise.earlier && promise.no_row, &mut self.before_opening_with_no_row),
            (promise.recovered && is_short(settings), &mut self.recovered_when_short),
            (promise.recovered && settings.lanes == LANES, &mut self.recovered_with_every_lane),
        ] {
            if holds {
                *counts.entry(code_of(settings)).or_default() += 1;
            }
        }
    }

    /// Each kind of promise that some codes can have: what it is called, how often each code met
    /// it, and how many codes there are that can.
    fn promises(&self) -> [(&'static str, &Counts, usize); 5] {
        [
            ("promised by the wider rule only", &self.fades, with_fades()),
            ("of slots before the opening", &self.before_opening, every_code().len()),
            (
                "of slots before an opening that left no row received",
                &self.before_opening_with_no_row,
                with_long_bursts(),
            ),
            (
                "of a lost slot, with a window at or below T as set",
                &self.recovered_when_short,
                every_code().len(),
            ),
            ("of a lost slot, with 64 lanes", &self.recovered_with_every_lane, every_code().len()),
        ]
    }

    /// The same of what look-ups and pairs of recordings must have met, each behind its kind.
    fn demands(&self) -> Vec<(&'static str, &'static str, &Counts, usize)> {
        let look_ups = self.look_ups.demands();
        let look_ups = look_ups.map(|(name, counts, count)| ("look-up", name, counts, count));
        let pairs = self.pairs.demands();
        let pairs = pairs.map(|(name, counts, count)| ("pair", name, counts, count));
        look_ups.into_iter().chain(pairs).collect()
    }

    pub fn calls(&self) -> usize {
        self.replies.values().sum()
    }

    fn of_kind(&self, kind: Kind) -> usize {
        self.replies.iter().filter(|((of, _), _)| *of == kind).map(|(_, count)| count).sum()
    }

    fn of_reply(&self, reply: u32) -> usize {
        self.replies.iter().filter(|((_, of), _)| *of == reply).map(|(_, count)| count).sum()
    }

    /// What the codes met with any window, and what they met with a short one.
    fn by_window(&self) -> [(&'static str, &Accepted); 2] {
        [("accepted", &self.codes), ("accepted with a window at or below T as set", &self.short)]
    }

    /// The counts, for a reader to judge.
    pub fn text(&self) -> String {
        let mut lines = Vec::new();
        for kind in Kind::ALL {
            let of_kind = self.replies.iter().filter(|((of, _), _)| *of == kind);
            let each = of_kind.map(|((_, reply), count)| format!(" {reply}: {}", grouped(*count)));
            let each = each.collect::<Vec<_>>().join(",");
            lines.push(format!("{}: {} calls;{each}", kind.name(), grouped(self.of_kind(kind))));
        }
        for reply in REPLIES {
            lines.push(format!("reply {reply}: {}", grouped(self.of_reply(reply))));
        }
        lines.push(format!("settings handed to the length functions: {}", grouped(self.lengths)));
        lines.push(format!("messages due under fair losses, all whole: {}", grouped(self.fair)));
        for (name, counts, _) in self.promises() {
            let (messages, codes) = (grouped(counts.values().sum()), counts.len());
            lines.push(format!("of these, {name}: {messages}, of {codes} (T, B, N)"));
        }
        for (kind, name, counts, _) in self.demands() {
            let (calls, codes) = (grouped(counts.values().sum()), counts.len());
            lines.push(format!("{kind}s {name}: {calls}, of {codes} (T, B, N)"));
        }
        lines.push(self.pairs.text());
        lines.push(self.slots.text());
        lines.push(self.lanes.text());
        let (messages, codes) = (grouped(self.bursts.messages()), self.bursts.covered());
        lines.push(format!(
            "messages with one burst of B: {messages}; (T, B, N) with every start: {codes}"
        ));
        let [w, t] = [&self.windows, &self.delays].map(BTreeSet::len);
        lines.push(format!("different W: {w}; different T as set: {t}"));
        for (name, codes) in self.by_window() {
            let (met, covered) = (codes.len(), covered(codes));
            lines.push(format!("(T, B, N) {name}: {met}; with every accepted reply: {covered}"));
        }
        lines.join("\n")
    }

    /// What is missing for the comparison to count.
    pub fn missing(&self) -> Vec<String> {
        let mut missing = Vec::new();
        let mut due = |holds: bool, text: String| {
            if !holds {
                missing.push(text);
            }
        };
        for reply in REPLIES {
            due(self.of_reply(reply) > 0, format!("reply {reply} was never seen"));
        }
        for (kind, cause) in Kind::ALL.into_iter().flat_map(refusals) {
            let met = self.replies.contains_key(&(kind, cause));
            due(met, format!("{} was never refused with {cause}", kind.name()));
        }
        let count = every_code().len();
        due(count == CODES, format!("{count} accepted (T, B, N), and not {CODES}"));
        for (name, codes) in self.by_window() {
            let (met, covered) = (codes.len(), covered(codes));
            due(met == CODES, format!("{met} (T, B, N) {name}, and not {CODES}"));
            due(covered == CODES, format!("{covered} (T, B, N) {name} met every accepted reply"));
        }
        for (name, counts, count) in self.promises() {
            let met = counts.len();
            due(met == count, format!("{met} (T, B, N) had a message {name}, and not {count}"));
        }
        for (kind, name, counts, count) in self.demands() {
            let met = counts.len();
            due(met == count, format!("{met} (T, B, N) had a {kind} {name}, and not {count}"));
        }
        let met = self.bursts.covered();
        due(
            met == CODES,
            format!("{met} (T, B, N) had a burst of B at every start, and not {CODES}"),
        );
        due(self.lengths > 0 && self.fair > 0, "a part did not run".to_string());
        [missing, self.pairs.missing(), self.slots.missing(), self.lanes.missing()].concat()
    }
}

/// T is here the delay.
pub fn code_of(settings: &Settings) -> Code {
    (settings.t() as u8, settings.burst, settings.scattered)
}

/// Whether the window is at or below T as set: it alone makes the delay then.
fn is_short(settings: &Settings) -> bool {
    settings.window <= settings.delay
}

/// The codes that met each accepted reply that they can, of each kind of call.
fn covered(codes: &Accepted) -> usize {
    codes.iter().filter(|(code, met)| **met == accepted(**code)).count()
}

/// How many codes have fades of more than N losses in which a frame is heard.
fn with_fades() -> usize {
    every_code().iter().filter(|code| code.scattered + 2 <= code.burst).count()
}

/// How many codes can recover a message from before an opening that leaves no row received: the
/// last such message misses at least k slots. (Behind an opening at slot 1 message 0 misses one
/// alone, which every code recovers.)
fn with_long_bursts() -> usize {
    every_code().iter().filter(|code| code.k() <= usize::from(code.burst)).count()
}

/// Each cause that document 01's table and document 02 §3, §6 and §7 have for a kind of call, and
/// those of the two calls that tell a slot.
fn refusals(kind: Kind) -> impl Iterator<Item = (Kind, u32)> {
    let causes: &[u32] = match kind {
        Kind::OpenSender | Kind::OpenReceiver => &[1, 2],
        Kind::OpenReceiverAt => &[1, 2, 7],
        Kind::Send | Kind::Lost => &[1, 2, 3],
        Kind::Heard => &[1, 2, 3, 4, 5, 6],
        Kind::LookUp => &[1, 2, 3, 8],
        Kind::PairCause => &[1, 2, 4, 5, 9, 10],
        Kind::SlotDue => &[1, 2],
        Kind::FrameSlot => &[2, 4],
    };
    causes.iter().map(move |cause| (kind, *cause))
}

/// Whether the frame of slot t + T alone tells message t: k is 1, or the code only repeats.
pub fn told_by_last_frame((delay, burst, scattered): Code) -> bool {
    delay == scattered || (delay == burst && scattered == 1)
}

/// The accepted replies that calls with a code can give.
fn accepted(code: Code) -> BTreeSet<(Kind, u32)> {
    let reports = (16..=19).flat_map(|reply| [(Kind::Heard, reply), (Kind::Lost, reply)]);
    let openings = [Kind::OpenSender, Kind::OpenReceiver, Kind::OpenReceiverAt];
    let others = [Kind::Send, Kind::PairCause, Kind::SlotDue, Kind::FrameSlot];
    let others = openings.into_iter().chain(others).map(|kind| (kind, 0));
    let look_ups = (17..=19).map(|reply| (Kind::LookUp, reply));
    let mut replies: BTreeSet<_> = reports.chain(others).chain(look_ups).collect();
    if told_by_last_frame(code) {
        replies.remove(&(Kind::Heard, 18));
    }
    // Here the frame of slot t is then all that is known of message t, and in a look-up as well.
    if code.0 == 1 {
        replies.remove(&(Kind::Lost, 19));
        replies.remove(&(Kind::LookUp, 19));
    }
    replies
}

/// Decimal, with a comma before each three digits.
pub fn grouped(number: usize) -> String {
    if number < 1000 {
        return number.to_string();
    }
    format!("{},{:03}", grouped(number / 1000), number % 1000)
}

#[cfg(test)]
mod tests {
    use reference::state::ReceiverState;

    use super::*;

    #[test]
    fn a_comparison_that_met_nothing_does_not_count() {
        assert!(Met::default().missing().len() > REPLIES.len());
    }

    /// A kind of promise is missing until every one of these codes met one.
    fn missing_until_met(name: &str, codes: impl Iterator<Item = Settings>, promise: Promise) {
        let name = format!("had a message {name},");
        let missing = |met: &Met| met.missing().iter().any(|text| text.contains(&name));
        let mut met = Met::default();
        for code in codes {
            assert!(missing(&met));
            met.add_promised(&code, Promise::default());
            assert!(missing(&met));
            met.add_promised(&code, promise);
        }
        assert!(!missing(&met));
    }

    #[test]
    fn a_fade_is_missing_until_every_code_that_has_them_met_one() {
        let codes = every_code().into_iter().filter(|code| code.scattered + 2 <= code.burst);
        let promise = Promise { in_a_fade: true, ..Promise::default() };
        missing_until_met("promised by the wider rule only", codes, promise);
    }

    #[test]
    fn an_earlier_message_is_missing_until_every_code_that_can_met_one() {
        let promise = Promise { earlier: true, ..Promise::default() };
        missing_until_met("of slots before the opening", every_code().into_iter(), promise);
        let codes = every_code().into_iter().filter(|code| code.k() <= usize::from(code.burst));
        let promise = Promise { no_row: true, ..promise };
        let name = "of slots before an opening that left no row received";
        missing_until_met(name, codes, promise);
        assert_eq!(with_long_bursts(), 204);
    }

    /// A code with its window at or below T as set.
    fn short(code: Settings) -> Settings {
        Settings { delay: 255, ..code }
    }

    #[test]
    fn a_recovery_with_a_short_window_is_missing_until_every_code_met_one() {
        let name = "of a lost slot, with a window at or below T as set";
        let promise = Promise { recovered: true, ..Promise::default() };
        missing_until_met(name, every_code().into_iter().map(short), promise);
        let mut met = Met::default();
        every_code().iter().for_each(|code| met.add_promised(code, promise));
        assert!(met.recovered_when_short.is_empty());
    }

    #[test]
    fn a_recovery_with_64_lanes_is_missing_until_every_code_met_one() {
        let name = "of a lost slot, with 64 lanes";
        let promise = Promise { recovered: true, ..Promise::default() };
        let wide = |code: Settings| Settings { lanes: 64, ..code };
        missing_until_met(name, every_code().into_iter().map(wide), promise);
        let mut met = Met::default();
        every_code().iter().for_each(|code| met.add_promised(code, promise));
        assert!(met.recovered_with_every_lane.is_empty());
    }

    #[test]
    fn bursts_lanes_and_slots_are_missing_until_they_were_met() {
        let missing = Met::default().missing();
        let of = |text: &str| missing.iter().filter(|missing| missing.contains(text)).count();
        assert_eq!(of("had a burst of B at every start"), 1);
        assert_eq!((of("k and L of"), of("by damage of that lane alone")), (7, 2));
        assert_eq!(of("of states and of frames"), 2);
    }

    #[test]
    fn a_frame_that_tells_its_slot_counts_for_a_code_where_its_settings_are_accepted() {
        let mut met = Met::default();
        met.add(Kind::FrameSlot, 0, Some(Settings::ZEROS));
        assert_eq!((met.calls(), met.codes.len()), (1, 0));
        met.add(Kind::FrameSlot, 0, Some(Settings::of_code(3, 2, 2)));
        assert_eq!((met.calls(), met.codes.len()), (2, 1));
    }

    #[test]
    fn a_short_window_is_missing_until_every_code_met_every_reply_with_one() {
        let missing = |met: &Met| {
            let texts = met.missing();
            texts.iter().filter(|text| text.contains("accepted with a window")).count()
        };
        let add = |met: &mut Met, settings: Settings| {
            let replies = accepted(code_of(&settings));
            replies.iter().for_each(|&(kind, reply)| met.add(kind, reply, Some(settings)));
        };
        let mut met = Met::default();
        every_code().into_iter().for_each(|code| add(&mut met, code));
        assert_eq!((missing(&met), covered(&met.codes)), (2, CODES));
        for code in every_code() {
            assert_eq!(missing(&met), 2);
            add(&mut met, short(code));
        }
        assert_eq!((missing(&met), covered(&met.short)), (0, CODES));
    }

    /// A kind of look-up is missing until every one of these codes met one.
    fn look_up_missing_until_met(
        name: &str,
        codes: impl Iterator<Item = Settings>,
        add: fn(&mut LookUps, Settings),
    ) {
        let missing = |met: &Met| {
            let texts = met.missing();
            texts.iter().any(|text| text.contains("had a look-up") && text.contains(name))
        };
        let mut met = Met::default();
        for code in codes {
            assert!(missing(&met), "{name}");
            add(&mut met.look_ups, code);
        }
        assert!(!missing(&met), "{name}");
    }

    /// A look-up that was refused with 8, of a number so many below the slot due.
    fn refused(look_ups: &mut LookUps, settings: Settings, due: u32, below: usize) {
        let state = ReceiverState { settings, opened_at: 0, due };
        look_ups.add_out_of_reach(&state, i64::from(due) - below as i64);
    }

    #[test]
    fn a_look_up_is_missing_until_every_code_that_can_met_it() {
        let every = || every_code().into_iter();
        look_up_missing_until_met("below due − T alone", every(), |look_ups, code| {
            refused(look_ups, code, 99, 100);
            refused(look_ups, code, 99, code.t() + 1);
        });
        look_up_missing_until_met("below 0 alone", every(), |look_ups, code| {
            refused(look_ups, code, 0, 1);
        });
        look_up_missing_until_met("not being below due", every(), |look_ups, code| {
            refused(look_ups, code, 7, 0);
        });
        look_up_missing_until_met("T as set would reach", every().map(short), |look_ups, code| {
            refused(look_ups, code, 300, code.t() + 1);
        });
        let repaired = every().filter(|code| code.scattered >= 2);
        look_up_missing_until_met("its own being lost", repaired, |look_ups, code| {
            look_ups.add_repaired(&code);
        });
    }

    #[test]
    fn each_number_of_a_pair_is_missing_until_every_code_met_it() {
        let missing = |met: &Met| {
            let texts = met.missing();
            texts.iter().filter(|text| text.contains("had a pair")).count()
        };
        let mut met = Met::default();
        for code in every_code() {
            assert_eq!(missing(&met), 6);
            for number in [0, 2, 4, 5, 9, 10] {
                met.pairs.add(&code, [&[], &[]], number);
            }
        }
        assert_eq!(missing(&met), 0);
    }

    #[test]
    fn each_cause_of_each_kind_of_call_is_missing_until_it_was_met() {
        let mut met = Met::default();
        for (kind, cause) in Kind::ALL.into_iter().flat_map(refusals) {
            let text = format!("{} was never refused with {cause}", kind.name());
            assert!(met.missing().contains(&text));
            met.add(kind, cause, None);
            assert!(!met.missing().contains(&text));
        }
        assert!(refusals(Kind::LookUp).map(|(_, cause)| cause).eq([1, 2, 3, 8]));
        assert!(refusals(Kind::PairCause).map(|(_, cause)| cause).eq([1, 2, 4, 5, 9, 10]));
        assert!(refusals(Kind::SlotDue).map(|(_, cause)| cause).eq([1, 2]));
        assert!(refusals(Kind::FrameSlot).map(|(_, cause)| cause).eq([2, 4]));
    }

    #[test]
    fn a_code_is_covered_with_every_verdict_of_a_look_up() {
        let code = Settings::of_code(3, 2, 2);
        for without in 17..=19 {
            let mut met = Met::default();
            for (kind, reply) in accepted(code_of(&code)) {
                if (kind, reply) != (Kind::LookUp, without) {
                    met.add(kind, reply, Some(code));
                }
            }
            assert_eq!(covered(&met.codes), 0);
            met.add(Kind::LookUp, without, Some(code));
            assert_eq!(covered(&met.codes), 1);
        }
        // With T = 1 nothing behind slot t is known before the report, and nothing can clash.
        assert!(!accepted((1, 1, 1)).contains(&(Kind::LookUp, 19)));
        assert!(accepted((2, 1, 1)).contains(&(Kind::LookUp, 19)));
    }

    #[test]
    fn thousands_are_set_apart() {
        assert_eq!([0, 999, 1000, 1234567].map(grouped), ["0", "999", "1,000", "1,234,567"]);
    }
}
