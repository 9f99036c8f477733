//! Document 02 §6: the look-up. Its causes, the card's meetings slot by slot, rows that hold older
//! slots, all words tried for small codes, and drawn meetings with a sender's own frames.

#![forbid(unsafe_code)]

use reference::broadcast::{self, Frames};
use reference::drawn::set_higher;
use reference::field::Byte;
use reference::frame::{self, message_length};
use reference::patterns::Draws;
use reference::play::hex;
use reference::receiver::{self, row_count, row_length, Reply};
use reference::settings::{every_code, Settings};
use reference::state::{ReceiverState, END};

/// Bytes that no call of these tests writes, to see what was written and what was not.
const FILL: u8 = 0xA5;

/// (3,2,2) with L = 1: messages of 2 bytes, and 5 rows of 5.
fn card() -> Settings {
    Settings::of_code(3, 2, 2)
}

/// A reply with the message buffer, or the number of the cause.
type Said = Result<(Reply, Vec<u8>), u8>;

/// A receiver with its rows.
#[derive(Clone)]
struct Receiver {
    state: ReceiverState,
    rows: Vec<u8>,
}

impl Receiver {
    fn open(settings: Settings, slot: u32) -> Receiver {
        let mut rows = vec![FILL; receiver::rows_length(&settings)];
        let (state, opened) = receiver::open(settings, slot, &mut rows);
        assert_eq!(opened, Ok(()));
        Receiver { state, rows }
    }

    /// The same rows with another slot due.
    fn with_due(&self, due: u32) -> Receiver {
        Receiver { state: ReceiverState { due, ..self.state }, rows: self.rows.clone() }
    }

    /// A frame, or `None` for a loss.
    fn report(&mut self, heard: Option<&[u8]>) -> (Reply, Vec<u8>) {
        let mut message = vec![FILL; message_length(&self.state.settings)];
        let (state, reply) = match heard {
            Some(frame) => receiver::report_frame(self.state, &mut self.rows, frame, &mut message),
            None => receiver::report_loss(self.state, &mut self.rows, &mut message),
        };
        self.state = state;
        (reply.expect("an accepted report"), message)
    }

    /// A refused look-up has left the buffer, and an accepted one never says "none yet".
    fn look_up(&self, number: i64) -> Said {
        let untouched = vec![FILL; message_length(&self.state.settings)];
        let mut message = untouched.clone();
        match receiver::look_up(self.state, &self.rows, number, &mut message) {
            Ok(Reply::NoneYet) => panic!("none yet of {number}"),
            Ok(reply) => Ok((reply, message)),
            Err(refusal) => {
                assert_eq!(message, untouched);
                Err(refusal.number())
            }
        }
    }

    /// What the look-ups of messages 0 to 4 say: the bytes of a whole one, or the cause's number.
    fn of_messages_0_to_4(&self) -> String {
        let text = |number: i64| match self.look_up(number) {
            Ok((Reply::Whole, message)) => hex(&message),
            Ok((reply, message)) => {
                assert_eq!(message, [0, 0]);
                format!("{reply:?}").to_lowercase()
            }
            Err(number) => number.to_string(),
        };
        (0..5).map(text).collect::<Vec<String>>().join(" ")
    }
}

// The causes.

/// The number with which a look-up is refused, the buffer being left as it was.
fn refused(state: ReceiverState, rows: usize, number: i64, message: usize) -> u8 {
    let (rows, mut buffer) = (vec![FILL; rows], vec![FILL; message]);
    let reply = receiver::look_up(state, &rows, number, &mut buffer);
    assert_eq!(buffer, vec![FILL; message]);
    reply.expect_err("a refusal").number()
}

#[test]
fn a_look_up_is_refused_with_1_before_2_before_3_before_8() {
    let open = ReceiverState { settings: card(), opened_at: 0, due: 9 };
    let bad = Settings { scattered: 0, ..card() };
    let inside = [6, 7, 8];
    let outside = [i64::MIN, -1, 0, 5, 9, 10, i64::MAX];
    for number in inside.into_iter().chain(outside) {
        for due in [0, 9, 4_000_000_000, u32::MAX] {
            let state = ReceiverState { due, ..open };
            let broken = ReceiverState { settings: bad, ..state };
            for (rows, message) in [(25, 2), (24, 2), (25, 3), (0, 0)] {
                assert_eq!(refused(broken, rows, number, message), 1);
            }
            for (rows, message) in [(24, 2), (26, 2), (0, 2), (25, 1), (25, 3), (25, 0)] {
                assert_eq!(refused(state, rows, number, message), 2);
            }
        }
        for due in [4_000_000_000, 4_000_000_001, u32::MAX] {
            let ended = ReceiverState { due, ..open };
            assert_eq!(refused(ended, 25, number, 2), 3);
            assert_eq!(refused(ended, 25, i64::from(due) - 1, 2), 3);
        }
    }
    assert!(outside.iter().all(|&number| refused(open, 25, number, 2) == 8));
    let receiver = Receiver::open(card(), 0).with_due(9);
    assert!(inside.iter().all(|&number| receiver.look_up(number).is_ok()));
}

/// Numbers at the ends of what may be looked up, at the ends of all numbers, and between.
fn numbers(delay: i64, due: i64) -> Vec<i64> {
    let ends = [0, due - delay, due, due + delay];
    let near = ends.into_iter().flat_map(|end| [end - 2, end - 1, end, end + 1]);
    near.chain([i64::MIN, i64::MIN + 1, i64::MAX - 1, i64::MAX]).collect()
}

/// The numbers that aren't refused, among those near an end; the others are refused with 8.
fn accepted(settings: Settings, due: u32) -> Vec<i64> {
    let receiver = Receiver::open(settings, due);
    let mut accepted = numbers(settings.t() as i64, due.into());
    accepted.retain(|&number| {
        let said = receiver.look_up(number);
        assert!(said.is_ok() || said == Err(8), "{settings:?} {due} {number} {said:?}");
        said.is_ok()
    });
    accepted.sort_unstable();
    accepted.dedup();
    accepted
}

#[test]
fn a_look_up_is_of_the_last_t_messages_before_the_slot_due() {
    // T = 3: below slot 3 there are fewer, and at slot 0 there is none.
    let of_card: [(u32, &[i64]); 8] = [
        (0, &[]),
        (1, &[0]),
        (2, &[0, 1]),
        (3, &[0, 1, 2]),
        (4, &[1, 2, 3]),
        (5, &[2, 3, 4]),
        (2_000_000_000, &[1_999_999_997, 1_999_999_998, 1_999_999_999]),
        (3_999_999_999, &[3_999_999_996, 3_999_999_997, 3_999_999_998]),
    ];
    for (due, expected) in of_card {
        assert_eq!(accepted(card(), due), expected, "{due}");
    }
    // W = 3 and T = 9 work as T = 2, and T = 255 in the card's window as T = 3.
    let short = Settings { window: 3, ..Settings::of_code(9, 2, 1) };
    let of_short = [vec![], vec![0], vec![0, 1], vec![8, 9]];
    assert_eq!([0, 1, 2, 10].map(|due| accepted(short, due)), of_short);
    let highest = Settings { delay: 255, ..card() };
    assert_eq!([2, 4, 300].map(|due| accepted(highest, due).len()), [2, 3, 3]);
    assert_eq!(accepted(highest, 300)[0], 297);
}

#[test]
fn the_numbers_of_every_code_go_by_its_delay() {
    let mut draws = Draws::from(20261133);
    for code in every_code() {
        let settings = set_higher(&mut draws, code);
        let delay = code.t() as i64;
        for due in [delay - 1, delay, delay + 1, 3_999_999_999] {
            let mut expected = numbers(delay, due);
            expected.retain(|&number| 0 <= number && due - delay <= number && number < due);
            expected.sort_unstable();
            expected.dedup();
            assert_eq!(accepted(settings, due as u32), expected, "{settings:?} {due}");
        }
    }
}

#[test]
fn any_opening_slot_is_no_cause_and_makes_no_difference() {
    let mut draws = Draws::from(20261134);
    for _ in 0..40 {
        let rows = draws.bytes(25).iter().map(|byte| byte % 3).collect();
        let state = ReceiverState { settings: card(), opened_at: 0, due: 40 };
        let receiver = Receiver { state, rows };
        for opened_at in [38, 39, 40, 41, 3_999_999_999, 4_000_000_000, u32::MAX] {
            let mut other = receiver.clone();
            other.state.opened_at = opened_at;
            assert!((36..41).all(|number| other.look_up(number) == receiver.look_up(number)));
        }
    }
}

#[test]
fn messages_whose_last_slot_never_comes_can_be_looked_up() {
    let mut receiver = Receiver::open(card(), 3_999_999_997);
    let frames = broadcast::from(card(), 3_999_999_997, &[vec![1, 2], vec![3, 4], vec![5, 6]]);
    receiver.report(Some(&frames[0]));
    receiver.report(Some(&frames[1]));
    let whole = [[1, 2], [3, 4]].map(|message| Ok((Reply::Whole, message.to_vec())));
    assert_eq!([3_999_999_997, 3_999_999_998].map(|t| receiver.look_up(t)), whole);
    assert_eq!(receiver.look_up(3_999_999_999), Err(8));
    // The last slot is reported, and then no slot is due.
    receiver.report(Some(&frames[2]));
    assert_eq!(receiver.state.due, END);
    assert!((3_999_999_996..4_000_000_001).all(|t| receiver.look_up(t) == Err(3)));
}

// The card's meetings: case 9's frames, T = 3.

/// Case 9's frames, of slots 0 to 5.
fn frames_of_case_9() -> Frames {
    let messages = [[1, 0], [0, 1], [0, 0], [0, 0], [0, 0], [0, 0]].map(Vec::from);
    broadcast::of(card(), &messages)
}

/// What the look-ups say before any report, and after that of each of slots 0 to 4.
fn after_each_report(frames: &Frames, lost: &[usize]) -> Vec<String> {
    let mut receiver = Receiver::open(card(), 0);
    let mut says = vec![receiver.of_messages_0_to_4()];
    for (slot, frame) in frames[..5].iter().enumerate() {
        receiver.report((!lost.contains(&slot)).then_some(frame));
        says.push(receiver.of_messages_0_to_4());
    }
    says
}

#[test]
fn nothing_lost() {
    let expected = [
        "8 8 8 8 8",
        "0100 8 8 8 8",
        "0100 0001 8 8 8",
        "0100 0001 0000 8 8",
        "8 0001 0000 0000 8",
        "8 8 0000 0000 0000",
    ];
    assert_eq!(after_each_report(&frames_of_case_9(), &[]), expected);
}

#[test]
fn figure_10_slots_0_and_1_lost() {
    // The codeword that starts at slot 0 is a times 1 8 0 16 and b times 0 1 2 3. Slot 2 says
    // 2b = 1 and leaves a open, and with it symbol 0 of message 0 and symbol 1 of message 1.
    // Slot 3 says 16a + 3b = 24, so a is 1 and b is 9: message 0 is reported, and message 1 is
    // known a slot before its report, for the next codeword has its positions 1 and 2 by then.
    let expected = [
        "8 8 8 8 8",
        "lost 8 8 8 8",
        "lost lost 8 8 8",
        "lost lost 0000 8 8",
        "8 0001 0000 0000 8",
        "8 8 0000 0000 0000",
    ];
    assert_eq!(after_each_report(&frames_of_case_9(), &[0, 1]), expected);
}

#[test]
fn figure_11_slots_0_to_2_lost() {
    // Of the codeword that starts at slot 0 position 3 alone arrives. Message 2 needs positions 2
    // and 3, and 1 and 2, of its two codewords: slots 3 and 4, one less than its last.
    let expected = [
        "8 8 8 8 8",
        "lost 8 8 8 8",
        "lost lost 8 8 8",
        "lost lost lost 8 8",
        "8 lost lost 0000 8",
        "8 8 0000 0000 0000",
    ];
    assert_eq!(after_each_report(&frames_of_case_9(), &[0, 1, 2]), expected);
}

/// Slot 2's body is another than the one sent, as in figure 12.
fn frames_of_figure_12() -> Frames {
    let mut frames = frames_of_case_9();
    frames[2][frame::HEADER..].copy_from_slice(&[0, 0, 2, 0]);
    frames
}

#[test]
fn figure_12_a_damaged_body_clashes_once_it_is_reported() {
    // Positions 0 and 1 of the codeword that starts at slot 0 make a 1 and b 9, so that position 2
    // is 1, and slot 2 says 2. Messages 0 and 1 were heard in their own slots and were whole.
    let expected = [
        "8 8 8 8 8",
        "0100 8 8 8 8",
        "0100 0001 8 8 8",
        "clash clash 0000 8 8",
        "8 clash 0000 0000 8",
        "8 8 0000 0000 0000",
    ];
    assert_eq!(after_each_report(&frames_of_figure_12(), &[]), expected);
}

#[test]
fn a_damaged_body_does_not_clash_before_the_slots_contradict_each_other() {
    // Slot 1 is lost as well: positions 0 and 2 make a 1 and b 1, and fit. Position 3 would be 19,
    // and slot 3 says 24. Until then message 1 is lost, by its other codeword.
    let expected = [
        "8 8 8 8 8",
        "0100 8 8 8 8",
        "0100 lost 8 8 8",
        "0100 lost 0000 8 8",
        "8 clash 0000 0000 8",
        "8 8 0000 0000 0000",
    ];
    assert_eq!(after_each_report(&frames_of_figure_12(), &[1]), expected);
}

#[test]
fn a_message_is_no_better_than_the_worst_of_its_lanes() {
    let settings = Settings { lanes: 3, ..card() };
    let messages: Vec<Vec<u8>> = (1..7).map(|t| (0..6).map(|i| 16 * i + t).collect()).collect();
    let mut frames = broadcast::of(settings, &messages);
    // Symbol 2 of lane 1, in slot 2, is of the codeword of messages 0 and 1.
    frames[2][frame::HEADER + 7] ^= 1;
    let mut receiver = Receiver::open(settings, 0);
    receiver.report(Some(&frames[0]));
    receiver.report(Some(&frames[1]));
    let whole = [0, 1].map(|t: usize| Ok((Reply::Whole, messages[t].clone())));
    assert_eq!([0, 1].map(|t| receiver.look_up(t)), whole);
    receiver.report(Some(&frames[2]));
    let clash = Ok((Reply::Clash, vec![0; 6]));
    let last = Ok((Reply::Whole, messages[2].clone()));
    assert_eq!([0, 1, 2].map(|t| receiver.look_up(t)), [clash.clone(), clash, last]);
}

// Rows that hold older slots.

/// A receiver that has heard the same frame in every slot it remembers, and the slot due.
fn with_equal_rows(settings: Settings, message: &[u8], due: u32) -> (Receiver, Vec<u8>) {
    // From slot n − 1 on a frame is of equal messages alone.
    let frames = broadcast::of(settings, &vec![message.to_vec(); settings.n()]);
    let body = frame::body(&frames[settings.n() - 1]);
    let row = [&[receiver::RECEIVED], body].concat();
    let state = ReceiverState { settings, opened_at: 0, due };
    let receiver = Receiver { state, rows: row.repeat(row_count(&settings)) };
    (receiver, body.to_vec())
}

#[test]
fn the_radio_goes_dead_behind_a_full_ring() {
    let (mut receiver, body) = with_equal_rows(card(), &[7, 9], 100);
    let frame_of = |slot: u32| frame::of(&card(), slot, &body);
    let (lost, whole) = (Ok((Reply::Lost, vec![0, 0])), Ok((Reply::Whole, vec![7, 9])));
    receiver.report(None);
    // Slots 101 to 103 would be those of slots 96 to 98, and tell what nobody has heard.
    assert_eq!(receiver.look_up(100), lost);
    assert_eq!(receiver.with_due(103).look_up(100), whole);
    // Slot 101 is heard, and slot 102 would be slot 97: the slot due alone is enough to tell.
    receiver.report(Some(&frame_of(101)));
    assert_eq!(receiver.look_up(100), lost);
    assert_eq!(receiver.with_due(103).look_up(100), whole);
    receiver.report(Some(&frame_of(102)));
    assert_eq!([receiver.look_up(100), receiver.look_up(101)], [whole.clone(), whole]);
    // And it stays dead: a message after the other, nothing old is told again.
    let mut receiver = with_equal_rows(card(), &[7, 9], 100).0;
    for slot in 100..120 {
        receiver.report(None);
        assert!((100.max(slot - 2)..=slot).all(|t| receiver.look_up(t) == lost), "{slot}");
    }
}

#[test]
fn a_message_whose_slot_alone_was_lost_is_known_k_slots_later() {
    let mut draws = Draws::from(20261135);
    let mut early = 0;
    for code in every_code() {
        let message = draws.bytes(code.k());
        let settings = set_higher(&mut draws, code);
        let t = 1000;
        let (mut receiver, _) = with_equal_rows(settings, &message, t);
        receiver.report(None);
        // All other rows are as if heard, so the slot due alone says how many slots are reported.
        let (k, delay) = (code.k() as u32, code.t() as u32);
        for later in [1, k, k + 1, delay] {
            // Fewer than k positions of the codeword that starts there leave its symbol 0 open.
            let expected = if later <= k {
                Ok((Reply::Lost, vec![0; code.k()]))
            } else {
                Ok((Reply::Whole, message.clone()))
            };
            let said = receiver.with_due(t + later).look_up(t.into());
            let refused = later > delay;
            assert_eq!(said, if refused { Err(8) } else { expected }, "{settings:?} {later}");
        }
        early += usize::from(k < delay);
    }
    // Where N is 1, k is T, and only the report can tell.
    assert_eq!(early, every_code().iter().filter(|code| code.scattered >= 2).count());
}

// All words tried.

/// A code with all its words.
struct Tried {
    settings: Settings,
    words: Vec<Vec<u8>>,
}

impl Tried {
    /// The sums of byte multiples of one or two words.
    fn of((delay, burst, scattered): (u8, u8, u8), lanes: u8, of: &[&[u8]]) -> Tried {
        let settings = Settings { lanes, ..Settings::of_code(delay, burst, scattered) };
        assert_eq!((of.len(), of[0].len()), (settings.k(), settings.n()));
        let multiple = |word: &[u8], by: Byte| -> Vec<u8> {
            word.iter().map(|&symbol| by.times(Byte(symbol)).0).collect()
        };
        let mut words = vec![vec![0; settings.n()]];
        for word in of {
            let multiples: Vec<Vec<u8>> = Byte::all().map(|by| multiple(word, by)).collect();
            let plus = |a: &[u8], b: &[u8]| a.iter().zip(b).map(|(a, b)| a ^ b).collect();
            words = words.iter().flat_map(|a| multiples.iter().map(move |b| plus(a, b))).collect();
        }
        Tried { settings, words }
    }

    /// What the rows say of the slots below the slot due, for one codeword.
    fn arrived(&self, receiver: &Receiver, start: i64, lane: usize) -> Vec<Option<u8>> {
        let count = row_count(&self.settings) as i64;
        let rows: Vec<&[u8]> = receiver.rows.chunks(row_length(&self.settings)).collect();
        let symbol = |p: usize| {
            let slot = start + p as i64;
            let row = rows[slot.rem_euclid(count) as usize];
            let known = slot < i64::from(receiver.state.due) && row[0] == 1;
            known.then(|| row[1 + p * usize::from(self.settings.lanes) + lane])
        };
        (0..self.settings.n()).map(symbol).collect()
    }

    /// What the fitting words have at a position, each byte once.
    fn fitting(&self, arrived: &[Option<u8>], position: usize) -> Vec<u8> {
        let fits = |word: &&Vec<u8>| {
            arrived.iter().zip(*word).all(|(known, byte)| known.is_none_or(|known| known == *byte))
        };
        let mut seen = [false; 256];
        self.words.iter().filter(fits).for_each(|word| seen[usize::from(word[position])] = true);
        (0..=255).filter(|&byte| seen[usize::from(byte)]).collect()
    }

    /// Demand 2 for a message, over the slots reported so far.
    fn says(&self, receiver: &Receiver, number: i64) -> (Reply, Vec<u8>) {
        let lanes = usize::from(self.settings.lanes);
        let mut message = vec![0; self.settings.k() * lanes];
        let (mut clash, mut lost) = (false, false);
        for (place, byte) in message.iter_mut().enumerate() {
            let (i, lane) = (place / lanes, place % lanes);
            let fitting = self.fitting(&self.arrived(receiver, number - i as i64, lane), i);
            clash |= fitting.is_empty();
            lost |= fitting.len() > 1;
            *byte = fitting.first().copied().unwrap_or(0);
        }
        match (clash, lost) {
            (true, _) => (Reply::Clash, vec![0; message.len()]),
            (false, true) => (Reply::Lost, vec![0; message.len()]),
            (false, false) => (Reply::Whole, message),
        }
    }
}

/// A receiver with a slot due whose rows have drawn first bytes. Their bodies are any bytes, or
/// those of a sender with zeros before slot 0, in which one byte may be changed.
fn with_drawn_rows(draws: &mut Draws, settings: Settings, due: u32) -> Receiver {
    let remembered = row_count(&settings);
    let first = due.saturating_sub(remembered as u32);
    let length = message_length(&settings);
    let messages: Vec<Vec<u8>> = (first..due).map(|_| draws.bytes(length)).collect();
    let frames = broadcast::from(settings, first, &messages);
    let kind = draws.below(3);
    let mut receiver = Receiver::open(settings, 0).with_due(due);
    for slot in i64::from(due) - remembered as i64..i64::from(due) {
        let at = slot.rem_euclid(remembered as i64) as usize * row_length(&settings);
        let row = &mut receiver.rows[at..at + row_length(&settings)];
        row[0] = [1, 1, 1, 1, 1, 0, 2, 255][draws.below(8)];
        if kind == 0 {
            row[1..].copy_from_slice(&draws.bytes(settings.n() * usize::from(settings.lanes)));
        } else if slot >= 0 {
            let heard = &frames[(slot - i64::from(first)) as usize];
            row[1..].copy_from_slice(frame::body(heard));
        }
    }
    if kind == 1 {
        let at = draws.below(receiver.rows.len());
        receiver.rows[at] ^= (draws.below(255) + 1) as u8;
    }
    receiver
}

/// Slots due: in the first slots, where slots before 0 count, and in later ones.
const DUE: [u32; 9] = [1, 2, 3, 4, 5, 6, 9, 1000, 3_999_999_999];

#[test]
fn small_codes_agree_with_trying_all_words() {
    let mut draws = Draws::from(20261136);
    for (tried, clashes) in [
        // One source symbol: α stands at position T, and 1 before it. Of (1,1,1) a look-up sees
        // one position at most, which any word may have.
        (Tried::of((1, 1, 1), 2, &[&[1, 16]]), false),
        (Tried::of((2, 2, 2), 2, &[&[1, 1, 16]]), true),
        // The card's figures 5, 7 and 8.
        (Tried::of((3, 2, 2), 2, &[&[1, 8, 0, 16], &[0, 1, 2, 3]]), true),
        (Tried::of((3, 3, 2), 1, &[&[1, 0, 3, 16, 128], &[0, 1, 2, 0, 16]]), true),
        (Tried::of((2, 2, 1), 1, &[&[1, 0, 16, 0], &[0, 1, 0, 16]]), true),
    ] {
        let delay = tried.settings.t() as i64;
        let mut met = [0; 4];
        for due in DUE.into_iter().cycle().take(180) {
            let receiver = with_drawn_rows(&mut draws, tried.settings, due);
            let due = i64::from(due);
            for number in 0.max(due - delay)..due {
                let expected = tried.says(&receiver, number);
                met[expected.0 as usize] += 1;
                assert_eq!(receiver.look_up(number), Ok(expected), "{due} {number}");
            }
        }
        let [_, lost, clash, whole] = met;
        assert!(lost > 50 && whole > 50, "{:?} {met:?}", tried.settings);
        assert!(if clashes { clash > 20 } else { clash == 0 }, "{:?} {met:?}", tried.settings);
    }
}

#[test]
fn a_look_up_says_what_the_report_would_if_all_later_slots_were_lost() {
    let mut draws = Draws::from(20261137);
    let mut met = [0; 4];
    for code in every_code() {
        let delay = code.t() as i64;
        for _ in 0..if delay <= 5 { 12 } else { 1 } {
            let lanes = 1 + draws.below(2) as u8;
            let settings = Settings { lanes, ..set_higher(&mut draws, code) };
            let due = [1, 2 + draws.below(40) as u32, 3_999_999_000][draws.below(3)];
            let receiver = with_drawn_rows(&mut draws, settings, due);
            let first = 0.max(i64::from(due) - delay);
            let number = first + draws.below((i64::from(due) - first) as usize) as i64;
            let mut later = receiver.clone();
            let mut reply = None;
            for _ in i64::from(due)..=number + delay {
                reply = Some(later.report(None));
            }
            let reply = reply.expect("its last slot is still to come");
            met[reply.0 as usize] += 1;
            assert_eq!(receiver.look_up(number), Ok(reply), "{settings:?} {due} {number}");
        }
    }
    assert!(met[1..].iter().all(|&times| times > 50), "{met:?}");
}

// Meetings with a sender's own frames.

/// A broadcast, and a receiver of it: where it is opened, and which slots from there on are lost.
struct Meeting {
    settings: Settings,
    first: u32,
    messages: Vec<Vec<u8>>,
    frames: Frames,
    opened_at: u32,
    lost: Vec<bool>,
}

/// How many look-ups there were, how many of them said whole though the message's own slot was
/// not heard, how many of these were of a slot before the opening, and how many messages were
/// whole at the report only.
#[derive(Debug, Default)]
struct Met {
    looked: usize,
    repaired: usize,
    before: usize,
    at_report: usize,
}

impl Meeting {
    /// It begins k + T slots before the opening, so that every message looked up is a drawn one.
    fn drawn(draws: &mut Draws, code: Settings, opened_at: u32, lost: Vec<bool>) -> Meeting {
        let timed = if draws.below(2) == 0 { code } else { set_higher(draws, code) };
        let settings = Settings { lanes: 1 + (draws.below(4) == 0) as u8, ..timed };
        let first = opened_at.saturating_sub(row_count(&settings) as u32);
        let count = (opened_at - first) as usize + lost.len();
        let length = message_length(&settings);
        let messages: Vec<Vec<u8>> = (0..count).map(|_| draws.bytes(length)).collect();
        let frames = broadcast::from(settings, first, &messages);
        Meeting { settings, first, messages, frames, opened_at, lost }
    }

    fn place(&self, slot: i64) -> usize {
        (slot - i64::from(self.first)) as usize
    }

    fn heard(&self, slot: i64) -> bool {
        let place = usize::try_from(slot - i64::from(self.opened_at));
        place.is_ok_and(|place| !self.lost[place])
    }

    /// A reply is not clash. Whole bytes are the message as sent, and others zeros.
    fn check(&self, number: i64, (reply, bytes): &(Reply, Vec<u8>)) {
        let sent = &self.messages[self.place(number)];
        match reply {
            Reply::Whole => assert_eq!(bytes, sent, "{:?} {number}", self.settings),
            Reply::Lost => assert_eq!(bytes, &vec![0; sent.len()]),
            _ => panic!("{:?} {number} {reply:?}", self.settings),
        }
    }

    /// Plays the meeting. After the opening and after each report the messages watched are looked
    /// up: once whole, a message is whole at each later look-up and at its report.
    fn play(&self, watched: &dyn Fn(i64) -> bool, met: &mut Met) {
        let mut receiver = Receiver::open(self.settings, self.opened_at);
        let mut whole: Vec<i64> = Vec::new();
        let delay = self.settings.t() as i64;
        let opened_at = i64::from(self.opened_at);
        for due in opened_at..=opened_at + self.lost.len() as i64 {
            if due > opened_at {
                let frame = &self.frames[self.place(due - 1)];
                let said = receiver.report(self.heard(due - 1).then_some(frame));
                self.check_report(due - 1 - delay, &said, &whole, watched, met);
            }
            for number in (0.max(due - delay)..due).filter(|&number| watched(number)) {
                let said = receiver.look_up(number).expect("no cause");
                self.check_look_up(number, due, &said, met);
                let is_whole = said.0 == Reply::Whole;
                assert!(is_whole || !whole.contains(&number), "{:?} {number}", self.settings);
                whole.extend(is_whole.then_some(number));
            }
        }
    }

    /// Whole from its own slot on if that was heard. If not, symbol 0 is open until k later slots
    /// are heard: the last slot of the message is not among them.
    fn check_look_up(&self, number: i64, due: i64, said: &(Reply, Vec<u8>), met: &mut Met) {
        self.check(number, said);
        let behind = (number + 1..due).filter(|&slot| self.heard(slot)).count();
        met.looked += 1;
        if self.heard(number) {
            assert_eq!(said.0, Reply::Whole, "{:?} {number} {due}", self.settings);
        } else if behind < self.settings.k() {
            assert_eq!(said.0, Reply::Lost, "{:?} {number} {due}", self.settings);
        } else if said.0 == Reply::Whole {
            met.repaired += 1;
            met.before += usize::from(number < i64::from(self.opened_at));
        }
    }

    fn check_report(
        &self,
        number: i64,
        said: &(Reply, Vec<u8>),
        whole: &[i64],
        watched: &dyn Fn(i64) -> bool,
        met: &mut Met,
    ) {
        if number < 0 {
            return assert_eq!(said.0, Reply::NoneYet);
        }
        self.check(number, said);
        if whole.contains(&number) {
            assert_eq!(said.0, Reply::Whole, "{:?} {number}", self.settings);
        } else if watched(number) && said.0 == Reply::Whole {
            met.at_report += 1;
        }
    }
}

/// Slots lost as they are drawn, one in two to one in seven.
fn drawn_losses(draws: &mut Draws, slots: usize) -> Vec<bool> {
    let once_in = 2 + draws.below(6);
    (0..slots).map(|_| draws.below(once_in) == 0).collect()
}

#[test]
fn once_whole_stays_whole_and_is_the_message_sent() {
    let mut draws = Draws::from(20261138);
    let mut met = Met::default();
    for code in every_code().into_iter().filter(|code| code.t() <= 5) {
        let remembered = row_count(&code) as u32;
        for opened_at in [0, 0, 1, 2, remembered - 1, remembered, 2_000_000_000, 3_999_999_900] {
            let lost = drawn_losses(&mut draws, 3 * code.t() + 2);
            Meeting::drawn(&mut draws, code, opened_at, lost).play(&|_| true, &mut met);
        }
    }
    assert!(met.looked > 10_000 && met.repaired > 500, "{met:?}");
    assert!(met.before > 100 && met.at_report > 200, "{met:?}");
}

#[test]
fn once_whole_stays_whole_in_every_code() {
    let mut draws = Draws::from(20261139);
    let mut met = Met::default();
    for code in every_code() {
        let opened_at = [0, 1, row_count(&code) as u32, 3_999_999_900][draws.below(4)];
        let mut lost = drawn_losses(&mut draws, code.t() + 3);
        // The message watched is that of slot 2 behind the opening, lost three times of four, or
        // the last before it.
        lost[2] = draws.below(4) != 0;
        let watched = i64::from(opened_at) + [2, 2, 2, -1][draws.below(4)];
        Meeting::drawn(&mut draws, code, opened_at, lost).play(&|t| t == watched, &mut met);
    }
    assert!(met.repaired > 400 && met.before > 50 && met.at_report > 15, "{met:?}");
}

#[test]
fn with_nothing_lost_a_message_is_whole_from_its_own_slot_on() {
    let mut draws = Draws::from(20261140);
    for code in every_code() {
        let meeting = Meeting::drawn(&mut draws, code, 0, vec![false; 4]);
        let mut receiver = Receiver::open(meeting.settings, 0);
        for (slot, message) in (0..).zip(&meeting.messages) {
            assert_eq!(receiver.look_up(slot), Err(8));
            receiver.report(Some(&meeting.frames[slot as usize]));
            assert_eq!(receiver.look_up(slot), Ok((Reply::Whole, message.clone())));
        }
    }
}
