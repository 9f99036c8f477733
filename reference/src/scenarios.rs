//! The scenarios, as SCENARIOS.md describes them: many calls of both ends, one line each.

use crate::frame;
use crate::patterns::Draws;
use crate::receiver::{self, Reply};
use crate::sender;
use crate::settings::Settings;
use crate::state::{ReceiverState, Refusal, SenderState, END};

/// Every W, T, B and N, in order: in the last three the window is no longer than the delay set.
const SETTINGS: [[u8; 4]; 10] = [
    [2, 1, 1, 1],
    [4, 3, 2, 2],
    [4, 3, 3, 2],
    [3, 2, 2, 1],
    [9, 8, 8, 1],
    [16, 15, 15, 15],
    [16, 15, 1, 1],
    [3, 9, 2, 1],
    [4, 4, 2, 2],
    [12, 255, 8, 4],
];

/// The same with one lane.
fn in_one_lane() -> [Settings; 10] {
    SETTINGS.map(|[window, delay, burst, scattered]| {
        Settings { window, delay, burst, scattered, lanes: 1 }
    })
}

/// Every kind, with L and the start.
fn kinds(settings: &Settings) -> [(Kind, u8, u32); 10] {
    let remembered = receiver::row_count(settings) as u32;
    [
        (Kind::Fresh, 1, 0),
        (Kind::Fresh, 64, 0),
        (Kind::Lent, 1, 0),
        (Kind::Lent, 3, 3_999_999_970),
        (Kind::Late, 2, 1),
        (Kind::Late, 2, remembered - 1),
        (Kind::Late, 2, remembered),
        (Kind::Late, 2, remembered + 1),
        (Kind::Late, 2, 2_000_000_000),
        (Kind::Late, 2, 3_999_999_999),
    ]
}

/// How many ways there are of breaking settings.
const WAYS: usize = 8;

#[derive(Clone, Copy, PartialEq, Eq)]
enum Kind {
    Fresh,
    Lent,
    Late,
}

/// A length that a lent thing has in one call.
#[derive(Clone, Copy, PartialEq, Eq)]
enum Size {
    Shorter,
    Exact,
    Longer,
}

/// All lines, without their newlines.
pub fn lines() -> Vec<String> {
    let mut draws = Draws::from(20261116);
    let mut lines = Vec::new();
    for single in in_one_lane() {
        for (kind, lanes, start) in kinds(&single) {
            let settings = Settings { lanes, ..single };
            lines.push(title(&settings, kind, start));
            let mut scenario = Scenario::drawn(&mut draws, &mut lines, settings);
            scenario.open_both(if kind == Kind::Late { start } else { 0 });
            match kind {
                Kind::Fresh => (),
                Kind::Lent => scenario.lend(start),
                Kind::Late => scenario.send_before(start),
            }
            for _ in 0..if kind == Kind::Late { 20 } else { 40 } {
                scenario.slot(kind);
            }
        }
    }
    lines
}

fn title(s: &Settings, kind: Kind, start: u32) -> String {
    let kind = match kind {
        Kind::Fresh => "fresh",
        Kind::Lent => "lent",
        Kind::Late => "late",
    };
    format!("scenario {} {kind} {start}", text_of_settings(s))
}

/// The sum, over the indices from 0, of (index + 1) × byte, modulo 65521.
fn sum(bytes: &[u8]) -> usize {
    let terms = bytes.iter().enumerate().map(|(index, &byte)| (index + 1) * usize::from(byte));
    terms.sum::<usize>() % 65521
}

/// Each number with a space before it.
fn spaced(numbers: &[usize]) -> String {
    numbers.iter().map(|number| format!(" {number}")).collect()
}

fn text_of_settings(s: &Settings) -> String {
    let [w, t, b, n, l] = [s.window, s.delay, s.burst, s.scattered, s.lanes];
    format!("{w} {t} {b} {n} {l}")
}

fn text_of_sender(state: &SenderState) -> String {
    format!("{} {}", text_of_settings(&state.settings), state.due)
}

fn text_of_receiver(state: &ReceiverState) -> String {
    format!("{} {} {}", text_of_settings(&state.settings), state.opened_at, state.due)
}

/// The number of a refusal, or the word for what was accepted.
fn outcome<A>(result: Result<A, Refusal>, word: fn(A) -> &'static str) -> String {
    match result {
        Ok(accepted) => word(accepted).to_string(),
        Err(refusal) => refusal.number().to_string(),
    }
}

fn word_of_reply(reply: Reply) -> &'static str {
    match reply {
        Reply::NoneYet => "none",
        Reply::Lost => "lost",
        Reply::Clash => "clash",
        Reply::Whole => "whole",
    }
}

fn broken(settings: Settings, way: usize) -> Settings {
    let s = settings;
    match way {
        // The delay is then B − 1.
        0 => Settings { window: s.burst, ..s },
        1 => Settings { burst: s.t() as u8 + 1, ..s },
        2 => Settings { scattered: 0, ..s },
        3 => Settings { scattered: s.burst + 1, ..s },
        4 => Settings { lanes: 0, ..s },
        5 => Settings { lanes: 65, ..s },
        // A code where n is 17, with W one more than its delay: 16 or 10.
        6 => Settings { lanes: s.lanes, ..Settings::of_code(15, 2, 1) },
        _ => Settings { lanes: s.lanes, ..Settings::of_code(9, 8, 1) },
    }
}

/// A call with the thing at this size; afterwards the thing has its exact length again.
fn at_size<A>(thing: &mut Vec<u8>, size: Size, call: impl FnOnce(&mut [u8]) -> A) -> A {
    let exact = thing.len();
    match size {
        Size::Shorter => call(&mut thing[..exact - 1]),
        Size::Exact => call(thing),
        Size::Longer => {
            thing.push(0);
            let answer = call(thing);
            thing.truncate(exact);
            answer
        }
    }
}

/// The start of one call: the settings and the slot due of its state, the sizes of the things
/// lent, and the frame reported.
struct Call {
    settings: Settings,
    due: u32,
    sizes: [Size; 3],
    frame: Vec<u8>,
}

struct Scenario<'a> {
    draws: &'a mut Draws,
    lines: &'a mut Vec<String>,
    settings: Settings,
    sender: SenderState,
    receiver: ReceiverState,
    sender_rows: Vec<u8>,
    receiver_rows: Vec<u8>,
    frame: Vec<u8>,
    message_buffer: Vec<u8>,
    message: Vec<u8>,
    losses_left: usize,
}

impl<'a> Scenario<'a> {
    /// Step 2: the lent things, every byte drawn.
    fn drawn(draws: &'a mut Draws, lines: &'a mut Vec<String>, settings: Settings) -> Self {
        let sender_rows = draws.bytes(sender::rows_length(&settings));
        let receiver_rows = draws.bytes(receiver::rows_length(&settings));
        let frame = draws.bytes(frame::length(&settings));
        let message_buffer = draws.bytes(frame::message_length(&settings));
        Scenario {
            draws,
            lines,
            settings,
            sender: SenderState::ZEROS,
            receiver: ReceiverState::ZEROS,
            sender_rows,
            receiver_rows,
            frame,
            message_buffer,
            message: Vec::new(),
            losses_left: 0,
        }
    }

    /// Step 3: refused openings of each end, and then one that is accepted, the receiver's at this
    /// slot.
    fn open_both(&mut self, slot: u32) {
        for (settings, size) in self.refused_openings() {
            self.open_sender(settings, size);
        }
        self.sender = self.open_sender(self.settings, Size::Exact);
        for (settings, size) in self.refused_openings() {
            self.open_receiver(settings, slot, size);
        }
        self.open_past_the_end();
        self.receiver = self.open_receiver(self.settings, slot, Size::Exact);
    }

    /// The openings that either end refuses.
    fn refused_openings(&mut self) -> Vec<(Settings, Size)> {
        let settings = self.settings;
        let way = |r| (broken(settings, r), Size::Exact);
        let mut openings: Vec<(Settings, Size)> = (0..WAYS).map(way).collect();
        openings.push((settings, Size::Shorter));
        openings.push((settings, Size::Longer));
        openings.push((broken(settings, self.draws.below(WAYS)), Size::Shorter));
        openings
    }

    /// Openings of the receiver at slots that are none: with nothing else wrong, with another
    /// length, and with other settings.
    fn open_past_the_end(&mut self) {
        let slot = self.past_the_end();
        self.open_receiver(self.settings, slot, Size::Exact);
        let slot = self.past_the_end();
        self.open_receiver(self.settings, slot, Size::Shorter);
        let slot = self.past_the_end();
        let settings = broken(self.settings, self.draws.below(WAYS));
        self.open_receiver(settings, slot, Size::Exact);
    }

    fn past_the_end(&mut self) -> u32 {
        END + self.draws.below(32768) as u32
    }

    fn open_sender(&mut self, settings: Settings, size: Size) -> SenderState {
        let open = |rows: &mut [u8]| sender::open(settings, rows);
        let (state, opened) = at_size(&mut self.sender_rows, size, open);
        let (opened, state_text) = (outcome(opened, |()| "ok"), text_of_sender(&state));
        self.print("open-sender", opened, state_text, &[sum(&self.sender_rows)]);
        state
    }

    fn open_receiver(&mut self, settings: Settings, slot: u32, size: Size) -> ReceiverState {
        let open = |rows: &mut [u8]| receiver::open(settings, slot, rows);
        let (state, opened) = at_size(&mut self.receiver_rows, size, open);
        let (opened, state_text) = (outcome(opened, |()| "ok"), text_of_receiver(&state));
        self.print("open-receiver", opened, state_text, &[sum(&self.receiver_rows)]);
        state
    }

    /// Step 4: rows with a history of their own, another slot due, and an opening slot above it.
    fn lend(&mut self, start: u32) {
        self.sender_rows = self.draws.bytes(self.sender_rows.len());
        self.receiver_rows = self.draws.bytes(self.receiver_rows.len());
        for row in 0..receiver::row_count(&self.settings) {
            let first = [1, 0, 7, 7, 7, 7, 7, 7][self.draws.below(8)];
            self.set_first_byte(row, first);
        }
        self.sender.due = start;
        self.receiver.due = start;
        self.receiver.opened_at = start + 7;
    }

    /// Step 5: what the sender sends before the receiver is opened, as far as it still matters.
    fn send_before(&mut self, start: u32) {
        let count = start.min(16);
        self.sender.due = start - count;
        for _ in 0..count {
            self.message = self.draws.bytes(frame::message_length(&self.settings));
            self.sender = self.send(self.right_send());
        }
    }

    fn set_first_byte(&mut self, row: usize, first: u8) {
        self.receiver_rows[row * receiver::row_length(&self.settings)] = first;
    }

    /// Step 6, once.
    fn slot(&mut self, kind: Kind) {
        self.message = self.draws.bytes(frame::message_length(&self.settings));
        if self.draws.below(8) == 0 {
            let faults = self.draws.below(7) + 1;
            let call = self.faulty(self.right_send(), faults, 3);
            self.send(call);
        }
        self.sender = self.send(self.right_send());
        if kind == Kind::Lent && self.draws.below(4) == 0 {
            let row = self.draws.below(receiver::row_count(&self.settings));
            let first = [0, 1, 7, 2][self.draws.below(4)];
            self.set_first_byte(row, first);
        }
        if self.losses_left > 0 {
            self.losses_left -= 1;
            self.lost();
        } else {
            self.event();
        }
    }

    fn event(&mut self) {
        match self.draws.below(16) {
            0..=5 => self.heard(),
            6 | 7 => self.lost(),
            8 if self.draws.below(3) == 0 => self.damaged(),
            8 => self.heard(),
            9 => self.heard_after(8),
            10 => self.heard_after(16),
            11 => self.heard_after(32),
            12 => self.heard_after(2),
            13 => {
                let faults = self.draws.below(63) + 1;
                self.heard_after(faults);
            }
            14 => {
                self.losses_left = self.draws.below(usize::from(self.settings.burst) + 2);
                self.lost();
            }
            _ => {
                let faults = self.draws.below(7) + 1;
                let call = self.faulty(self.right_report(), faults, 2);
                self.report_loss(call);
                self.lost();
            }
        }
    }

    fn heard(&mut self) {
        self.receiver = self.report_frame(self.right_report());
    }

    fn lost(&mut self) {
        self.receiver = self.report_loss(self.right_report());
    }

    fn damaged(&mut self) {
        let mut call = self.right_report();
        let q = self.draws.below(frame::body_length(&self.settings));
        self.change(&mut call.frame, frame::HEADER + q);
        self.receiver = self.report_frame(call);
    }

    fn heard_after(&mut self, faults: usize) {
        let call = self.faulty(self.right_report(), faults, 3);
        self.report_frame(call);
        self.heard();
    }

    /// A send with nothing wrong.
    fn right_send(&self) -> Call {
        self.right(self.sender.settings, self.sender.due)
    }

    /// A report with nothing wrong.
    fn right_report(&self) -> Call {
        self.right(self.receiver.settings, self.receiver.due)
    }

    fn right(&self, settings: Settings, due: u32) -> Call {
        Call { settings, due, sizes: [Size::Exact; 3], frame: self.frame.clone() }
    }

    /// The call with this set of faults, when it lends so many things.
    fn faulty(&mut self, mut call: Call, faults: usize, things: usize) -> Call {
        let has = |fault: usize| faults & fault != 0;
        if has(1) {
            call.settings = broken(call.settings, self.draws.below(WAYS));
        }
        if has(2) {
            let h = self.draws.below(2 * things);
            call.sizes[h / 2] = if h.is_multiple_of(2) { Size::Shorter } else { Size::Longer };
        }
        if has(4) {
            call.due = self.past_the_end();
        }
        for (fault, from, count) in [(8, 0, 5), (16, 5, 5), (32, 10, 4)] {
            if has(fault) {
                let place = from + self.draws.below(count);
                self.change(&mut call.frame, place);
            }
        }
        call
    }

    fn change(&mut self, frame: &mut [u8], place: usize) {
        frame[place] ^= (self.draws.below(255) + 1) as u8;
    }

    fn send(&mut self, call: Call) -> SenderState {
        let Call { settings, due, sizes, .. } = call;
        let start = SenderState { settings, due };
        let (rows, message, frame) = (&mut self.sender_rows, &mut self.message, &mut self.frame);
        let (state, sent) = at_size(rows, sizes[0], |rows| {
            at_size(message, sizes[1], |message| {
                at_size(frame, sizes[2], |frame| sender::send(start, rows, message, frame))
            })
        });
        let sums = [sum(&self.frame), sum(&self.sender_rows)];
        self.print("send", outcome(sent, |()| "ok"), text_of_sender(&state), &sums);
        state
    }

    fn report_frame(&mut self, call: Call) -> ReceiverState {
        let Call { settings, due, sizes, mut frame } = call;
        let start = ReceiverState { settings, due, ..self.receiver };
        let (rows, buffer) = (&mut self.receiver_rows, &mut self.message_buffer);
        let (state, reply) = at_size(rows, sizes[0], |rows| {
            at_size(&mut frame, sizes[1], |frame| {
                at_size(buffer, sizes[2], |buffer| {
                    receiver::report_frame(start, rows, frame, buffer)
                })
            })
        });
        self.print_report("frame", reply, &state);
        state
    }

    fn report_loss(&mut self, call: Call) -> ReceiverState {
        let Call { settings, due, sizes, .. } = call;
        let start = ReceiverState { settings, due, ..self.receiver };
        let (rows, buffer) = (&mut self.receiver_rows, &mut self.message_buffer);
        let (state, reply) = at_size(rows, sizes[0], |rows| {
            at_size(buffer, sizes[1], |buffer| receiver::report_loss(start, rows, buffer))
        });
        self.print_report("loss", reply, &state);
        state
    }

    fn print_report(&mut self, call: &str, reply: Result<Reply, Refusal>, state: &ReceiverState) {
        let sums = [sum(&self.message_buffer), sum(&self.receiver_rows)];
        self.print(call, outcome(reply, word_of_reply), text_of_receiver(state), &sums);
    }

    fn print(&mut self, call: &str, outcome: String, state: String, sums: &[usize]) {
        self.lines.push(format!("{call} {outcome} {state}{}", spaced(sums)));
    }
}

#[cfg(test)]
mod tests {
    use super::*;

    /// W, T, B, N and L of settings broken in each way.
    fn every_way(settings: Settings) -> [[u8; 5]; WAYS] {
        [0, 1, 2, 3, 4, 5, 6, 7].map(|way| {
            let s = broken(settings, way);
            [s.window, s.delay, s.burst, s.scattered, s.lanes]
        })
    }

    #[test]
    fn settings_are_broken_as_each_way_says() {
        // The delay is 5: set so, and made so by a window of 6.
        for (w, t) in [(9, 5), (6, 255)] {
            let settings = Settings { window: w, delay: t, lanes: 3, ..Settings::of_code(5, 3, 2) };
            let [less_w, b, n, more_n, l, more_l, n_is_17, again] = every_way(settings);
            assert_eq!((less_w, b), ([3, t, 3, 2, 3], [w, t, 6, 2, 3]));
            assert_eq!((n, more_n), ([w, t, 3, 0, 3], [w, t, 3, 4, 3]));
            assert_eq!((l, more_l), ([w, t, 3, 2, 0], [w, t, 3, 2, 65]));
            assert_eq!((n_is_17, again), ([16, 15, 2, 1, 3], [10, 9, 8, 1, 3]));
        }
    }

    #[test]
    fn broken_settings_are_not_accepted() {
        for settings in in_one_lane() {
            assert!(settings.accepted());
            assert!((0..WAYS).all(|way| !broken(settings, way).accepted()));
            // In the last two ways it is n alone that is not accepted.
            assert_eq!([6, 7].map(|way| broken(settings, way).n()), [17, 17]);
        }
    }
}
