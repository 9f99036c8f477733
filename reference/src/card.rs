//! The card's figures 9 to 12, as CARD.md describes them: in one lane, and then in three; the
//! example of a window shorter than the delay that was set; and two lanes that differ.

use crate::broadcast::{self, Frames};
use crate::frame;
use crate::play::hex;
use crate::receiver::{self, Reply};
use crate::settings::Settings;
use crate::state::Refusal;

/// The messages of slots 0 to 5 in one lane: symbol 0, and then symbol 1.
const IN_ONE_LANE: [[u8; 2]; 6] = [[1, 0], [0, 1], [0; 2], [0; 2], [0; 2], [0; 2]];

/// The messages in three: symbol 0 of lanes 0, 1 and 2, and then symbol 1.
const IN_THREE_LANES: [[u8; 6]; 6] =
    [[1, 16, 0, 0, 0, 0], [0, 0, 1, 1, 16, 0], [0, 0, 0, 0, 0, 1], [0; 6], [0; 6], [0; 6]];

/// The messages in two lanes that differ: symbol 0 of lanes 0 and 1, and then symbol 1.
const IN_TWO_LANES: [[u8; 4]; 6] = [[1, 1, 0, 0], [0, 0, 1, 0], [0; 4], [0; 4], [0; 4], [0; 4]];

/// All lines, without their newlines.
pub fn lines() -> Vec<String> {
    let mut lines = figures(1, &IN_ONE_LANE.map(Vec::from));
    lines.push("in three lanes".to_string());
    lines.extend(figures(3, &IN_THREE_LANES.map(Vec::from)));
    lines.push("in a window of three slots".to_string());
    lines.extend(short_window());
    lines.push("in two lanes that differ".to_string());
    lines.extend(two_lanes());
    lines
}

/// The four lines of figures 9 to 12 in so many lanes.
fn figures(lanes: u8, messages: &[Vec<u8>]) -> Vec<String> {
    let settings = Settings { lanes, ..Settings::of_code(3, 2, 2) };
    let frames = broadcast::of(settings, messages);
    let mut damaged = frames.clone();
    // Symbol 2 of lane 0, in slot 2, is figure 12's other byte.
    damaged[2][frame::HEADER + frame::place(&settings, 2, 0)] = 2;
    let bodies: Vec<String> = frames.iter().map(|frame| hex(frame::body(frame))).collect();
    vec![
        line("9", &bodies),
        line("10", &replies(settings, &with_losses(&frames, &[0, 1]))),
        line("11", &replies(settings, &with_losses(&frames, &[0, 1, 2]))),
        line("12", &replies(settings, &with_losses(&damaged, &[]))),
    ]
}

/// The four lines of W = 3: what senders with T = 9 and T = 2 send, and what receivers with the
/// same reply, each to the other sender's frame of a slot and then to its own sender's, or to the
/// loss of it.
fn short_window() -> Vec<String> {
    let settings = [9, 2].map(|delay| Settings { delay, ..Settings::of_code(2, 2, 1) });
    let frames = settings.map(|settings| broadcast::of(settings, &IN_ONE_LANE.map(Vec::from)));
    let sent = |this: usize| {
        let whole: Vec<String> = frames[this].iter().map(|frame| hex(frame)).collect();
        line(&format!("sent {}", settings[this].delay), &whole)
    };
    let heard = |this: usize| {
        let others = with_losses(&frames[1 - this], &[]);
        let pairs = others.into_iter().zip(with_losses(&frames[this], &[0, 1]));
        let reports: Vec<Report> = pairs.flat_map(|(other, own)| [other, own]).collect();
        line(&format!("heard {}", settings[this].delay), &replies(settings[this], &reports))
    };
    vec![sent(0), sent(1), heard(0), heard(1)]
}

/// The three lines of two lanes that differ: the frames, and the replies when all of them are
/// heard, and when slots 0 and 1 are lost.
fn two_lanes() -> Vec<String> {
    let settings = Settings { lanes: 2, ..Settings::of_code(3, 2, 2) };
    let frames = broadcast::of(settings, &IN_TWO_LANES.map(Vec::from));
    let whole: Vec<String> = frames.iter().map(|frame| hex(frame)).collect();
    vec![
        line("sent", &whole),
        line("heard all", &replies(settings, &with_losses(&frames, &[]))),
        line("heard without 0 and 1", &replies(settings, &with_losses(&frames, &[0, 1]))),
    ]
}

/// What the line is, and its parts.
fn line(name: &str, parts: &[String]) -> String {
    format!("{name} {}", parts.join(" "))
}

/// A frame that is reported, or `None` for a loss.
type Report<'a> = Option<&'a [u8]>;

/// A report of each slot: a loss of these, and of the others the frame.
fn with_losses<'a>(frames: &'a Frames, lost: &[usize]) -> Vec<Report<'a>> {
    let report = |slot: usize| (!lost.contains(&slot)).then_some(&frames[slot][..]);
    (0..frames.len()).map(report).collect()
}

/// The replies of a receiver opened at slot 0 to these reports.
fn replies(settings: Settings, reports: &[Report]) -> Vec<String> {
    let mut rows = vec![0; receiver::rows_length(&settings)];
    let (mut state, opened) = receiver::open(settings, 0, &mut rows);
    assert_eq!(opened, Ok(()));
    let mut message = vec![0; frame::message_length(&settings)];
    let mut replies = Vec::new();
    for report in reports {
        let reply;
        (state, reply) = match report {
            Some(frame) => receiver::report_frame(state, &mut rows, frame, &mut message),
            None => receiver::report_loss(state, &mut rows, &mut message),
        };
        replies.push(text(reply, &message));
    }
    replies
}

fn text(reply: Result<Reply, Refusal>, message: &[u8]) -> String {
    match reply {
        Ok(Reply::NoneYet) => "none".to_string(),
        Ok(Reply::Lost) => "lost".to_string(),
        Ok(Reply::Clash) => "clash".to_string(),
        Ok(Reply::Whole) => format!("whole {}", hex(message)),
        Err(refusal) => refusal.number().to_string(),
    }
}

#[cfg(test)]
mod tests {
    use super::*;

    #[test]
    fn each_lane_has_the_messages_of_case_9_in_its_own_way() {
        let lane = |slot: usize, lane: usize| {
            [IN_THREE_LANES[slot][lane], IN_THREE_LANES[slot][3 + lane]]
        };
        let case_9 = [[1, 0], [0, 1], [0, 0], [0, 0], [0, 0], [0, 0]];
        assert_eq!(IN_ONE_LANE, case_9);
        for slot in 0..6 {
            assert_eq!(lane(slot, 0), case_9[slot]);
            assert_eq!(lane(slot, 1), case_9[slot].map(|byte| 16 * byte));
            // A slot later, and nothing before slot 0.
            assert_eq!(lane(slot, 2), if slot == 0 { [0, 0] } else { case_9[slot - 1] });
        }
    }

    #[test]
    fn a_report_that_is_refused_is_printed_as_the_number_of_its_cause() {
        let settings = Settings::of_code(3, 2, 2);
        let mut frames = broadcast::of(settings, &IN_ONE_LANE.map(Vec::from));
        frames.insert(1, frames[3].clone());
        let replies = replies(settings, &with_losses(&frames, &[]));
        let before_and_after = ["none", "6", "none", "none", "whole 0100", "whole 0001"];
        assert_eq!(replies[..6], before_and_after);
    }
}
