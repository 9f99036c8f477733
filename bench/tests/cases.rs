//! The calls that are timed and counted: each version replies as it should, and the rows before a report are those that
//! reports would have left.

use bench::cases::Case;
use bench::engine::{self, Engine, STATE_LEN};
use bench::history::{Reporting, Sender};
use bench::link::receiver::receiver_len;
use bench::link::reply::{ACCEPTED, CLASH, LOST, WHOLE};
use bench::operation::{pattern, Operation, TIMED};
use bench::shapes::{Shape, SHAPES};

/// Ours, if it is linked, and the Rust versions.
fn versions() -> Vec<Engine> {
    engine::ours().into_iter().chain([engine::plain(), engine::planes()]).collect()
}

/// Each shape with one lane and with 64, and each operation that is timed.
fn each_case(mut of: impl FnMut(&Shape, u8, Operation)) {
    let each = SHAPES.iter().flat_map(|shape| [1, 64].map(|lanes| (shape, lanes)));
    each.for_each(|(shape, lanes)| TIMED.iter().for_each(|operation| of(shape, lanes, *operation)));
}

#[test]
fn each_version_replies_as_it_should() {
    each_case(|shape, lanes, operation| {
        let expected = match operation {
            Operation::Send => ACCEPTED,
            Operation::Lost => LOST,
            Operation::Clash => CLASH,
            _ => WHOLE,
        };
        for version in versions() {
            let said = Case::of(version, operation, shape, lanes, 100).call();
            assert_eq!(said, expected, "{}, {shape:?}, {operation:?}", version.name);
        }
    });
}

/// Ours alone has look-ups.
#[cfg(feature = "ours")]
#[test]
fn look_ups_say_what_is_known() {
    let ours = engine::ours().expect("it is linked");
    for (shape, lanes) in SHAPES.iter().flat_map(|shape| [1, 64].map(|lanes| (shape, lanes))) {
        let said = bench::operation::LOOK_UPS.map(|operation| Case::of(ours, operation, shape, lanes, 100).call());
        assert_eq!(said, [WHOLE, LOST], "{shape:?}");
    }
}

/// The rows of a receiver of the plain version before slot t + T, some of whose reports were of losses.
fn played(shape: &Shape, due: u32, losses: u32, before: &Reporting) -> Vec<u8> {
    let (version, settings) = (engine::plain(), before.settings);
    let (mut sender, mut state) = (Sender::open(version, &settings, due), [0; STATE_LEN]);
    let mut rows = vec![0; receiver_len(&settings)];
    assert_eq!((version.open_receiver)(&settings, &mut state, &mut rows), ACCEPTED);
    version.set_due(&mut state, due);
    let mut message = vec![0; shape.k() * usize::from(settings[4])];
    let oldest = before.due + 1 - shape.slots() as u32;
    for slot in due..before.due {
        sender.send_drawn();
        let lost = slot >= oldest && losses >> (slot - oldest) & 1 == 1;
        match lost {
            true => (version.lost)(&mut state, &mut rows, &mut message),
            false => (version.heard)(&mut state, &mut rows, &sender.frame, &mut message),
        };
    }
    rows
}

#[test]
fn rows_are_those_that_reports_of_the_losses_leave() {
    for shape in SHAPES {
        let heard = Reporting::from(&shape.settings(2), 100);
        for operation in TIMED {
            let losses = operation.losses(&shape);
            let same = heard.without(losses).rows == played(&shape, 100, losses, &heard);
            assert!(same, "{shape:?}, {operation:?}");
        }
    }
}

#[test]
fn a_slot_due_that_is_lost_is_a_report_of_a_loss() {
    let shape = &SHAPES[0];
    let heard = Reporting::from(&shape.settings(2), 100);
    let last = 1 << (shape.slots() - 1);
    assert!(heard.without(last >> 1).heard && !heard.without(last).heard);
    for version in versions() {
        assert_eq!(Case::report(version, &heard.without(last)).call(), WHOLE, "{}", version.name);
    }
}

#[test]
fn losses_as_they_are_printed() {
    assert_eq!(pattern(&SHAPES[3], 0b1_0000_1001), "`x.. x ....x`");
    assert_eq!(pattern(&SHAPES[3], Operation::Burst.losses(&SHAPES[3])), "`... x xxx..`");
    assert_eq!(pattern(&SHAPES[3], Operation::Lost.losses(&SHAPES[3])), "`... x xxxx.`");
    assert_eq!(pattern(&SHAPES[3], Operation::Scattered.losses(&SHAPES[3])), "`... x .x...`");
}
