//! The lines of the card: figures 9 to 12, in one lane and in three, the short window, and two
//! lanes that differ.

#![forbid(unsafe_code)]

use reference::card;

/// The parts of a line behind the figure's number.
fn behind(figure: u8, line: &str) -> Vec<String> {
    let mut parts = line.split(' ').map(str::to_string);
    assert_eq!(parts.next(), Some(figure.to_string()));
    parts.collect()
}

#[test]
fn the_parts_of_the_card_have_their_headings_and_lines() {
    let lines = card::lines();
    let headings = ["in three lanes", "in a window of three slots", "in two lanes that differ"];
    assert_eq!([4, 9, 14].map(|at| &lines[at][..]), headings);
    assert_eq!(lines.len(), 18);
    for half in [&lines[..4], &lines[5..9]] {
        for (figure, line) in (9..).zip(half) {
            let messages = line.matches("whole ").count();
            assert_eq!(behind(figure, line).len(), 6 + messages, "{line}");
        }
    }
}

#[test]
fn figures_9_to_12_in_one_lane() {
    let expected = [
        "9 01000000 00010000 00000100 00000018 00000000 00000000",
        "10 none none none whole 0100 whole 0001 whole 0000",
        "11 none none none lost lost whole 0000",
        "12 none none none clash clash whole 0000",
    ];
    assert_eq!(card::lines()[..4], expected);
}

#[test]
fn figure_9_in_three_lanes() {
    let bodies = behind(9, &card::lines()[5]);
    assert_eq!(bodies[0], "011000000000000000000000");
    assert_eq!(bodies[1], "000001011000000000000000");
    assert_eq!(bodies[2], "000000000001011000000000");
    // α times 24 is 152, by figure 3: 18 and 98 in hex.
    assert_eq!(bodies[3], "000000000000000001189800");
    assert_eq!(bodies[4], "000000000000000000000018");
    assert_eq!(bodies[5], "000000000000000000000000");
}

#[test]
fn figure_9_in_one_lane_is_lane_0_of_three() {
    let of_lane_0 = |body: &String| -> String {
        (0..body.len()).step_by(6).map(|at| &body[at..at + 2]).collect()
    };
    let lines = card::lines();
    let bodies: Vec<String> = behind(9, &lines[5]).iter().map(of_lane_0).collect();
    assert_eq!(bodies, behind(9, &lines[0]));
}

#[test]
fn figures_10_to_12_in_three_lanes() {
    let expected = [
        "10 none none none whole 011000000000 whole 000001011000 whole 000000000001",
        "11 none none none lost lost whole 000000000001",
        "12 none none none clash clash whole 000000000001",
    ];
    assert_eq!(card::lines()[6..9], expected);
}

#[test]
fn frames_of_the_short_window_differ_in_t_alone() {
    // The codeword that starts at slot 0 has the first symbols 1 1, and so, by figure 8, the parity
    // 16 16; it is the only one that is not zeros.
    let bodies = ["01000000", "00010000", "00001000", "00000010", "00000000", "00000000"];
    for (t, line) in [9, 2].iter().zip(&card::lines()[10..12]) {
        let frame = |slot| format!(" 544f420001030{t}020101{slot:08x}{}", bodies[slot]);
        assert_eq!(*line, format!("sent {t}{}", (0..6).map(frame).collect::<String>()));
    }
}

#[test]
fn a_receiver_of_the_short_window_hears_its_own_sender_only() {
    let own = ["none", "none", "whole 0100", "whole 0001", "whole 0000", "whole 0000"];
    let replies: String = own.iter().map(|reply| format!(" 5 {reply}")).collect();
    assert_eq!(card::lines()[12..14], [format!("heard 9{replies}"), format!("heard 2{replies}")]);
}

#[test]
fn two_lanes_that_differ() {
    // By figure 6 the first symbols 1 1 of lane 0 have the parity 01 18 in hex, and the 1 0 of
    // lane 1 have 03 1b. They are the only codewords that are not zeros.
    let bodies = [
        "0101000000000000",
        "0000010000000000",
        "0000000001030000",
        "000000000000181b",
        "0000000000000000",
        "0000000000000000",
    ];
    let frame = |slot: usize| format!(" 544f4200010403020202{slot:08x}{}", bodies[slot]);
    let replies = "none none none whole 01010000 whole 00000100 whole 00000000";
    let expected = [
        format!("sent{}", (0..6).map(frame).collect::<String>()),
        format!("heard all {replies}"),
        format!("heard without 0 and 1 {replies}"),
    ];
    assert_eq!(card::lines()[15..], expected);
}
