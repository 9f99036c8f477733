//! The lines of the scenarios: how a scenario begins, and what its calls meet.

#![forbid(unsafe_code)]

use std::sync::OnceLock;

use reference::scenarios;

/// All lines, worked out once for all tests.
fn lines() -> &'static [String] {
    static LINES: OnceLock<Vec<String>> = OnceLock::new();
    LINES.get_or_init(scenarios::lines)
}

/// Each scenario: its title, and the lines behind it.
fn every_scenario() -> Vec<(&'static str, &'static [String])> {
    let is_title = |line: &String| line.starts_with("scenario ");
    let starts = (0..lines().len()).filter(|&at| is_title(&lines()[at]));
    let behind = |from: usize| {
        let rest = &lines()[from + 1..];
        &rest[..rest.iter().position(is_title).unwrap_or(rest.len())]
    };
    starts.map(|from| (lines()[from].as_str(), behind(from))).collect()
}

#[test]
fn the_first_line_is_a_title() {
    assert_eq!(lines()[0], "scenario 2 1 1 1 1 fresh 0");
}

#[test]
fn each_ten_scenarios_have_the_same_w_t_b_and_n() {
    let of_title = |(title, _): (&'static str, _)| parts(title)[1..5].join(" ");
    let every: Vec<String> = every_scenario().into_iter().map(of_title).collect();
    let settings = [
        "2 1 1 1", "4 3 2 2", "4 3 3 2", "3 2 2 1", "9 8 8 1", "16 15 15 15", "16 15 1 1",
        "3 9 2 1", "4 4 2 2", "12 255 8 4",
    ];
    assert!(every.chunks(10).eq(settings.map(|of_ten| [of_ten; 10])));
}

/// The lines of the sender's openings, and of the receiver's.
fn openings(behind: &'static [String]) -> [&'static [String]; 2] {
    [&behind[..12], &behind[12..27]]
}

#[test]
fn a_scenario_begins_with_the_openings_of_each_end() {
    // Eight broken ways, two lengths, both at once; three at no slot; and the accepted one.
    let both = ["1", "1", "1", "1", "1", "1", "1", "1", "2", "2", "1"];
    let outcomes = [[&both[..], &["ok"]].concat(), [&both[..], &["7", "2", "1", "ok"]].concat()];
    assert_eq!(every_scenario().len(), 100);
    for (title, behind) in every_scenario() {
        for ((end, outcomes), openings) in
            ["open-sender", "open-receiver"].iter().zip(&outcomes).zip(openings(behind))
        {
            for (opening, outcome) in openings.iter().zip(outcomes) {
                assert!(opening.starts_with(&format!("{end} {outcome} ")), "{title}: {opening}");
            }
        }
        assert!(behind[27..].iter().all(|line| !line.starts_with("open")), "{title}");
    }
}

#[test]
fn a_refused_opening_prints_a_state_of_zeros_and_leaves_the_rows() {
    let state_and_sum = |line: &'static String| line.splitn(3, ' ').nth(2).expect("a state");
    for (title, behind) in every_scenario() {
        for (openings, zeros) in openings(behind).iter().zip(["0 0 0 0 0 0 ", "0 0 0 0 0 0 0 "]) {
            let first = state_and_sum(&openings[0]);
            assert!(first.starts_with(zeros), "{title}");
            assert_eq!(first.split(' ').count(), zeros.split(' ').count(), "{title}");
            let refused = &openings[..openings.len() - 1];
            assert!(refused.iter().all(|line| state_and_sum(line) == first), "{title}");
        }
    }
}

/// The parts of a line.
fn parts(line: &str) -> Vec<&str> {
    line.split(' ').collect()
}

/// The kind and the start that a title gives.
fn kind_and_start(title: &str) -> (&str, u32) {
    (parts(title)[6], parts(title)[7].parse().expect("a start"))
}

/// The delay that the W and T of a title make.
fn delay(title: &str) -> u32 {
    let number = |at: usize| parts(title)[at].parse::<u32>().expect("a number");
    number(2).min(number(1) - 1)
}

fn is_report(line: &&String) -> bool {
    line.starts_with("frame ") || line.starts_with("loss ")
}

#[test]
fn every_report_prints_the_opening_slot() {
    for (title, behind) in every_scenario() {
        let opened_at = match kind_and_start(title) {
            ("late", start) => start,
            ("lent", start) => start + 7,
            _ => 0,
        };
        let reports: Vec<&String> = behind.iter().filter(is_report).collect();
        assert!(reports.len() >= 20, "{title}");
        for report in reports {
            assert_eq!((parts(report).len(), parts(report)[7]), (11, &opened_at.to_string()[..]));
        }
    }
}

#[test]
fn a_late_receiver_starts_at_its_slot_behind_the_sends_before_it() {
    let late = every_scenario().into_iter().filter(|(title, _)| kind_and_start(title).0 == "late");
    let mut told = 0;
    for (title, behind) in late {
        let start = kind_and_start(title).1;
        let slot = start.to_string();
        assert_eq!(parts(&behind[26])[7..9], [&slot, &slot], "{title}");
        // The sends before it: the last of them makes the start due.
        let before = start.min(16) as usize;
        assert!(behind[27..27 + before].iter().all(|line| line.starts_with("send ok ")), "{title}");
        assert_eq!(parts(&behind[26 + before])[7], slot, "{title}");
        let mut reports = behind.iter().filter(is_report).map(|line| parts(line));
        let first = reports.find(|parts| parts[1].parse::<u8>().is_err()).expect("one accepted");
        assert_eq!(first[1] == "none", start < delay(title), "{title}");
        told += usize::from(first[1] != "none");
    }
    // All but one of each of the nine settings whose delay is above 1.
    assert_eq!(told, 60 - 9);
}

#[test]
fn short_windows_meet_every_reply_and_states_have_t_as_set() {
    for settings in ["3 9 2 1", "4 4 2 2", "12 255 8 4"] {
        for call in ["frame none", "frame clash", "frame whole", "frame 5", "loss lost", "loss 3"] {
            let start = format!("{call} {settings} ");
            assert!(lines().iter().any(|line| line.starts_with(&start)), "{start}");
        }
        // Where the delay is B, and N is 1, a frame heard repeats all that is due with it.
        let lost = format!("frame lost {settings} ");
        let met = lines().iter().any(|line| line.starts_with(&lost));
        assert_eq!(met, settings != "3 9 2 1", "{lost}");
    }
}

#[test]
fn every_call_meets_states_where_n_is_17() {
    for call in ["send", "frame", "loss"] {
        for settings in ["16 15 2 1", "10 9 8 1"] {
            let refused = format!("{call} 1 {settings} ");
            assert!(lines().iter().any(|line| line.starts_with(&refused)), "{refused}");
        }
    }
}
