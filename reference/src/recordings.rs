//! The example recordings, with what is printed for each: written by the reference's own
//! sender from fixed starts of the draws. The pairs of them go into a directory of their own.

use std::fs;
use std::io;
use std::path::Path;

use crate::broadcast::{self, set_settings, set_slot, without, Frames};
use crate::frame::{self, HEADER};
use crate::pair_examples;
use crate::patterns::Draws;
use crate::play::{transcript, FURTHEST, LONGEST};
use crate::settings::Settings;

/// A name and a recording.
pub type Example = (&'static str, Vec<u8>);

/// Writes NAME.rec and NAME.out for each example, and the pairs into a directory `pairs`.
pub fn write(directory: &Path) -> io::Result<()> {
    for (name, recording) in examples() {
        fs::write(directory.join(format!("{name}.rec")), &recording)?;
        fs::write(directory.join(format!("{name}.out")), transcript(&recording))?;
    }
    let pairs = directory.join("pairs");
    fs::create_dir_all(&pairs)?;
    pair_examples::write(&pairs)
}

pub fn examples() -> Vec<Example> {
    let mut draws = Draws::from(20261118);
    let clean = broadcast::drawn(&mut draws, middling(), 40);
    let parts = [
        card(),
        played(&mut draws, &clean),
        vec![("fade", fade())],
        short_windows(),
        stopped_before_the_first_line(&clean),
        stopped_at_a_frame(&clean),
        gaps(&mut draws),
        full(&mut draws),
    ];
    parts.concat()
}

/// The settings of most examples.
pub fn middling() -> Settings {
    Settings { window: 12, lanes: 4, ..Settings::of_code(6, 3, 2) }
}

/// Document 01's example, and case 9 whole.
fn card() -> Vec<Example> {
    let messages = [vec![1, 0], vec![0, 1], vec![0, 0], vec![0, 0], vec![0, 0]];
    let frames = broadcast::of(Settings::of_code(3, 2, 2), &messages);
    vec![("card", frames[2..].concat()), ("card-whole", frames.concat()), ("empty", Vec::new())]
}

/// Recordings that are played to their end.
fn played(draws: &mut Draws, clean: &Frames) -> Vec<Example> {
    let mut damaged = clean.clone();
    damaged[15][HEADER + 9] ^= 0x40;
    vec![
        ("clean", clean.concat()),
        ("few", clean[..6].concat()),
        ("first-line", clean[..7].concat()),
        ("late", clean[30..].concat()),
        ("bursts", without(clean, [4, 5, 6, 18, 19, 20, 32, 33, 34]).concat()),
        ("scattered", without(clean, [3, 8, 15, 20, 27, 32]).concat()),
        ("too-many", without(clean, [10, 11, 12, 14, 16, 18]).concat()),
        ("damaged", damaged.concat()),
        ("july", july(draws)),
        ("widest", widest(draws)),
    ]
}

/// Lists of runners: bursts of B losses, each in a window of its own, and one of more.
fn july(draws: &mut Draws) -> Vec<u8> {
    let settings = Settings { window: 16, lanes: 8, ..Settings::of_code(9, 3, 2) };
    let lists: Vec<Vec<u8>> = (1..=80).map(|race| runners(draws, race)).collect();
    let bursts = (6..9).chain(24..27).chain(42..47).chain(64..67);
    without(&broadcast::of(settings, &lists), bursts).concat()
}

const HORSES: [&str; 9] = [
    "Marram", "Tidewater", "Old Penny", "Harebell", "Sexton", "Kittiwake", "Brass Lad",
    "Quayside", "Nightjar",
];

/// A list of three runners, 64 bytes of text with zeros behind it.
fn runners(draws: &mut Draws, race: usize) -> Vec<u8> {
    let first = draws.below(9);
    let runner = |place: usize| {
        let number = 4 * place + 1 + draws.below(4);
        format!("{number} {}", HORSES[(first + 2 * place) % 9])
    };
    let list = (0..3).map(runner).collect::<Vec<String>>().join(", ");
    let mut text = format!("4 July race {race}: {list}").into_bytes();
    text.resize(64, 0);
    text
}

/// The longest frames, and a burst as long as any that the code repairs.
fn widest(draws: &mut Draws) -> Vec<u8> {
    let settings = Settings { window: 255, lanes: 64, ..Settings::of_code(8, 8, 1) };
    without(&broadcast::drawn(draws, settings, 24), 5..13).concat()
}

/// Two fades of B slots, in stretches of their own: in each a frame got through, at another place.
/// Its draws start on their own, so that the other examples keep theirs.
fn fade() -> Vec<u8> {
    let settings = Settings { window: 9, lanes: 2, ..Settings::of_code(6, 4, 1) };
    let frames = broadcast::drawn(&mut Draws::from(20261123), settings, 30);
    without(&frames, [6, 7, 9, 18, 20, 21]).concat()
}

/// Windows no longer than the delay that was set, with draws of their own. Of the bursts the first
/// two are as near as W = 3 allows, and the last leaves just the frames that its messages need.
fn short_windows() -> Vec<Example> {
    let settings = Settings { delay: 9, lanes: 2, ..Settings::of_code(2, 2, 1) };
    let short = broadcast::drawn(&mut Draws::from(20261124), settings, 30);
    // It works alike, and yet is another setting.
    let mut other = short.clone();
    set_settings(&mut other[20], &Settings { delay: 2, ..settings });
    let settings = Settings { window: middling().delay, ..middling() };
    let middle = broadcast::drawn(&mut Draws::from(20261125), settings, 40);
    vec![
        ("short-window", without(&short, [4, 5, 8, 9, 26, 27]).concat()),
        ("window-of-the-delay", without(&middle, 18..21).concat()),
        ("stop-5-delay", other.concat()),
    ]
}

/// Causes 2, 1 and 2 again, before any message line.
fn stopped_before_the_first_line(clean: &Frames) -> Vec<Example> {
    let recording = clean.concat();
    let all_but_last = recording.len() - 1;
    let refused = Settings { window: middling().burst, ..middling() };
    let mut narrow = clean.clone();
    narrow.iter_mut().for_each(|frame| set_settings(frame, &refused));
    let narrow = narrow.concat();
    vec![
        ("stop-1", narrow.clone()),
        ("stop-1-part", narrow[..all_but_last].to_vec()),
        ("stop-2-short", recording[..HEADER - 1].to_vec()),
        ("stop-2-short-zeros", vec![0; HEADER - 1]),
        ("stop-2-header", recording[..HEADER].to_vec()),
        ("stop-2-part", recording[..all_but_last].to_vec()),
        ("stop-2-long", vec![0; LONGEST + 1]),
    ]
}

/// Causes 4, 5 and 6, met by the frame of slot 20 or of a slot that it claims.
fn stopped_at_a_frame(clean: &Frames) -> Vec<Example> {
    // The same n, and so the same length.
    let other = Settings { window: 12, lanes: 4, ..Settings::of_code(5, 3, 1) };
    let marked = |frame: &mut [u8]| frame[2] = b'C';
    let changed = |change: &dyn Fn(&mut [u8])| {
        let mut frames = clean.clone();
        change(&mut frames[20]);
        frames
    };
    let all_three = |frame: &mut [u8]| {
        marked(frame);
        set_settings(frame, &other);
        set_slot(frame, 19);
    };
    let last_two = |frame: &mut [u8]| {
        set_settings(frame, &other);
        set_slot(frame, 19);
    };
    vec![
        ("stop-4-mark", changed(&marked).concat()),
        ("stop-4-version", changed(&|frame| frame[4] = 2).concat()),
        ("stop-4-before-5-and-6", changed(&all_three).concat()),
        ("stop-4-skipped", without(&changed(&marked), 10..20).concat()),
        ("stop-5", changed(&|frame| set_settings(frame, &other)).concat()),
        ("stop-5-before-6", changed(&last_two).concat()),
        ("stop-6-below", changed(&|frame| set_slot(frame, 19)).concat()),
        ("stop-6-huge", changed(&|frame| set_slot(frame, u32::MAX)).concat()),
    ]
}

/// A frame 4,095 or 4,096 above the slot due, which is slot 10 or slot 0.
fn gaps(draws: &mut Draws) -> Vec<Example> {
    let frames = broadcast::drawn(draws, Settings::of_code(3, 2, 2), 4120);
    let furthest = FURTHEST as usize;
    let after = |gap: usize| without(&frames[..gap + 20], 10..10 + gap).concat();
    vec![
        ("gap-4095", after(furthest)),
        ("gap-4096", after(furthest + 1)),
        ("gap-4095-first", frames[furthest..furthest + 10].concat()),
        ("stop-6-above", frames[furthest + 1..furthest + 11].concat()),
    ]
}

/// 65,536 bytes: in the shortest frames, and in frames of 256 bytes; and one byte more.
fn full(draws: &mut Draws) -> Vec<Example> {
    let mut of = |settings: Settings| {
        let slots = LONGEST / frame::length(&settings);
        broadcast::drawn(draws, settings, slots).concat()
    };
    let short_frames = of(Settings::of_code(1, 1, 1));
    let long_frames = of(Settings { lanes: 22, ..Settings::of_code(9, 3, 2) });
    let and_one = [&short_frames[..], &[0]].concat();
    vec![("full", short_frames), ("full-long-frames", long_frames), ("full-and-one", and_one)]
}
