//! "Playing a recording": frames of one length back to back, and the text printed for them.
//! Two recordings of one meeting (document 02 §7) are played as one.

use crate::frame;
use crate::pair;
use crate::receiver::{self, Reply};
use crate::settings::Settings;
use crate::state::{check_settings, refuse_if, ReceiverState, Refusal};

/// A recording is at most 64 KiB.
pub const LONGEST: usize = 64 * 1024;
/// A frame's slot is at most this far above the slot due.
pub const FURTHEST: u32 = 4095;

/// The bytes that the program prints for a recording.
pub fn transcript(recording: &[u8]) -> Vec<u8> {
    let mut text = String::new();
    let played = play_into(recording, &mut text);
    with_stop(text, played)
}

/// The bytes that the program prints for a pair of recordings.
pub fn play_pair(first: &[u8], second: &[u8]) -> Vec<u8> {
    let mut text = String::new();
    let played = play_pair_into(first, second, &mut text);
    with_stop(text, played)
}

/// The lines printed, and at a refusal the line of the stop.
fn with_stop(mut text: String, played: Result<(), Refusal>) -> Vec<u8> {
    if let Err(refusal) = played {
        text += &format!("stop {}\n", refusal.number());
    }
    text.into_bytes()
}

fn play_into(recording: &[u8], text: &mut String) -> Result<(), Refusal> {
    if recording.is_empty() {
        return Ok(());
    }
    let settings = check_recording(recording)?;
    let mut player = Player::start(settings);
    for frame in recording.chunks_exact(frame::length(&settings)) {
        player.check(frame)?;
        player.play_frame(frame, text)?;
    }
    Ok(())
}

/// A pair is checked whole before any line. Its first recording that isn't empty gives the
/// settings; the slots that neither has are skipped as those of one recording are.
fn play_pair_into(first: &[u8], second: &[u8], text: &mut String) -> Result<(), Refusal> {
    let Some(leading) = [first, second].into_iter().find(|recording| !recording.is_empty()) else {
        return Ok(());
    };
    refuse_if(leading.len() < frame::HEADER, Refusal::WrongLength)?;
    let settings = frame::settings(leading);
    pair::check_pair(&settings, first, second)?;
    let mut player = Player::start(settings);
    for frame in pair::joined(&settings, first, second).values() {
        player.check(frame)?;
        player.play_frame(frame, text)?;
    }
    Ok(())
}

/// The checks before any message line is printed. The first frame gives the settings.
fn check_recording(recording: &[u8]) -> Result<Settings, Refusal> {
    let outside = recording.len() < frame::HEADER || recording.len() > LONGEST;
    refuse_if(outside, Refusal::WrongLength)?;
    let settings = frame::settings(recording);
    check_settings(&settings)?;
    let part_left = !recording.len().is_multiple_of(frame::length(&settings));
    refuse_if(part_left, Refusal::WrongLength)?;
    Ok(settings)
}

/// A receiver with its rows and its message buffer.
struct Player {
    state: ReceiverState,
    rows: Vec<u8>,
    message: Vec<u8>,
}

impl Player {
    /// A receiver opened at slot 0 with accepted settings.
    fn start(settings: Settings) -> Player {
        let mut rows = vec![0; receiver::rows_length(&settings)];
        let (state, opened) = receiver::open(settings, 0, &mut rows);
        assert_eq!(opened, Ok(()));
        Player { state, rows, message: vec![0; frame::message_length(&settings)] }
    }

    /// 4 and 5 in the table's order; then 6 if the slot is below the slot due or more than
    /// 4,095 above it.
    fn check(&self, frame: &[u8]) -> Result<(), Refusal> {
        frame::check_kind(frame, &self.state.settings)?;
        let above = frame::slot(frame).checked_sub(self.state.due);
        refuse_if(above.is_none_or(|slots| slots > FURTHEST), Refusal::NotTheSlotDue)
    }

    /// The skipped slots are reported as losses, and then the frame itself.
    fn play_frame(&mut self, frame: &[u8], text: &mut String) -> Result<(), Refusal> {
        while self.state.due < frame::slot(frame) {
            let report = receiver::report_loss(self.state, &mut self.rows, &mut self.message);
            self.took(report, text)?;
        }
        let report = receiver::report_frame(self.state, &mut self.rows, frame, &mut self.message);
        self.took(report, text)
    }

    fn took(
        &mut self,
        (state, reply): (ReceiverState, Result<Reply, Refusal>),
        text: &mut String,
    ) -> Result<(), Refusal> {
        let reported = self.state.due;
        self.state = state;
        *text += &self.line(reported, reply?);
        Ok(())
    }

    /// The line of the message due when this slot was reported; "none yet" has none.
    fn line(&self, reported: u32, reply: Reply) -> String {
        let says = match reply {
            Reply::NoneYet => return String::new(),
            Reply::Lost => "lost".to_string(),
            Reply::Clash => "clash".to_string(),
            Reply::Whole => format!("whole {}", hex(&self.message)),
        };
        let message = reported - self.state.settings.t() as u32;
        format!("{message} {says}\n")
    }
}

/// Lower-case hex.
pub fn hex(bytes: &[u8]) -> String {
    bytes.iter().map(|byte| format!("{byte:02x}")).collect()
}
