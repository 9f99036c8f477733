//! The settings, the sizes that follow, and the state.

use super::reply;

/// W, T, B, N, L, as they are set.
pub type Settings = [u8; 5];
/// The settings, the slot due (high byte first) and the slot opened at, which is 0.
pub type State = [u8; STATE_LEN];
/// Its length: that of our library's, so that putting it back takes as long.
pub const STATE_LEN: usize = 20;

/// One more than the last slot.
pub const END: u32 = 4_000_000_000;
/// The length of a frame's header.
pub const HEADER: usize = 14;
/// The mark and the version that a frame begins with.
pub const MARK: [u8; 5] = [0x54, 0x4F, 0x42, 0, 1];

/// The sizes of accepted settings.
#[derive(Clone, Copy)]
pub struct Shape {
    /// The smaller of T and W − 1 (document 02 §5).
    pub delay: usize,
    pub scattered: usize,
    pub lanes: usize,
    /// Source symbols.
    pub k: usize,
    /// Parity symbols, B.
    pub parities: usize,
    /// Symbols in a word.
    pub n: usize,
    /// Rows of the block of α.
    pub d: usize,
}

impl Shape {
    /// The sizes, or cause 1.
    #[inline]
    pub fn of(&[w, t, b, s, l]: &Settings) -> Result<Shape, u32> {
        let [delay, parities, scattered, lanes] = [t.min(w.saturating_sub(1)), b, s, l].map(usize::from);
        let accepted = 1 <= scattered
            && scattered <= parities
            && parities <= delay
            && delay + 1 + parities - scattered <= 16
            && (1..=64).contains(&lanes);
        if !accepted {
            return Err(reply::SETTINGS);
        }
        let k = delay - scattered + 1;
        Ok(Shape { delay, scattered, lanes, k, parities, n: k + parities, d: parities - scattered + 1 })
    }

    /// The length of a message.
    pub fn message(&self) -> usize {
        self.k * self.lanes
    }

    /// The length of a body.
    pub fn body(&self) -> usize {
        self.n * self.lanes
    }

    /// The length of a frame.
    pub fn frame(&self) -> usize {
        HEADER + self.body()
    }
}

/// Cause 2: a length is not the exact one.
#[inline]
pub fn exact(pairs: &[(usize, usize)]) -> Result<(), u32> {
    if pairs.iter().all(|(length, exact)| length == exact) { Ok(()) } else { Err(reply::LENGTH) }
}

/// The settings of a state.
#[inline]
pub fn settings(state: &State) -> Settings {
    [state[0], state[1], state[2], state[3], state[4]]
}

/// The slot due.
#[inline]
pub fn due(state: &State) -> u32 {
    u32::from_be_bytes([state[5], state[6], state[7], state[8]])
}

/// The slot due, or cause 3.
#[inline]
pub fn due_in_range(state: &State) -> Result<u32, u32> {
    let due = due(state);
    if due < END { Ok(due) } else { Err(reply::NO_SLOT) }
}

/// The state with another slot due.
#[inline]
pub fn set_due(state: &mut State, due: u32) {
    state[5..9].copy_from_slice(&due.to_be_bytes());
}

/// The state of an accepted opening.
pub fn opened(settings: &Settings) -> State {
    let mut state = [0; STATE_LEN];
    state[..5].copy_from_slice(settings);
    state
}

/// The length of a message, or 0 for settings that are not accepted.
pub fn message_len(settings: &Settings) -> usize {
    Shape::of(settings).map_or(0, |shape| shape.message())
}

/// The length of a frame, or 0 for settings that are not accepted.
pub fn frame_len(settings: &Settings) -> usize {
    Shape::of(settings).map_or(0, |shape| shape.frame())
}
