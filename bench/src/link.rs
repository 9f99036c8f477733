//! What the two Rust versions share: settings, refusals, frames, rows, and the systematic form of the matrix. How the
//! sums over lanes are worked out, and how a codeword with losses is, each version says for itself.
//!
//! Every call works out the matrix and its systematic form anew; nothing but the state and the lent rows is kept.

pub mod matrix;
pub mod receiver;
pub mod sender;
pub mod shape;
pub mod tables;

/// What a call answers: 0 or a verdict when accepted, or the first listed cause.
pub mod reply {
    pub const ACCEPTED: u32 = 0;
    pub const SETTINGS: u32 = 1;
    pub const LENGTH: u32 = 2;
    pub const NO_SLOT: u32 = 3;
    pub const MARK: u32 = 4;
    pub const OTHER_SETTINGS: u32 = 5;
    pub const NOT_DUE: u32 = 6;
    pub const NOT_RISING: u32 = 9;
    pub const DIFFERENT: u32 = 10;
    pub const NONE_YET: u32 = 16;
    pub const WHOLE: u32 = 17;
    pub const LOST: u32 = 18;
    pub const CLASH: u32 = 19;
}
