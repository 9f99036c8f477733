//! What is timed and counted: the kinds of call, and what was lost before each.

use crate::link::reply;
use crate::shapes::Shape;

/// Losses among the k + T slots that a report looks at, t − k + 1 to t + T, where message t is due: bit x is set where
/// slot t − k + 1 + x is lost.
pub type Losses = u32;

/// A kind of call.
#[derive(Clone, Copy, Debug, PartialEq, Eq)]
pub enum Operation {
    Send,
    NothingLost,
    Burst,
    Scattered,
    /// A burst that is one slot too long.
    Lost,
    /// One byte of slot t is damaged, in the message's last symbol.
    Clash,
    /// The losses after which a report takes most instructions.
    Worst,
    /// A look-up of message t right after slot t, nothing lost.
    LookUpHeard,
    /// A look-up of message t before slot t + T, after a burst from slot t on, which takes that slot to be repaired.
    LookUpBurst,
}

/// What all versions have, and is timed.
pub const TIMED: [Operation; 7] = [
    Operation::Send,
    Operation::NothingLost,
    Operation::Burst,
    Operation::Scattered,
    Operation::Lost,
    Operation::Clash,
    Operation::Worst,
];

/// What ours has on top of that.
pub const LOOK_UPS: [Operation; 2] = [Operation::LookUpHeard, Operation::LookUpBurst];

impl Operation {
    /// The operation as it is printed.
    pub fn name(self, shape: &Shape) -> String {
        match self {
            Operation::Send => "send".into(),
            Operation::NothingLost => "report, nothing lost".into(),
            Operation::Burst => format!("report, burst of {}", shape.burst),
            Operation::Scattered => format!("report, {} scattered", shape.scattered),
            Operation::Lost => format!("report, lost: burst of {}", shape.burst + 1),
            Operation::Clash => "report, clash".into(),
            Operation::Worst => format!("report, worst: {}", pattern(shape, shape.worst)),
            Operation::LookUpHeard => "look-up, just heard".into(),
            Operation::LookUpBurst => format!("look-up, not known yet: burst of {}", shape.burst),
        }
    }

    /// The losses up to slot t + T, which is due: it is as lost to a look-up.
    pub fn losses(self, shape: &Shape) -> Losses {
        match self {
            Operation::Burst => burst(shape, shape.burst),
            Operation::LookUpBurst => burst(shape, shape.burst) | 1 << (shape.slots() - 1),
            Operation::Lost => burst(shape, shape.burst + 1),
            Operation::Scattered => scattered(shape),
            Operation::Worst => shape.worst,
            Operation::Send | Operation::NothingLost | Operation::Clash | Operation::LookUpHeard => 0,
        }
    }

    /// What is replied, where it is not left to the losses.
    pub fn reply(self) -> Option<u32> {
        match self {
            Operation::Send => Some(reply::ACCEPTED),
            Operation::Lost | Operation::LookUpBurst => Some(reply::LOST),
            Operation::Clash => Some(reply::CLASH),
            Operation::Worst => None,
            _ => Some(reply::WHOLE),
        }
    }
}

/// So many losses from slot t on.
fn burst(shape: &Shape, length: u8) -> Losses {
    ((1 << length) - 1) << (shape.k() - 1)
}

/// N losses from slot t on, as far apart as the delay allows.
fn scattered(shape: &Shape) -> Losses {
    let count = usize::from(shape.scattered);
    let apart = (shape.k() / count).max(1);
    (0..count).map(|j| 1 << (shape.k() - 1 + j * apart)).sum()
}

/// The slots from t − k + 1 on, `x` for a loss, with slot t between bars.
pub fn pattern(shape: &Shape, losses: Losses) -> String {
    let own = shape.k() - 1;
    let mark = |x: usize| if losses >> x & 1 == 1 { 'x' } else { '.' };
    let part = |slots: std::ops::Range<usize>| slots.map(mark).collect::<String>();
    format!("`{} {} {}`", part(0..own), mark(own), part(own + 1..shape.slots()))
}
