//! Known erasure-code libraries, loaded at run time, on vectors of the same sizes.

mod isal;
mod jerasure;
mod loading;

use crate::measure::{repeated, Call};
use crate::operation::Operation;
use crate::shapes::Shape;
use loading::clean_vectors;

/// The libraries that were found.
pub struct Peers {
    jerasure: Option<jerasure::Jerasure>,
    isal: Option<isal::Isal>,
}

/// What stands beside an operation: encoding, or decoding so many lost vectors, source vectors first.
#[derive(Clone, Copy)]
enum Task {
    Encode,
    Decode(usize),
}

/// The task beside an operation, if there is one.
fn task(operation: Operation, shape: &Shape) -> Option<Task> {
    match operation {
        Operation::Send => Some(Task::Encode),
        Operation::Burst => Some(Task::Decode(shape.burst.into())),
        Operation::Scattered => Some(Task::Decode(shape.scattered.into())),
        _ => None,
    }
}

impl Peers {
    /// Loads them, with a word for each that isn't installed.
    pub fn load() -> (Peers, Vec<String>) {
        let mut words = Vec::new();
        let mut word = |missing: String| words.push(missing);
        let jerasure = jerasure::Jerasure::load().map_err(&mut word).ok();
        let isal = isal::Isal::load().map_err(&mut word).ok();
        (Peers { jerasure, isal }, words)
    }

    /// The calls that stand beside an operation, of each peer that is there.
    pub fn calls(&self, operation: Operation, shape: &Shape, lanes: u8) -> Vec<(&'static str, Call<'static>)> {
        let Some(task) = task(operation, shape) else { return Vec::new() };
        let jerasure = self.jerasure.map(|jerasure| ("jerasure", jerasure_call(jerasure, task, shape, lanes.into())));
        let isal = self.isal.map(|isal| ("ISA-L", isal_call(isal, task, shape, lanes.into())));
        jerasure.into_iter().chain(isal).collect()
    }
}

/// Jerasure's call; its vectors are whole words, so one lane is timed as eight.
fn jerasure_call(jerasure: jerasure::Jerasure, task: Task, shape: &Shape, lanes: usize) -> Call<'static> {
    let make = |lost| jerasure.code(shape, lanes.next_multiple_of(8), lost);
    match task {
        Task::Encode => {
            let mut code = make(0);
            repeated(move || code.encode())
        }
        Task::Decode(lost) => {
            let mut code = make(lost);
            assert!(code.repairs(), "jerasure does not repair its own vectors");
            repeated(move || code.decode())
        }
    }
}

/// ISA-L's call, which cleans up behind each batch.
fn isal_call(isal: isal::Isal, task: Task, shape: &Shape, lanes: usize) -> Call<'static> {
    let mut call = match task {
        Task::Encode => {
            let mut code = isal.code(shape, lanes, 0);
            repeated(move || code.encode())
        }
        Task::Decode(lost) => {
            let mut code = isal.code(shape, lanes, lost);
            assert!(code.repairs(), "ISA-L does not repair its own vectors");
            repeated(move || code.decode())
        }
    };
    Box::new(move |times| {
        call(times);
        clean_vectors();
    })
}

/// A vector of up to 64 lanes where vector instructions like it.
#[repr(align(64))]
#[derive(Clone, PartialEq, Eq)]
struct Vector([u8; 64]);

/// k source vectors, drawn, and B parity vectors; the vectors stay where they are.
struct Vectors {
    all: Vec<Vector>,
    pointers: Vec<*mut u8>,
    lanes: usize,
}

impl Vectors {
    /// Drawn bytes in all vectors.
    fn drawn(shape: &Shape, lanes: usize) -> Vectors {
        let mut draws = reference::patterns::Draws::start();
        let mut all = vec![Vector([0; 64]); shape.n()];
        for vector in &mut all {
            vector.0[..lanes].copy_from_slice(&draws.bytes(lanes));
        }
        let pointers = all.iter_mut().map(|vector| vector.0.as_mut_ptr()).collect();
        Vectors { all, pointers, lanes }
    }

    /// Forgets the bytes of a vector.
    fn forget(&mut self, index: usize) {
        self.all[index].0[..self.lanes].fill(0);
    }
}
