//! The instructions of our calls, by callgrind.

use crate::cases::Case;
use crate::engine::Engine;
use crate::operation::{LOOK_UPS, TIMED};
use crate::placed::PAGE;
use crate::shapes::SHAPES;
use crate::table::EARLY;
use crate::valgrind::Callgrind;
use std::hint::black_box;

/// Calls of each case: more than one, so that a call that takes more at times shows.
const CALLS: u64 = 4;

/// The table of all shapes, with one lane and with 64.
pub fn print(ours: Engine, callgrind: &mut Callgrind) {
    println!("# Instructions\n");
    println!(
        "Instructions a call of ours, the mean of {CALLS} calls, counted by callgrind from the start of the library's \
         function to its return: the same in every run. Buffers and stack lie alike within their pages, as copying \
         takes some instructions more or fewer by where the bytes lie.\n"
    );
    println!("| (k, B) | operation | L = 1 | L = 64 |");
    println!("|---|---|--:|--:|");
    for shape in SHAPES {
        for operation in TIMED.into_iter().chain(LOOK_UPS) {
            let [one, all] = [1, 64].map(|lanes| {
                let mut case = Case::of(ours, operation, &shape, lanes, EARLY);
                mean(callgrind.count(|| repeat(&mut case, CALLS)))
            });
            println!("| {} | {} | {one} | {all} |", shape.name(), operation.name(&shape));
        }
    }
}

/// A page of stack.
#[repr(align(4096))]
struct Page([u8; PAGE]);

/// Calls so often, from a stack that begins at a page.
#[inline(never)]
pub fn repeat(case: &mut Case, calls: u64) {
    let mut page = Page([0; PAGE]);
    black_box(&mut page.0);
    for _ in 0..calls {
        black_box(case.call());
    }
}

/// The mean of all calls, with a fraction only if they differ.
fn mean(total: u64) -> String {
    if total % CALLS == 0 { (total / CALLS).to_string() } else { format!("{:.2}", total as f64 / CALLS as f64) }
}
