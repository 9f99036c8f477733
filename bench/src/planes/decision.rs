//! What a report says of the message due.

use super::checks::{eliminate, Found};
use super::dot::{planes, Planes, Tables, Vectors};
use super::matrix::{checks, Checks};
use crate::link::matrix::Row;
use crate::link::receiver::{clash_unless, Codeword, Window};
use crate::link::reply;
use crate::link::shape::Shape;

/// What the rows say of the message due, and its bytes if it is whole.
pub fn decide(window: &Window, message: &mut [u8]) -> u32 {
    // Worked out where it stands: handing it over would copy all of it.
    let mut work = Work::empty();
    work.begin(window.shape);
    window.gravest(message, |i, bytes| symbol(window, &mut work, i, bytes))
}

/// The code's checks, and room for the work on each codeword.
struct Work {
    checks: Checks,
    planes: [Planes; 16],
    found: Found,
    found_planes: [Planes; 16],
    tables: Tables,
}

impl Work {
    /// Room that is not filled yet.
    #[inline(always)]
    fn empty() -> Work {
        let (planes, found_planes) = ([[0; 8]; 16], [[0; 8]; 16]);
        Work { checks: [[0; 16]; 16], planes, found: Found::new(), found_planes, tables: Tables::new() }
    }

    /// Works out the code's checks.
    fn begin(&mut self, shape: &Shape) {
        self.checks = checks(shape);
        let source = ((1 << shape.k) - 1) as u16;
        all_planes(&mut self.planes, &self.checks[..shape.parities], source, shape.lanes);
    }
}

/// The bits of these checks, for some of the symbols; few lanes have no use for them.
fn all_planes(all: &mut [Planes; 16], checks: &[Row], which: u16, lanes: usize) {
    if lanes >= 8 {
        for (bits, check) in all.iter_mut().zip(checks) {
            *bits = planes(check, which);
        }
    }
}

/// What the codeword that carries symbol i of the message says, and the symbol if it is whole.
fn symbol(window: &Window, work: &mut Work, i: usize, symbol: &mut [u8]) -> u32 {
    let (k, lanes) = (window.shape.k, window.shape.lanes);
    let Codeword { known, at } = window.codeword(i);
    let source = (1 << k) - 1;
    let mut vectors = Vectors { bytes: window.rows, at, which: known as u16, own: 0, lanes };
    if known >> i & 1 == 1 {
        symbol.copy_from_slice(&window.rows[at[i]..][..lanes]);
    }
    if known & source == source {
        (vectors.which, vectors.own) = (source as u16, k);
        return clash_unless(vectors.vanish(&work.checks, &work.planes, known >> k, &mut work.tables));
    }
    repaired(window.shape, work, &vectors, i, symbol)
}

/// The same for a codeword with source symbols missing.
fn repaired(shape: &Shape, work: &mut Work, vectors: &Vectors, i: usize, symbol: &mut [u8]) -> u32 {
    let Work { checks, found, found_planes, tables, .. } = work;
    eliminate(found, checks, (shape.k, shape.n), u32::from(vectors.which), i);
    all_planes(found_planes, &found.checks[..found.count], vectors.which, vectors.lanes);
    let fits = clash_unless(vectors.vanish(&found.checks, found_planes, (1 << found.count) - 1, tables));
    if vectors.which >> i & 1 == 1 {
        return fits;
    }
    match &found.wanted {
        Some(row) => vectors.sum(row, symbol),
        None => return fits.max(reply::LOST),
    }
    fits
}
