//! The parity symbols of a frame.

use super::dot::Vectors;
use super::matrix::checks;
use crate::link::sender::sources;
use crate::link::shape::Shape;

/// The parity symbols of the slot due.
pub fn write_parities(shape: &Shape, rows: &[u8], oldest: usize, out: &mut [u8]) {
    let checks = checks(shape);
    for (r, parity) in out.chunks_exact_mut(shape.lanes).enumerate() {
        let (at, which) = (sources(shape, oldest, r), ((1 << shape.k) - 1) as u16);
        Vectors { bytes: rows, at, which, own: 0, lanes: shape.lanes }.sum(&checks[r], parity);
    }
}
