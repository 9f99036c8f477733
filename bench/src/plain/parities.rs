//! The parity symbols of a frame.

use super::sums::Terms;
use crate::link::matrix::systematic;
use crate::link::sender::sources;
use crate::link::shape::Shape;

/// The parity symbols of the slot due: each one is the weighted sum of k source symbols, over all lanes at once.
pub fn write_parities(shape: &Shape, rows: &[u8], oldest: usize, out: &mut [u8]) {
    let (matrix, mut terms) = (systematic(shape), Terms::new(rows, shape.lanes));
    for (r, parity) in out.chunks_exact_mut(shape.lanes).enumerate() {
        let at = sources(shape, oldest, r);
        terms.set(matrix[..shape.k].iter().zip(at).map(|(row, place)| (row[r & 15], place)));
        terms.write(parity);
    }
}
