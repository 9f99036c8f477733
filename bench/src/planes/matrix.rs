//! The systematic form of the generator matrix, as parity checks.

use crate::link::matrix::{systematic, Row};
use crate::link::shape::Shape;

/// Check r of a word: the coefficients of all symbols whose weighted sum is 0. At the first k positions it has the
/// coefficients that give parity symbol k + r, and at the parity positions a 1 at its own.
pub type Checks = [Row; 16];

/// The checks of the code, one for each parity symbol.
pub fn checks(shape: &Shape) -> Checks {
    let parities = systematic(shape);
    let mut checks = [[0; 16]; 16];
    for (r, check) in checks.iter_mut().enumerate().take(shape.parities) {
        for (entry, row) in check.iter_mut().zip(&parities).take(shape.k) {
            *entry = row[r];
        }
        check[shape.k + r] = 1;
    }
    checks
}
