//! One elimination: which checks and which value the known symbols of a codeword give.

use super::matrix::Checks;
use crate::link::matrix::{add_multiple, Row};
use crate::link::tables::{INVERSE, MUL};

/// What the known symbols of a codeword say.
pub struct Found {
    /// Weighted sums of known symbols that are 0 in every word: every other such sum follows from them.
    pub checks: [Row; 16],
    pub count: usize,
    /// The wanted symbol as a weighted sum of known symbols, if they determine it.
    pub wanted: Option<Row>,
}

impl Found {
    /// Nothing yet.
    #[inline(always)]
    pub fn new() -> Found {
        Found { checks: [[0; 16]; 16], count: 0, wanted: None }
    }
}

/// Clears the unknown symbols from the checks of the known parity symbols, the wanted one last, if it is unknown.
///
/// A row that cleared a symbol from the others has served: only rows free of unknown symbols are asked for.
pub fn eliminate(found: &mut Found, checks: &Checks, (k, n): (usize, usize), known: u32, wanted: usize) {
    (found.count, found.wanted) = (0, None);
    let mut parities = known >> k;
    while parities != 0 {
        found.checks[found.count & 15] = checks[parities.trailing_zeros() as usize & 15];
        found.count += 1;
        parities &= parities - 1;
    }
    let mut unknown = !known & ((1 << k) - 1) & !(1 << wanted);
    while unknown != 0 && found.count != 0 {
        clear(found, unknown.trailing_zeros() as usize, n);
        unknown &= unknown - 1;
    }
    if known >> wanted & 1 == 0 {
        found.wanted = clear(found, wanted, n).map(|row| solved(row, wanted));
    }
}

/// Takes the last row that has the symbol out of the checks and clears the symbol from the others.
#[inline]
fn clear(found: &mut Found, symbol: usize, n: usize) -> Option<Row> {
    let symbol = symbol & 15;
    let pivot = (0..found.count).rev().find(|&r| found.checks[r & 15][symbol] != 0)?;
    let row = found.checks[pivot & 15];
    found.count -= 1;
    found.checks[pivot & 15] = found.checks[found.count & 15];
    let inverse = INVERSE[row[symbol] as usize];
    for other in found.checks.iter_mut().take(pivot) {
        let factor = MUL[inverse as usize][other[symbol] as usize];
        if factor != 0 {
            add_multiple(other, factor, &row, n);
        }
    }
    Some(row)
}

/// The symbol's value from a row that is 0 at all other unknown symbols.
fn solved(mut row: Row, symbol: usize) -> Row {
    let products = &MUL[INVERSE[row[symbol & 15] as usize] as usize];
    row[symbol & 15] = 0;
    row.map(|entry| products[entry as usize])
}
