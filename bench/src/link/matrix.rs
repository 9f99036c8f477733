//! The systematic form of the generator matrix.

use super::shape::Shape;
use super::tables::{BELOW, EXP, MUL};

/// Sixteen coefficients.
pub type Row = [u8; 16];

/// For each source symbol the parity symbols of the word that is 1 there and 0 at the other source symbols.
///
/// The first k positions of G are a band above a diagonal of ones, so the rows are cleared from the last one up.
pub fn systematic(shape: &Shape) -> [Row; 16] {
    let mut rows = [[0; 16]; 16];
    for i in (0..shape.k).rev() {
        let logs = logarithms(shape, i);
        let entry = |j: usize| EXP[logs[j & 15] as usize + 255 - logs[i & 15] as usize];
        let mut row = parity_part(shape, i, entry);
        for j in i + 1..(i + shape.scattered).min(shape.k) {
            add_multiple(&mut row, entry(j), &rows[j & 15], shape.parities);
        }
        rows[i & 15] = row;
    }
    rows
}

/// The logarithms of row i's numerators at each position that is none of its zero points.
#[inline]
fn logarithms(shape: &Shape, i: usize) -> Row {
    let (before, all, cut) = (&BELOW[i], &BELOW[shape.delay], &BELOW[i + shape.scattered]);
    let mut logs = [0; 16];
    for j in 0..16 {
        logs[j] = before[j].wrapping_add(all[j]).wrapping_sub(cut[j]);
    }
    logs
}

/// Row i of G at the parity positions, where `entry` is the spread form's.
#[inline]
fn parity_part(shape: &Shape, i: usize, entry: impl Fn(usize) -> u8) -> Row {
    let mut row = [0; 16];
    let from = shape.scattered - 1;
    // Positions k to T − 1: zero from i + N on.
    for r in 0..(i + shape.scattered).saturating_sub(shape.k).min(from) {
        row[r & 15] = entry(shape.k + r);
    }
    // Positions T to n − 1.
    if i < shape.d {
        row[(from + i) & 15] = 16;
    } else {
        for r in from..shape.parities {
            row[r & 15] = entry(shape.k + r);
        }
    }
    row
}

/// Adds a multiple of a row's first entries to another's. (With the count unknown to it, the compiler leaves the bytes
/// apart: joining sixteen of them to one word costs more than it saves.)
#[inline]
pub fn add_multiple(to: &mut Row, factor: u8, row: &Row, count: usize) {
    let products = &MUL[factor as usize];
    for (to, &from) in to.iter_mut().zip(row).take(count) {
        *to ^= products[from as usize];
    }
}
