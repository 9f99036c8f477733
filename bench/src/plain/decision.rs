//! What a report says of the message due.

use super::elimination::Reduced;
use super::sums::Terms;
use crate::link::matrix::{systematic, Row};
use crate::link::receiver::{Codeword, Window};
use crate::link::reply;

/// What the rows say of the message due, and its bytes if it is whole.
pub fn decide(window: &Window, message: &mut [u8]) -> u32 {
    let (k, matrix) = (window.shape.k, systematic(window.shape));
    let (mut reduced, mut terms) = (Reduced::new(), Terms::new(window.rows, window.shape.lanes));
    window.gravest(message, |i, symbol| {
        let word = window.codeword(i);
        let source = (1 << k) - 1;
        if word.known >> i & 1 == 1 {
            symbol.copy_from_slice(&window.rows[word.at[i & 15]..][..symbol.len()]);
        }
        if word.known & source == source {
            return unbroken(&mut terms, &matrix[..k], &word);
        }
        reduced.eliminate(&matrix, k, &word, i);
        repaired(&mut terms, &reduced, k, word.known >> i & 1 == 0, symbol)
    })
}

/// The verdict on a codeword whose source symbols are all known: they are the pivots of the systematic form.
fn unbroken(terms: &mut Terms, matrix: &[Row], word: &Codeword) -> u32 {
    let mut left = word.known >> matrix.len();
    while left != 0 {
        let r = left.trailing_zeros() as usize;
        left &= left - 1;
        terms.set(column(matrix, &word.at, r));
        if !terms.equal(word.at[(matrix.len() + r) & 15]) {
            return reply::CLASH;
        }
    }
    reply::WHOLE
}

/// The verdict on a codeword with source symbols missing, and the symbol if it is missing and repaired.
fn repaired(terms: &mut Terms, reduced: &Reduced, k: usize, missing: bool, symbol: &mut [u8]) -> u32 {
    let rows = &reduced.rows[..k];
    for &(other, place) in &reduced.others[..reduced.others_count] {
        terms.set(column(rows, &reduced.pivots, other));
        if !terms.equal(place) {
            return reply::CLASH;
        }
    }
    if !missing {
        return reply::WHOLE;
    }
    let wanted = reduced.columns & 15;
    if rows.iter().enumerate().any(|(index, row)| reduced.free >> index & 1 == 1 && row[wanted] != 0) {
        return reply::LOST;
    }
    terms.set(column(rows, &reduced.pivots, wanted));
    terms.write(symbol);
    reply::WHOLE
}

/// Each row's entry in this column, with the place of the symbol at the row's pivot. A row without a pivot has a 0 in
/// all columns that are asked for.
#[inline(always)]
fn column<'a>(rows: &'a [Row], pivots: &'a [usize; 16], column: usize) -> impl Iterator<Item = (u8, usize)> + 'a {
    rows.iter().zip(pivots).map(move |(row, &place)| (row[column & 15], place))
}
