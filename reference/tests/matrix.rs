//! Entries of G that were not worked out by the product: the largest code by an argument of its
//! own, one code from polynomials solved for elsewhere, and for every code the degree of its rows.

#![forbid(unsafe_code)]

use reference::field::Narrow;
use reference::matrix::{spread_entry, Matrix};
use reference::settings::{every_code, Settings};

/// The rows of G, in decimal.
fn rows(matrix: &Matrix) -> Vec<Vec<u8>> {
    let row = |i| (0..matrix.n()).map(|j| matrix.entry(i, j).0).collect();
    (0..matrix.k()).map(row).collect()
}

#[test]
fn the_longest_code_that_repairs_one_loss() {
    // The positions of (15,1,1) are all sixteen narrow numbers, over which the values of a
    // polynomial of degree below 15 add up to 0. A row vanishes at positions 0 to 14 but its own,
    // where it is 1, so position 15 is 1 as well. In row 0 α is put there.
    let identity_and_parity = |i: usize| {
        let mut row = vec![0; 16];
        row[i] = 1;
        row[15] = if i == 0 { 16 } else { 1 };
        row
    };
    let matrix = Matrix::of(&Settings::of_code(15, 1, 1));
    assert!(rows(&matrix).into_iter().eq((0..15).map(identity_and_parity)));
}

#[test]
fn a_code_of_sixteen_positions_row_by_row() {
    // (12,8,5): each row was found by solving for the eight coefficients of its polynomial.
    let expected = [
        [1, 10, 15, 11, 12, 0, 0, 0, 0, 0, 0, 0, 16, 0, 0, 0],
        [0, 1, 14, 9, 2, 11, 0, 0, 0, 0, 0, 0, 0, 16, 0, 0],
        [0, 0, 1, 10, 7, 11, 14, 0, 0, 0, 0, 0, 0, 0, 16, 0],
        [0, 0, 0, 1, 3, 10, 12, 15, 0, 0, 0, 0, 0, 0, 0, 16],
        [0, 0, 0, 0, 1, 5, 7, 10, 11, 0, 0, 0, 3, 13, 2, 14],
        [0, 0, 0, 0, 0, 1, 15, 1, 14, 8, 0, 0, 15, 5, 13, 14],
        [0, 0, 0, 0, 0, 0, 1, 5, 13, 7, 13, 0, 14, 12, 5, 4],
        [0, 0, 0, 0, 0, 0, 0, 1, 8, 3, 4, 10, 5, 12, 2, 15],
    ];
    assert_eq!(rows(&Matrix::of(&Settings::of_code(12, 8, 5))), expected);
}

/// The divided difference of values at consecutive points: 0 for so many values of a polynomial
/// whose degree is at least two below their number.
fn divided_difference(first: usize, values: &[Narrow]) -> Narrow {
    if let [value] = values {
        return *value;
    }
    let last = first + values.len() - 1;
    let without_last = divided_difference(first, &values[..values.len() - 1]);
    let without_first = divided_difference(first + 1, &values[1..]);
    without_first.plus(without_last).divided_by(Narrow((first ^ last) as u8))
}

#[test]
fn every_spread_row_is_of_a_polynomial_of_degree_below_k() {
    for code in every_code() {
        for i in 0..code.k() {
            let row: Vec<Narrow> = (0..code.n()).map(|j| spread_entry(&code, i, j)).collect();
            for (first, values) in row.windows(code.k() + 1).enumerate() {
                assert_eq!(divided_difference(first, values), Narrow(0), "{code:?} {i} {first}");
            }
        }
    }
}
