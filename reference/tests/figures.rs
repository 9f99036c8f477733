//! "Figures on the card", 1 to 8.

#![forbid(unsafe_code)]

use reference::field::{Byte, Narrow};
use reference::linear::codeword;
use reference::matrix::Matrix;
use reference::settings::Settings;

fn parity(delay: u8, burst: u8, scattered: u8, first: [u8; 2]) -> Vec<u8> {
    let matrix = Matrix::of(&Settings::of_code(delay, burst, scattered));
    let word = codeword(&matrix, &first.map(Byte));
    assert_eq!(word[..2], first.map(Byte));
    word[2..].iter().map(|byte| byte.0).collect()
}

#[test]
fn figures_1_to_4_the_fields() {
    assert_eq!(Narrow(2).times(Narrow(9)), Narrow(1));
    assert_eq!(Byte(16).times(Byte(16)), Byte(24));
    assert_eq!(Byte(16).times(Byte(24)), Byte(152));
    assert_eq!(Byte(16).reciprocal(), Some(Byte(255)));
}

#[test]
fn figure_5_the_generator_matrix() {
    let matrix = Matrix::of(&Settings::of_code(3, 2, 2));
    assert_eq!((matrix.k(), matrix.n()), (2, 4));
    // An entry outside the matrix, here at position 4 and in row 2, is 0.
    let row = |i| [0, 1, 2, 3, 4].map(|j| matrix.entry(i, j).0);
    assert_eq!([0, 1, 2].map(row), [[1, 8, 0, 16, 0], [0, 1, 2, 3, 0], [0; 5]]);
}

#[test]
fn figures_6_to_8_the_parity() {
    assert_eq!(parity(3, 2, 2, [1, 0]), [3, 27]);
    assert_eq!(parity(3, 2, 2, [0, 1]), [2, 3]);
    assert_eq!(parity(3, 3, 2, [1, 0]), [3, 16, 128]);
    assert_eq!(parity(3, 3, 2, [0, 1]), [2, 0, 16]);
    assert_eq!(parity(2, 2, 1, [1, 0]), [16, 0]);
    assert_eq!(parity(2, 2, 1, [0, 1]), [0, 16]);
}
