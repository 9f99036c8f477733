//! One elimination: the rows of the matrix brought to a form with a pivot at as many known positions as possible.

use crate::link::matrix::Row;
use crate::link::receiver::Codeword;
use crate::link::tables::{INVERSE, MUL};

/// The matrix of a codeword with source symbols missing, over the positions that matter.
///
/// In the systematic form every known source position is a pivot of its own row already. The columns here are the
/// known parity positions and, last, the wanted source position if it is missing.
pub struct Reduced {
    pub rows: [Row; 16],
    /// Where the symbol at each row's pivot lies.
    pub pivots: [usize; 16],
    /// The rows without a pivot: they are 0 at all known positions.
    pub free: u32,
    /// The columns of known positions that are no pivots, and where their symbols lie.
    pub others: [(usize, usize); 16],
    pub others_count: usize,
    /// The columns of known positions; the wanted position's comes after them.
    pub columns: usize,
}

impl Reduced {
    /// Room for the work on each codeword.
    #[inline(always)]
    pub fn new() -> Reduced {
        let rows = [[0; 16]; 16];
        Reduced { rows, pivots: [0; 16], free: 0, others: [(0, 0); 16], others_count: 0, columns: 0 }
    }

    /// Eliminates from the systematic form, for the word's known symbols and the symbol wanted.
    pub fn eliminate(&mut self, matrix: &[Row; 16], k: usize, word: &Codeword, wanted: usize) {
        let missing = word.known >> wanted & 1 == 0;
        let places = self.take_columns(matrix, k, word);
        if missing {
            self.rows[..k].iter_mut().for_each(|row| row[self.columns & 15] = 0);
            self.rows[wanted & 15][self.columns & 15] = 1;
        }
        (self.pivots, self.others_count) = (word.at, 0);
        self.free = !word.known & ((1 << k) - 1);
        let width = self.columns + usize::from(missing);
        for (column, &place) in places.iter().enumerate().take(self.columns) {
            match self.free_row(column) {
                Some(row) => {
                    self.free &= !(1 << row);
                    self.pivots[row & 15] = place;
                    self.clear(k, row, column, width);
                }
                None => {
                    self.others[self.others_count & 15] = (column, place);
                    self.others_count += 1;
                }
            }
        }
    }

    /// Takes the columns of the known parity positions; where their symbols lie.
    fn take_columns(&mut self, matrix: &[Row; 16], k: usize, word: &Codeword) -> [usize; 16] {
        let (mut places, mut left) = ([0; 16], word.known >> k);
        self.columns = 0;
        while left != 0 {
            let r = left.trailing_zeros() as usize;
            left &= left - 1;
            places[self.columns & 15] = word.at[(k + r) & 15];
            for (to, from) in self.rows[..k].iter_mut().zip(matrix) {
                to[self.columns & 15] = from[r & 15];
            }
            self.columns += 1;
        }
        places
    }

    /// A row that has no pivot yet and can have it in this column.
    fn free_row(&self, column: usize) -> Option<usize> {
        let mut left = self.free;
        while left != 0 {
            let row = left.trailing_zeros() as usize;
            if self.rows[row & 15][column & 15] != 0 {
                return Some(row);
            }
            left &= left - 1;
        }
        None
    }

    /// Makes the row 1 in its pivot's column and clears that column from the other rows. Only the columns behind are
    /// worked out: this one and those before are not looked at again, or the row is 0 there.
    fn clear(&mut self, k: usize, row: usize, column: usize, width: usize) {
        let mut pivot = self.rows[row & 15];
        let products = &MUL[INVERSE[pivot[column & 15] as usize] as usize];
        for entry in &mut pivot[column + 1..width] {
            *entry = products[*entry as usize];
        }
        for (index, other) in self.rows[..k].iter_mut().enumerate() {
            let factor = other[column & 15];
            if factor != 0 && index != row {
                let products = &MUL[factor as usize];
                for (to, &from) in other[column + 1..width].iter_mut().zip(&pivot[column + 1..width]) {
                    *to ^= products[from as usize];
                }
            }
        }
        self.rows[row & 15] = pivot;
    }
}
