//! "The matrix": the spread form, the generator matrix G, and the words.

use crate::field::{Byte, Narrow};
use crate::settings::Settings;

/// G, k rows of n bytes; rows and positions count from 0.
#[derive(Clone, Debug, PartialEq, Eq)]
pub struct Matrix {
    rows: Vec<Vec<Byte>>,
}

/// The zero points of a row of the spread form: 0 to i − 1 and i + N to T − 1.
pub fn zero_points(settings: &Settings, row: usize) -> Vec<usize> {
    let behind = row + settings.scattered as usize;
    (0..row).chain(behind..settings.t()).collect()
}

/// The product, over the points p, of (position + p) divided by (row + p).
pub fn product(points: &[usize], row: usize, position: usize) -> Narrow {
    match points.split_last() {
        None => Narrow::ONE,
        Some((&last, fewer)) => product(fewer, row, position).times(factor(last, row, position)),
    }
}

fn factor(point: usize, row: usize, position: usize) -> Narrow {
    let narrow = |index: usize| Narrow(index as u8);
    let sum_with_point = |index| narrow(index).plus(narrow(point));
    sum_with_point(position).divided_by(sum_with_point(row))
}

/// An entry of the spread form, for accepted settings and a place inside it.
pub fn spread_entry(settings: &Settings, row: usize, position: usize) -> Narrow {
    product(&zero_points(settings, row), row, position)
}

/// An entry of G, for accepted settings and a place inside it.
fn generator_entry(settings: &Settings, row: usize, position: usize) -> Byte {
    // Rows 0 to d − 1, positions T to n − 1, are α times the identity.
    if row < settings.d() && position >= settings.t() {
        return if position - settings.t() == row { Byte::ALPHA } else { Byte::ZERO };
    }
    spread_entry(settings, row, position).widen()
}

impl Matrix {
    /// The generator matrix of accepted settings.
    pub fn of(settings: &Settings) -> Matrix {
        let row = |i| (0..settings.n()).map(|j| generator_entry(settings, i, j)).collect();
        Matrix { rows: (0..settings.k()).map(row).collect() }
    }

    pub fn k(&self) -> usize {
        self.rows.len()
    }

    pub fn n(&self) -> usize {
        self.rows[0].len()
    }

    /// An entry asked for outside G is 0.
    pub fn entry(&self, row: usize, position: usize) -> Byte {
        let found = self.rows.get(row).and_then(|entries| entries.get(position));
        found.copied().unwrap_or(Byte::ZERO)
    }

    /// The entries of all rows at one position.
    pub fn column(&self, position: usize) -> Vec<Byte> {
        (0..self.k()).map(|row| self.entry(row, position)).collect()
    }

    /// The word that is the sum of these byte multiples of the rows.
    pub fn word(&self, multipliers: &[Byte]) -> Vec<Byte> {
        (0..self.n()).map(|position| weighted_sum(multipliers, &self.column(position))).collect()
    }
}

fn weighted_sum(multipliers: &[Byte], bytes: &[Byte]) -> Byte {
    let terms = multipliers.iter().zip(bytes).map(|(m, b)| m.times(*b));
    terms.fold(Byte::ZERO, Byte::plus)
}

#[cfg(test)]
mod tests {
    use super::*;
    use crate::settings::every_code;

    #[test]
    fn a_spread_row_vanishes_at_its_points_and_is_one_at_its_own() {
        for code in every_code() {
            for row in 0..code.k() {
                let points = zero_points(&code, row);
                assert_eq!(points.len(), code.k() - 1);
                assert!(points.iter().all(|&p| spread_entry(&code, row, p) == Narrow::ZERO));
                assert_eq!(spread_entry(&code, row, row), Narrow::ONE);
            }
        }
    }
}
