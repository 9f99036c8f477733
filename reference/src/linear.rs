//! Which words fit what arrived (demand 2): a word is a sum of multiples of G's rows,
//! so each known position is one linear equation in the row multipliers.

use crate::field::Byte;
use crate::matrix::Matrix;

/// What the fitting words say together about one position.
#[derive(Clone, Copy, Debug, PartialEq, Eq)]
pub enum Answer {
    /// No word fits.
    Clash,
    /// Two fitting words differ there.
    Lost,
    /// The byte that all fitting words share there.
    Whole(Byte),
}

/// The sum over the rows of coefficient times multiplier equals the value.
#[derive(Clone, Debug)]
struct Equation {
    coefficients: Vec<Byte>,
    value: Byte,
}

impl Equation {
    /// The first row with a coefficient other than zero.
    fn lead(&self) -> Option<usize> {
        self.coefficients.iter().position(|&c| c != Byte::ZERO)
    }

    fn scaled(&self, factor: Byte) -> Equation {
        let coefficients = self.coefficients.iter().map(|c| c.times(factor)).collect();
        Equation { coefficients, value: self.value.times(factor) }
    }

    fn plus(&self, other: &Equation) -> Equation {
        let pairs = self.coefficients.iter().zip(&other.coefficients);
        let coefficients = pairs.map(|(a, b)| a.plus(*b)).collect();
        Equation { coefficients, value: self.value.plus(other.value) }
    }
}

/// Independent equations with their leads: each has 1 at its own lead
/// and 0 at the leads of those held before it.
#[derive(Default)]
struct System {
    held: Vec<(usize, Equation)>,
    contradictory: bool,
}

impl System {
    /// One equation for each known position; an erasure says nothing.
    fn of(matrix: &Matrix, arrived: &[Option<Byte>]) -> System {
        let mut system = System::default();
        for (position, symbol) in arrived.iter().enumerate() {
            if let Some(value) = *symbol {
                system.add(Equation { coefficients: matrix.column(position), value });
            }
        }
        system
    }

    /// The equation less the multiples of the held ones that clear every lead.
    fn reduced(&self, equation: Equation) -> Equation {
        self.held.iter().fold(equation, |left, (lead, held)| {
            // Adding is taking away as well.
            left.plus(&held.scaled(left.coefficients[*lead]))
        })
    }

    fn add(&mut self, equation: Equation) {
        let left = self.reduced(equation);
        match left.lead() {
            Some(lead) => {
                let factor = Byte::ONE.divided_by(left.coefficients[lead]);
                self.held.push((lead, left.scaled(factor)));
            }
            // Nothing equals a value: it follows from the held ones only if the value is 0.
            None => self.contradictory |= left.value != Byte::ZERO,
        }
    }

    /// The value that every solution gives this sum of multipliers, if they share one.
    fn value_of(&self, coefficients: Vec<Byte>) -> Option<Byte> {
        let left = self.reduced(Equation { coefficients, value: Byte::ZERO });
        // Coefficients left over are of free multipliers: there the solutions differ.
        if left.lead().is_none() { Some(left.value) } else { None }
    }
}

/// What the words with these bytes at the known positions say of one position;
/// `arrived` has a byte for a known position and `None` for an erasure.
pub fn answer(matrix: &Matrix, arrived: &[Option<Byte>], position: usize) -> Answer {
    let system = System::of(matrix, arrived);
    if system.contradictory {
        return Answer::Clash;
    }
    match system.value_of(matrix.column(position)) {
        Some(byte) => Answer::Whole(byte),
        None => Answer::Lost,
    }
}

/// The codeword with these first k symbols.
pub fn codeword(matrix: &Matrix, first: &[Byte]) -> Vec<Byte> {
    assert_eq!(first.len(), matrix.k());
    let arrived: Vec<Option<Byte>> = first.iter().copied().map(Some).collect();
    let system = System::of(matrix, &arrived);
    // For each choice of the first k symbols there is exactly one word.
    assert!(!system.contradictory);
    let symbol = |position| system.value_of(matrix.column(position)).expect("only one word");
    (0..matrix.n()).map(symbol).collect()
}

#[cfg(test)]
mod tests {
    use super::*;
    use crate::patterns::Draws;
    use crate::settings::{every_code, Settings};

    /// All 256 words, or 65,536, of a code with k = 1 or 2.
    fn every_word(matrix: &Matrix) -> Vec<Vec<Byte>> {
        let pairs = Byte::all().flat_map(|a| Byte::all().map(move |b| [a, b]));
        let choices = pairs.filter(|pair| matrix.k() == 2 || pair[1] == Byte::ZERO);
        choices.map(|pair| matrix.word(&pair[..matrix.k()])).collect()
    }

    fn fits(word: &[Byte], arrived: &[Option<Byte>]) -> bool {
        word.iter().zip(arrived).all(|(byte, symbol)| symbol.is_none_or(|known| known == *byte))
    }

    /// The answer by trying all words.
    fn tried(words: &[Vec<Byte>], arrived: &[Option<Byte>], position: usize) -> Answer {
        let mut fitting = words.iter().filter(|word| fits(word, arrived));
        match fitting.next().map(|word| word[position]) {
            None => Answer::Clash,
            Some(byte) if fitting.all(|word| word[position] == byte) => Answer::Whole(byte),
            Some(_) => Answer::Lost,
        }
    }

    /// Every set of known positions, with a true word, a damaged one and any bytes.
    fn compare_with_trying(delay: u8, burst: u8, scattered: u8) {
        let matrix = Matrix::of(&Settings::of_code(delay, burst, scattered));
        let words = every_word(&matrix);
        let mut draws = Draws::start();
        for known in 0..1_u32 << matrix.n() {
            let word = matrix.word(&[draws.byte(), draws.byte()][..matrix.k()]);
            let mut damaged = word.clone();
            damaged[draws.below(matrix.n())] = draws.byte();
            let any = (0..matrix.n()).map(|_| draws.byte()).collect();
            for bytes in [word, damaged, any] {
                let symbol = |p: usize| ((known >> p) & 1 == 1).then_some(bytes[p]);
                let arrived: Vec<Option<Byte>> = (0..matrix.n()).map(symbol).collect();
                for position in 0..matrix.n() {
                    let expected = tried(&words, &arrived, position);
                    assert_eq!(answer(&matrix, &arrived, position), expected);
                }
            }
        }
    }

    #[test]
    fn one_source_symbol_agrees_with_trying_all_words() {
        (1..=6).for_each(|size| compare_with_trying(size, size, size));
    }

    #[test]
    fn two_source_symbols_agree_with_trying_all_words() {
        compare_with_trying(2, 1, 1);
        compare_with_trying(2, 2, 1);
        compare_with_trying(3, 2, 2);
        compare_with_trying(3, 3, 2);
    }

    #[test]
    fn the_codeword_is_the_only_word_with_its_first_symbols() {
        let matrix = Matrix::of(&Settings::of_code(3, 3, 2));
        let words = every_word(&matrix);
        for first in [[0, 0], [1, 0], [0, 1], [200, 17], [255, 255]].map(|f| f.map(Byte)) {
            let fitting: Vec<_> = words.iter().filter(|word| word[..2] == first).collect();
            assert_eq!(fitting, [&codeword(&matrix, &first)]);
        }
    }

    #[test]
    fn a_burst_from_a_source_symbol_on_is_repaired_within_the_delay() {
        for code in every_code() {
            let matrix = Matrix::of(&code);
            let first: Vec<Byte> = (1..=code.k()).map(|byte| Byte(byte as u8)).collect();
            let word = codeword(&matrix, &first);
            for (start, symbol_sent) in first.iter().enumerate() {
                let burst = start..start + code.burst as usize;
                let symbol = |p: usize| (!burst.contains(&p)).then_some(word[p]);
                let due = (start + code.t() + 1).min(code.n());
                let arrived: Vec<Option<Byte>> = (0..due).map(symbol).collect();
                assert_eq!(answer(&matrix, &arrived, start), Answer::Whole(*symbol_sent));
            }
        }
    }
}
