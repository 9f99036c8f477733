//! The pattern test, as PATTERNS.md describes it.

use crate::field::Byte;
use crate::linear::{answer, codeword, Answer};
use crate::matrix::Matrix;
use crate::settings::{every_code, Settings};

/// The random numbers.
pub struct Draws {
    x: u64,
}

impl Draws {
    pub fn start() -> Draws {
        Draws::from(20261115)
    }

    /// The same generator with another start of x.
    pub fn from(x: u64) -> Draws {
        Draws { x }
    }

    /// `next() mod bound`.
    pub fn below(&mut self, bound: usize) -> usize {
        self.x = (self.x * 1103515245 + 12345) % 2147483648;
        (self.x / 65536) as usize % bound
    }

    /// `next() mod 256`.
    pub fn byte(&mut self) -> Byte {
        Byte(self.below(256) as u8)
    }

    /// So many bytes, by rising index.
    pub fn bytes(&mut self, count: usize) -> Vec<u8> {
        (0..count).map(|_| self.byte().0).collect()
    }
}

/// All lines of the test, without their newlines.
pub fn lines() -> Vec<String> {
    let mut draws = Draws::start();
    let mut lines = Vec::new();
    for code in every_code() {
        let matrix = Matrix::of(&code);
        for j in 0..6 {
            lines.push(line(&mut draws, &code, &matrix, j));
        }
    }
    lines
}

fn line(draws: &mut Draws, code: &Settings, matrix: &Matrix, j: usize) -> String {
    let i = draws.below(code.k());
    // Draws 0, 1, 2, 3 make these flags, and only a flag of 1 means known.
    let flags: Vec<u8> = (0..16).map(|_| [0, 1, 1, 7][draws.below(4)]).collect();
    let bytes = bytes(draws, matrix, j);
    let symbol = |p: usize| (flags[p] == 1).then_some(bytes[p]);
    let arrived: Vec<Option<Byte>> = (0..code.n()).map(symbol).collect();
    let says = text(answer(matrix, &arrived, i));
    format!("{} {} {} {j} {i} {says}", code.delay, code.burst, code.scattered)
}

/// Any bytes, a codeword, or a codeword with one symbol damaged.
fn bytes(draws: &mut Draws, matrix: &Matrix, j: usize) -> Vec<Byte> {
    if j % 3 == 2 {
        return (0..16).map(|_| draws.byte()).collect();
    }
    let first: Vec<Byte> = (0..matrix.k()).map(|_| draws.byte()).collect();
    let mut bytes = codeword(matrix, &first);
    bytes.resize(16, Byte::ZERO);
    if j % 3 == 1 {
        let q = draws.below(matrix.n());
        let e = draws.below(255) + 1;
        bytes[q] = Byte(bytes[q].0 ^ e as u8);
    }
    bytes
}

fn text(answer: Answer) -> String {
    match answer {
        Answer::Clash => "clash".to_string(),
        Answer::Lost => "lost".to_string(),
        Answer::Whole(byte) => format!("whole {}", byte.0),
    }
}
