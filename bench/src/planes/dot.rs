//! Weighted sums of vectors of lanes.
//!
//! A sum of c × x over many x is, bit by bit of the coefficients, a sum of the vectors whose coefficient has that bit,
//! times that bit; so the vectors are only added, and a sum is multiplied by z three times for each nibble and by α
//! once. This works on words of eight lanes and leaves it to the compiler to join words. Below eight lanes the table
//! of products is quicker.

use crate::link::matrix::Row;
use crate::link::tables::MUL;

/// Where the vectors of a sum lie: vector j begins at byte `at[j]`; it takes part if bit j of `which` is set.
pub struct Vectors<'a> {
    pub bytes: &'a [u8],
    pub at: [usize; 16],
    pub which: u16,
    /// If not 0: check r also has the vector this many after the r-th, with coefficient 1.
    pub own: usize,
    pub lanes: usize,
}

/// For each bit of a coefficient, the vectors whose coefficient has it.
pub type Planes = [u16; 8];

/// The eight bits of sixteen coefficients, for some of the vectors.
#[inline]
pub fn planes(coefficients: &Row, which: u16) -> Planes {
    let (low, high) = coefficients.split_at(8);
    let half = |bytes: &[u8]| transposed(u64::from_le_bytes(bytes.try_into().unwrap())).to_le_bytes();
    let (low, high) = (half(low), half(high));
    std::array::from_fn(|b| u16::from_le_bytes([low[b], high[b]]) & which)
}

/// Eight by eight bits with rows and columns exchanged.
#[inline]
fn transposed(mut x: u64) -> u64 {
    let mut swap = |shift: u32, mask: u64| {
        let t = (x ^ (x >> shift)) & mask;
        x ^= t ^ (t << shift);
    };
    swap(7, 0x00AA_00AA_00AA_00AA);
    swap(14, 0x0000_CCCC_0000_CCCC);
    swap(28, 0x0000_0000_F0F0_F0F0);
    x
}

/// A word of this byte.
const fn every(byte: u8) -> u64 {
    byte as u64 * 0x0101_0101_0101_0101
}

/// z times each byte.
#[inline(always)]
fn times_z(x: u64) -> u64 {
    let over = (x >> 3) & every(0x11);
    ((x << 1) & every(0xEE)) ^ (over * 3)
}

/// α times each byte.
#[inline(always)]
fn times_alpha(x: u64) -> u64 {
    let over = (x >> 5) & every(0x07);
    let eight = ((x >> 1) & every(0x08)) ^ over ^ (over << 1);
    ((x & every(0x0F)) << 4) ^ (x & every(0xF0)) ^ eight
}

impl Vectors<'_> {
    /// The weighted sum.
    pub fn sum(&self, coefficients: &Row, out: &mut [u8]) {
        if self.lanes < 8 {
            for (lane, byte) in out.iter_mut().enumerate() {
                *byte = self.lane(coefficients, lane);
            }
            return;
        }
        let planes = planes(coefficients, self.which);
        each_block(self.lanes, |start, size| match size {
            8 => store(&self.block::<8>(&planes, start), &mut out[start..]),
            4 => store(&self.block::<4>(&planes, start), &mut out[start..]),
            2 => store(&self.block::<2>(&planes, start), &mut out[start..]),
            _ => store(&self.block::<1>(&planes, start), &mut out[start..]),
        });
    }

    /// Whether the weighted sums of these checks are 0 in all lanes; `planes` are the bits of the checks.
    pub fn vanish(&self, checks: &[Row; 16], planes: &[Planes; 16], these: u32, tables: &mut Tables) -> bool {
        if self.lanes < 8 {
            return (0..self.lanes).all(|lane| self.lane_vanishes(checks, these, lane));
        }
        let mut any = 0;
        each_block(self.lanes, |start, size| {
            any |= match size {
                8 => self.checked::<8>(planes, these, start, tables),
                4 => self.checked::<4>(planes, these, start, tables),
                2 => self.checked::<2>(planes, these, start, tables),
                _ => self.checked::<1>(planes, these, start, tables),
            }
        });
        any == 0
    }

    /// Whether the checks are 0 in one lane.
    #[inline]
    fn lane_vanishes(&self, checks: &[Row; 16], mut these: u32, lane: usize) -> bool {
        let word: Row = std::array::from_fn(|j| self.bytes[self.at[j] + lane]);
        let mut any = 0;
        while these != 0 {
            let check = &checks[these.trailing_zeros() as usize & 15];
            these &= these - 1;
            any |= check.iter().zip(&word).fold(0, |sum, (&c, &x)| sum ^ MUL[c as usize][x as usize]);
        }
        any == 0
    }

    /// All bits of the sums of these checks over W words of lanes.
    #[inline(always)]
    fn checked<const W: usize>(&self, planes: &[Planes; 16], mut these: u32, start: usize, tables: &mut Tables) -> u64 {
        let groups = if these.count_ones() < 3 { 0 } else { self.fill::<W>(tables, start) };
        let mut any = 0;
        while these != 0 {
            let r = these.trailing_zeros() as usize & 15;
            these &= these - 1;
            let mut sum = match groups {
                0 => self.block::<W>(&planes[r], start),
                1 => tables.sum::<W, 1>(&planes[r]),
                2 => tables.sum::<W, 2>(&planes[r]),
                3 => tables.sum::<W, 3>(&planes[r]),
                _ => tables.sum::<W, 4>(&planes[r]),
            };
            if self.own != 0 {
                add(&mut sum, &self.bytes[self.at[(self.own + r) & 15] + start..][..8 * W]);
            }
            any |= joined(&sum);
        }
        any
    }

    /// Fills the tables of the vectors that take part; how many.
    #[inline(always)]
    fn fill<const W: usize>(&self, tables: &mut Tables, start: usize) -> usize {
        let groups = (16 - self.which.leading_zeros() as usize).div_ceil(4);
        for (g, table) in tables.0.iter_mut().enumerate().take(groups) {
            for b in 0..4 {
                let j = 4 * g + b;
                let mut vector = [0; W];
                if self.which >> j & 1 == 1 {
                    add(&mut vector, &self.bytes[self.at[j] + start..][..8 * W]);
                }
                for t in 0..1 << b {
                    for w in 0..W {
                        table[(1 << b) + t][w] = table[t][w] ^ vector[w];
                    }
                }
            }
        }
        groups
    }

    /// The weighted sum in one lane.
    #[inline]
    fn lane(&self, coefficients: &Row, lane: usize) -> u8 {
        let mut sum = 0;
        let mut left = self.which;
        while left != 0 {
            let j = left.trailing_zeros() as usize & 15;
            left &= left - 1;
            sum ^= MUL[coefficients[j] as usize][self.bytes[self.at[j] + lane] as usize];
        }
        sum
    }

    /// The weighted sum of W words of lanes.
    #[inline(always)]
    fn block<const W: usize>(&self, planes: &Planes, start: usize) -> [u64; W] {
        let mut sum = self.nibble::<W>(planes, 0, start);
        if planes[4] | planes[5] | planes[6] | planes[7] != 0 {
            let high = self.nibble::<W>(planes, 4, start);
            for (to, from) in sum.iter_mut().zip(high) {
                *to ^= times_alpha(from);
            }
        }
        sum
    }

    /// The weighted sum by four bits of the coefficients.
    #[inline(always)]
    fn nibble<const W: usize>(&self, planes: &Planes, from: usize, start: usize) -> [u64; W] {
        let mut sum = [0; W];
        for b in (from..from + 4).rev() {
            for word in &mut sum {
                *word = times_z(*word);
            }
            let mut left = planes[b];
            while left != 0 {
                let at = self.at[left.trailing_zeros() as usize & 15] + start;
                left &= left - 1;
                add(&mut sum, &self.bytes[at..at + 8 * W]);
            }
        }
        sum
    }
}

/// For each group of four vectors the sums of some of them: of those whose bits the index has.
pub struct Tables([[[u64; 8]; 16]; 4]);

impl Tables {
    /// Tables of zeros.
    #[inline(always)]
    pub fn new() -> Tables {
        Tables([[[0; 8]; 16]; 4])
    }

    /// The weighted sum of the vectors of the first G groups.
    #[inline(always)]
    fn sum<const W: usize, const G: usize>(&self, planes: &Planes) -> [u64; W] {
        let mut sum = self.nibble::<W, G>(planes, 0);
        if planes[4] | planes[5] | planes[6] | planes[7] != 0 {
            let high = self.nibble::<W, G>(planes, 4);
            for (to, from) in sum.iter_mut().zip(high) {
                *to ^= times_alpha(from);
            }
        }
        sum
    }

    /// The sum by four bits of the coefficients.
    #[inline(always)]
    fn nibble<const W: usize, const G: usize>(&self, planes: &Planes, from: usize) -> [u64; W] {
        let mut sum = [0; W];
        for b in (from..from + 4).rev() {
            for word in &mut sum {
                *word = times_z(*word);
            }
            for (g, table) in self.0.iter().enumerate().take(G) {
                let entry = &table[(planes[b] >> (4 * g)) as usize & 15];
                for (to, from) in sum.iter_mut().zip(entry) {
                    *to ^= from;
                }
            }
        }
        sum
    }
}

/// Walks the lanes in blocks of 8, 4, 2 or 1 words; the last one goes over lanes of the one before where it must.
#[inline(always)]
fn each_block(lanes: usize, mut visit: impl FnMut(usize, usize)) {
    let mut start = 0;
    for size in [8, 4, 2, 1] {
        if lanes - start >= 8 * size {
            visit(start, size);
            start += 8 * size;
        }
    }
    if start < lanes {
        visit(lanes - 8, 1);
    }
}

/// Adds W words of bytes.
#[inline(always)]
fn add<const W: usize>(sum: &mut [u64; W], bytes: &[u8]) {
    for (word, eight) in sum.iter_mut().zip(bytes.chunks_exact(8)) {
        *word ^= u64::from_le_bytes(eight.try_into().unwrap());
    }
}

/// Writes W words.
#[inline(always)]
fn store<const W: usize>(sum: &[u64; W], out: &mut [u8]) {
    for (word, eight) in sum.iter().zip(out.chunks_exact_mut(8)) {
        eight.copy_from_slice(&word.to_le_bytes());
    }
}

/// All bits that are set in any word.
#[inline(always)]
fn joined<const W: usize>(sum: &[u64; W]) -> u64 {
    sum.iter().fold(0, |any, word| any | word)
}
