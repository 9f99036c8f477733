//! Weighted sums of symbols over all lanes, with the rows of the table of products.

use crate::link::tables::MUL;

/// Lanes that are summed together, so that their sums stay in registers.
const BLOCK: usize = 8;

/// The terms of a sum: the row of products with the coefficient, and where the symbol's lanes begin.
pub struct Terms<'a> {
    bytes: &'a [u8],
    lanes: usize,
    terms: [(&'static [u8; 256], usize); 16],
    count: usize,
}

impl<'a> Terms<'a> {
    /// No terms yet, for symbols of so many lanes in these bytes.
    pub fn new(bytes: &'a [u8], lanes: usize) -> Terms<'a> {
        Terms { bytes, lanes, terms: [(&MUL[0], 0); 16], count: 0 }
    }

    /// The terms of coefficients and places, at most sixteen; a coefficient of 0 gives none.
    #[inline(always)]
    pub fn set(&mut self, terms: impl Iterator<Item = (u8, usize)>) {
        self.count = 0;
        for (coefficient, place) in terms {
            assert!(place + self.lanes <= self.bytes.len());
            // One that is not counted is written over by the next.
            self.terms[self.count & 15] = (&MUL[coefficient as usize], place);
            self.count += usize::from(coefficient != 0);
        }
    }

    /// Writes the sum.
    #[inline(always)]
    pub fn write(&self, out: &mut [u8]) {
        self.each_block(|start, sums| {
            out[start..start + sums.len()].copy_from_slice(sums);
            true
        });
    }

    /// Whether the sum is the symbol at this place.
    #[inline(always)]
    pub fn equal(&self, place: usize) -> bool {
        self.each_block(|start, sums| self.bytes[place + start..][..sums.len()] == *sums)
    }

    /// Visits the sums of all lanes in blocks while the visitor says so; the last block may go over lanes of the one
    /// before.
    #[inline(always)]
    fn each_block(&self, mut visit: impl FnMut(usize, &[u8]) -> bool) -> bool {
        if self.lanes < BLOCK {
            return (0..self.lanes).all(|start| visit(start, &[self.lane(start)]));
        }
        let mut start = 0;
        loop {
            if !visit(start, &self.block(start)) {
                return false;
            }
            if start + BLOCK == self.lanes {
                return true;
            }
            start = (start + BLOCK).min(self.lanes - BLOCK);
        }
    }

    /// The sum in one lane, which is below the number of lanes.
    #[inline(always)]
    fn lane(&self, lane: usize) -> u8 {
        let product = |&(products, place): &(&[u8; 256], usize)| products[self.bytes[place + lane] as usize];
        self.terms[..self.count.min(16)].iter().map(product).fold(0, |sum, product| sum ^ product)
    }

    /// The sums of a block of lanes, which are all below the number of lanes. The bytes of a symbol are read together.
    #[inline(always)]
    fn block(&self, start: usize) -> [u8; BLOCK] {
        debug_assert!(start + BLOCK <= self.lanes);
        let mut sums = [0; BLOCK];
        for &(products, place) in &self.terms[..self.count.min(16)] {
            // `set` made sure that all lanes of the symbol are there.
            let eight = unsafe { self.bytes.get_unchecked(place + start..place + start + BLOCK) };
            let read = u64::from_le_bytes(eight.try_into().unwrap());
            for (w, sum) in sums.iter_mut().enumerate() {
                *sum ^= products[(read >> (8 * w)) as usize & 255];
            }
        }
        sums
    }
}
