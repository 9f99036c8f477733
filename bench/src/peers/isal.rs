//! ISA-L with a Cauchy matrix.

use super::loading::Library;
use super::Vectors;
use crate::shapes::Shape;
use std::ffi::c_int;

type Cauchy = unsafe extern "C" fn(*mut u8, c_int, c_int);
type Tables = unsafe extern "C" fn(c_int, c_int, *mut u8, *mut u8);
type Encode = unsafe extern "C" fn(c_int, c_int, c_int, *mut u8, *mut *mut u8, *mut *mut u8);
type Invert = unsafe extern "C" fn(*mut u8, *mut u8, c_int) -> c_int;

/// The functions used.
#[derive(Clone, Copy)]
pub struct Isal {
    cauchy: Cauchy,
    tables: Tables,
    encode: Encode,
    invert: Invert,
}

impl Isal {
    /// The library, or a word on what is missing.
    pub fn load() -> Result<Isal, String> {
        let library = Library::load(c"libisal.so.2", "libisal2")?;
        // The types are those of erasure_code.h.
        unsafe {
            Ok(Isal {
                cauchy: library.function(c"gf_gen_cauchy1_matrix")?,
                tables: library.function(c"ec_init_tables")?,
                encode: library.function(c"ec_encode_data")?,
                invert: library.function(c"gf_invert_matrix")?,
            })
        }
    }

    /// A code of this shape, its parity worked out, where the first `lost` source vectors are lost.
    pub fn code(&self, shape: &Shape, lanes: usize, lost: usize) -> Code {
        let (k, n, m) = (shape.k(), shape.n(), shape.burst as usize);
        let (mut matrix, mut tables) = (vec![0; n * k], vec![0; 32 * k * m]);
        // n by k entries, and tables of 32 bytes for each of the last m rows.
        unsafe {
            (self.cauchy)(matrix.as_mut_ptr(), n as c_int, k as c_int);
            (self.tables)(k as c_int, m as c_int, matrix[k * k..].as_mut_ptr(), tables.as_mut_ptr());
        }
        let vectors = Vectors::drawn(shape, lanes);
        let mut code = Code { calls: *self, k, m, matrix, tables, lost: lost.min(k), vectors };
        code.encode();
        code
    }
}

/// A code and its vectors.
pub struct Code {
    calls: Isal,
    k: usize,
    m: usize,
    matrix: Vec<u8>,
    tables: Vec<u8>,
    lost: usize,
    vectors: Vectors,
}

impl Code {
    /// Encodes with tables made before.
    pub fn encode(&mut self) {
        let (data, coding) = self.vectors.pointers.split_at_mut(self.k);
        let (size, k, m) = (self.vectors.lanes as c_int, self.k as c_int, self.m as c_int);
        // k and m vectors of `size` bytes.
        unsafe { (self.calls.encode)(size, k, m, self.tables.as_mut_ptr(), data.as_mut_ptr(), coding.as_mut_ptr()) }
    }

    /// Inverts the matrix of the first k vectors that are left, makes the tables and encodes the lost vectors.
    pub fn decode(&mut self) {
        let (k, lost) = (self.k, self.lost);
        let (mut inverse, mut tables) = ([0; 16 * 16], [0; 32 * 16 * 16]);
        let mut rows = [0; 16 * 16];
        rows[..k * k].copy_from_slice(&self.matrix[lost * k..][..k * k]);
        let (away, left) = self.vectors.pointers.split_at_mut(lost);
        let size = self.vectors.lanes as c_int;
        // k by k entries; the first rows of the inverse give the first source vectors, which are the lost ones.
        unsafe {
            assert_eq!((self.calls.invert)(rows.as_mut_ptr(), inverse.as_mut_ptr(), k as c_int), 0);
            (self.calls.tables)(k as c_int, lost as c_int, inverse.as_mut_ptr(), tables.as_mut_ptr());
            (self.calls.encode)(size, k as c_int, lost as c_int, tables.as_mut_ptr(), left.as_mut_ptr(), away.as_mut_ptr());
        }
    }

    /// Whether decoding gives the lost vectors back.
    pub fn repairs(&mut self) -> bool {
        let before = self.vectors.all.clone();
        (0..self.lost).for_each(|lost| self.vectors.forget(lost));
        self.decode();
        self.vectors.all == before
    }
}
