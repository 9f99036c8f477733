//! Jerasure with Reed and Solomon's Vandermonde matrix over 8 bits.

use super::loading::Library;
use super::Vectors;
use crate::shapes::Shape;
use std::ffi::c_int;

type Matrix = unsafe extern "C" fn(c_int, c_int, c_int) -> *mut c_int;
type Encode = unsafe extern "C" fn(c_int, c_int, c_int, *mut c_int, *mut *mut u8, *mut *mut u8, c_int);
type Decode =
    unsafe extern "C" fn(c_int, c_int, c_int, *mut c_int, c_int, *mut c_int, *mut *mut u8, *mut *mut u8, c_int) -> c_int;

/// The functions used.
#[derive(Clone, Copy)]
pub struct Jerasure {
    matrix: Matrix,
    encode: Encode,
    decode: Decode,
}

impl Jerasure {
    /// The library, or a word on what is missing.
    pub fn load() -> Result<Jerasure, String> {
        Library::load(c"libgf_complete.so.1", "libgf-complete1")?;
        let library = Library::load(c"libJerasure.so.2", "libjerasure2")?;
        // The types are those of jerasure.h and reed_sol.h.
        unsafe {
            Ok(Jerasure {
                matrix: library.function(c"reed_sol_vandermonde_coding_matrix")?,
                encode: library.function(c"jerasure_matrix_encode")?,
                decode: library.function(c"jerasure_matrix_decode")?,
            })
        }
    }

    /// A code of this shape, its parity worked out, where the first `lost` vectors are lost.
    pub fn code(&self, shape: &Shape, lanes: usize, lost: usize) -> Code {
        let (k, m) = (shape.k() as c_int, c_int::from(shape.burst));
        let erasures = (0..lost as c_int).chain([-1]).collect();
        // The matrix is k by m numbers that are never freed.
        let matrix = unsafe { (self.matrix)(k, m, 8) };
        let mut code = Code { calls: *self, k, m, matrix, erasures, vectors: Vectors::drawn(shape, lanes) };
        code.encode();
        code
    }
}

/// A code and its vectors.
pub struct Code {
    calls: Jerasure,
    k: c_int,
    m: c_int,
    matrix: *mut c_int,
    /// The lost vectors, and −1.
    erasures: Vec<c_int>,
    vectors: Vectors,
}

impl Code {
    /// The source vectors and the parity vectors.
    fn pointers(&mut self) -> (*mut *mut u8, *mut *mut u8) {
        let (data, coding) = self.vectors.pointers.split_at_mut(self.k as usize);
        (data.as_mut_ptr(), coding.as_mut_ptr())
    }

    /// Works out the parity vectors.
    pub fn encode(&mut self) {
        let ((data, coding), size) = (self.pointers(), self.vectors.lanes as c_int);
        // k and m vectors of `size` bytes, a multiple of 8.
        unsafe { (self.calls.encode)(self.k, self.m, 8, self.matrix, data, coding, size) }
    }

    /// Works out the lost vectors.
    pub fn decode(&mut self) {
        let ((data, coding), size) = (self.pointers(), self.vectors.lanes as c_int);
        let erasures = self.erasures.as_mut_ptr();
        // As above; the first parity row of this matrix is all ones.
        let done = unsafe { (self.calls.decode)(self.k, self.m, 8, self.matrix, 1, erasures, data, coding, size) };
        assert_eq!(done, 0);
    }

    /// Whether decoding gives the lost vectors back.
    pub fn repairs(&mut self) -> bool {
        let before = self.vectors.all.clone();
        for &lost in &self.erasures[..self.erasures.len() - 1] {
            self.vectors.forget(lost as usize);
        }
        self.decode();
        self.vectors.all == before
    }
}
