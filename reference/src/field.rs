//! "Two fields": the narrow numbers 0 to 15, and the bytes.

use std::sync::OnceLock;

/// A polynomial over two elements modulo z^4 + z + 1; bit i is the coefficient of z^i.
#[derive(Clone, Copy, Debug, PartialEq, Eq)]
pub struct Narrow(pub u8);

/// The byte 16h + l means hα + l, with narrow h and l.
#[derive(Clone, Copy, Debug, PartialEq, Eq)]
pub struct Byte(pub u8);

impl Narrow {
    pub const ZERO: Narrow = Narrow(0);
    pub const ONE: Narrow = Narrow(1);

    /// z^4 + z + 1.
    const MODULUS: u8 = 0b1_0011;

    pub fn all() -> impl Iterator<Item = Narrow> {
        (0..=15).map(Narrow)
    }

    /// A narrow operation handed a number above 15 gives 0.
    fn outside(self) -> bool {
        self.0 > 15
    }

    /// Addition is exclusive or.
    pub fn plus(self, other: Narrow) -> Narrow {
        if self.outside() || other.outside() { Narrow::ZERO } else { Narrow(self.0 ^ other.0) }
    }

    pub fn times(self, other: Narrow) -> Narrow {
        if self.outside() || other.outside() {
            return Narrow::ZERO;
        }
        Narrow(remainder(polynomial_product(self.0, other.0)))
    }

    /// The number whose product with this one is 1; 0 has none, and a number above 15 has none.
    pub fn reciprocal(self) -> Option<Narrow> {
        Narrow::all().find(|&other| self.times(other) == Narrow::ONE)
    }

    /// 0 where the divisor has no reciprocal.
    pub fn divided_by(self, other: Narrow) -> Narrow {
        other.reciprocal().map_or(Narrow::ZERO, |reciprocal| self.times(reciprocal))
    }

    /// The only way from a narrow number to a byte; one above 15 gives 0.
    pub fn widen(self) -> Byte {
        if self.outside() { Byte::ZERO } else { Byte(self.0) }
    }
}

/// The product of two polynomials of degree below 4, of degree below 7.
fn polynomial_product(a: u8, b: u8) -> u8 {
    (0..4).filter(|i| (b >> i) & 1 == 1).fold(0, |sum, i| sum ^ (a << i))
}

/// The remainder of a polynomial of degree below 7, modulo z^4 + z + 1.
fn remainder(polynomial: u8) -> u8 {
    let mut left = polynomial;
    for degree in [6, 5, 4] {
        if (left >> degree) & 1 == 1 {
            left ^= Narrow::MODULUS << (degree - 4);
        }
    }
    left
}

impl Byte {
    pub const ZERO: Byte = Byte(0);
    pub const ONE: Byte = Byte(1);
    pub const ALPHA: Byte = Byte(16);

    /// The 8 in α × α = α + 8.
    pub const EIGHT: Narrow = Narrow(8);

    pub fn all() -> impl Iterator<Item = Byte> {
        (0..=255).map(Byte)
    }

    /// The h and the l of hα + l.
    fn parts(self) -> (Narrow, Narrow) {
        (Narrow(self.0 / 16), Narrow(self.0 % 16))
    }

    /// Addition is exclusive or.
    pub fn plus(self, other: Byte) -> Byte {
        Byte(self.0 ^ other.0)
    }

    /// The product. Each is worked out once, and looked up from then on.
    pub fn times(self, other: Byte) -> Byte {
        static PRODUCTS: OnceLock<Vec<Byte>> = OnceLock::new();
        let products = PRODUCTS
            .get_or_init(|| Byte::all().flat_map(|a| Byte::all().map(move |b| a.product(b))).collect());
        products[256 * usize::from(self.0) + usize::from(other.0)]
    }

    /// (hα + l)(mα + r) = hm(α + 8) + (hr + lm)α + lr.
    fn product(self, other: Byte) -> Byte {
        let ((h, l), (m, r)) = (self.parts(), other.parts());
        let high = h.times(m).plus(h.times(r)).plus(l.times(m));
        let low = h.times(m).times(Byte::EIGHT).plus(l.times(r));
        Byte(16 * high.0 + low.0)
    }

    /// The byte whose product with this one is 1; 0 has none.
    pub fn reciprocal(self) -> Option<Byte> {
        Byte::all().find(|&other| self.times(other) == Byte::ONE)
    }

    /// 0 where the divisor has no reciprocal.
    pub fn divided_by(self, other: Byte) -> Byte {
        other.reciprocal().map_or(Byte::ZERO, |reciprocal| self.times(reciprocal))
    }
}

#[cfg(test)]
mod tests {
    use super::*;

    #[test]
    fn narrow_reciprocals_are_the_documents_table() {
        let table = [1, 9, 14, 13, 11, 7, 6, 15, 2, 12, 5, 10, 4, 3, 8].map(|r| Some(Narrow(r)));
        assert!((1..=15).map(|a| Narrow(a).reciprocal()).eq(table));
    }

    /// 0, and what lies outside the narrow numbers.
    fn narrows_without_reciprocal() -> impl Iterator<Item = Narrow> {
        (0..=0).chain(16..=255).map(Narrow)
    }

    #[test]
    fn the_products_looked_up_are_those_of_the_rule() {
        for a in Byte::all() {
            assert!(Byte::all().all(|b| a.times(b) == a.product(b)), "{a:?}");
        }
    }

    #[test]
    fn zero_and_narrows_above_fifteen_have_no_reciprocal() {
        assert_eq!(Byte::ZERO.reciprocal(), None);
        for a in narrows_without_reciprocal() {
            assert_eq!(a.reciprocal(), None, "{a:?}");
        }
    }

    #[test]
    fn the_reciprocal_of_a_byte_is_the_only_one_whose_product_with_it_is_one() {
        for a in (1..=255).map(Byte) {
            let reciprocal = a.reciprocal().expect("every byte but 0 has one");
            assert!(Byte::all().all(|b| (b == reciprocal) == (a.times(b) == Byte::ONE)), "{a:?}");
        }
    }

    #[test]
    fn a_quotient_by_a_number_without_reciprocal_is_zero() {
        for a in 0..=255 {
            assert_eq!(Byte(a).divided_by(Byte::ZERO), Byte::ZERO, "{a}");
            for b in narrows_without_reciprocal() {
                assert_eq!(Narrow(a).divided_by(b), Narrow::ZERO, "{a} {b:?}");
            }
        }
    }

    #[test]
    fn a_quotient_times_its_divisor_is_the_number_divided() {
        for b in (1..=15).map(Narrow) {
            assert!(Narrow::all().all(|a| a.divided_by(b).times(b) == a), "{b:?}");
        }
        for b in (1..=255).map(Byte) {
            assert!(Byte::all().all(|a| a.divided_by(b).times(b) == a), "{b:?}");
        }
    }

    #[test]
    fn narrow_operations_above_fifteen_give_zero() {
        for outside in (16..=255).map(Narrow) {
            assert_eq!(outside.widen(), Byte::ZERO);
            for a in Narrow::all() {
                assert_eq!([a.plus(outside), outside.plus(a)], [Narrow::ZERO; 2]);
                assert_eq!([a.times(outside), outside.times(a)], [Narrow::ZERO; 2]);
                assert_eq!(outside.divided_by(a), Narrow::ZERO);
            }
        }
    }
}
