//! Constant tables of both fields.

/// z^e modulo z^4 + z + 1.
const POWERS: [u8; 15] = powers();
/// The e of each narrow number z^e; 0 stands for the number 0.
const LOGS: [u8; 16] = logs();

/// z^e for every e below 512, so that sums of logarithms need no reduction.
pub static EXP: [u8; 512] = exp();
/// For each count of points, the sum over the points p below it of the logarithm of j + p, for each j but j = p.
pub static BELOW: [[u8; 16]; 17] = below();
/// All products of two bytes.
pub static MUL: [[u8; 256]; 256] = products();
/// The reciprocals of the bytes.
pub static INVERSE: [u8; 256] = inverses();

/// z times a byte, on both of its nibbles.
const fn times_z(a: u8) -> u8 {
    ((a & 0x77) << 1) ^ (((a >> 3) & 0x11) * 3)
}

/// α times a byte: (hα + l)α = (h + l)α + 8h.
const fn times_alpha(a: u8) -> u8 {
    let (h, l) = (a >> 4, a & 15);
    ((h ^ l) << 4) | times_z(times_z(times_z(h)))
}

/// Each power is z times the one before.
const fn powers() -> [u8; 15] {
    let mut table = [1; 15];
    let mut e = 1;
    while e < 15 {
        table[e] = times_z(table[e - 1]);
        e += 1;
    }
    table
}

/// The powers turned round.
const fn logs() -> [u8; 16] {
    let mut table = [0; 16];
    let mut e = 0;
    while e < 15 {
        table[POWERS[e] as usize] = e as u8;
        e += 1;
    }
    table
}

/// The powers over and over.
const fn exp() -> [u8; 512] {
    let mut table = [0; 512];
    let mut e = 0;
    while e < 512 {
        table[e] = POWERS[e % 15];
        e += 1;
    }
    table
}

/// Each count has one point more than the one before.
const fn below() -> [[u8; 16]; 17] {
    let mut table = [[0; 16]; 17];
    let mut p = 0;
    while p < 16 {
        let mut j = 0;
        while j < 16 {
            table[p + 1][j] = table[p][j] + LOGS[j ^ p];
            j += 1;
        }
        p += 1;
    }
    table
}

/// The multiples of a byte: a product is the sum of the products with the bits.
const fn multiples(a: u8) -> [u8; 256] {
    let mut table = [0; 256];
    let mut bit = a;
    let mut size = 1;
    while size < 256 {
        let mut b = 0;
        while b < size {
            table[size + b] = table[b] ^ bit;
            b += 1;
        }
        size *= 2;
        bit = if size == 16 { times_alpha(a) } else { times_z(bit) };
    }
    table
}

/// The multiples of all bytes.
const fn products() -> [[u8; 256]; 256] {
    let mut table = [[0; 256]; 256];
    let mut a = 0;
    while a < 256 {
        table[a] = multiples(a as u8);
        a += 1;
    }
    table
}

/// The reciprocals, found by trying.
const fn inverses() -> [u8; 256] {
    let mut table = [0; 256];
    let mut a = 1;
    while a < 256 {
        let mut b = 1;
        while MUL[a][b] != 1 {
            b += 1;
        }
        table[a] = b as u8;
        a += 1;
    }
    table
}

#[cfg(test)]
mod tests {
    use super::*;
    use reference::field::Byte;

    #[test]
    fn products_and_reciprocals_are_the_references() {
        for a in 0..=255 {
            assert_eq!(INVERSE[a as usize], Byte(a).reciprocal().map_or(0, |inverse| inverse.0));
            for b in 0..=255 {
                assert_eq!(MUL[a as usize][b as usize], Byte(a).times(Byte(b)).0);
            }
        }
    }
}
