//! Bytes as elements of GF(256), where a = 2 and a^8 = a^4 + a^3 + a^2 + 1.
//! The sum of two bytes is their exclusive or.

/// What a^8 is: a^4 + a^3 + a^2 + 1.
const A_TO_THE_8: u8 = 0b0001_1101;

/// The byte times a: shifted, and a bit that leaves at the top comes back as
/// what a^8 is.
pub const fn times_a(x: u8) -> u8 {
    (x << 1) ^ (all_bits(x >> 7) & A_TO_THE_8)
}

/// The product of two bytes: the sum of x times a^k over the bits k of y.
pub fn product(x: u8, y: u8) -> u8 {
    let mut sum = 0;
    let mut shifted = x;
    for k in 0..8 {
        sum ^= shifted & all_bits((y >> k) & 1);
        shifted = times_a(shifted);
    }
    sum
}

/// Eight times the same bit: 0 or 255 for 0 or 1.
const fn all_bits(bit: u8) -> u8 {
    bit.wrapping_neg()
}

/// x to the power n; x^0 is 1.
pub fn power(x: u8, n: usize) -> u8 {
    let mut result = 1;
    let mut square = x;
    let mut rest = n;
    while rest != 0 {
        if rest & 1 != 0 {
            result = product(result, square);
        }
        square = product(square, square);
        rest >>= 1;
    }
    result
}

/// The powers a^0 to a^254, worked out by multiplying by a again and again.
const POWERS_OF_A: [u8; 255] = {
    let mut powers = [1; 255];
    let mut n = 1;
    while n < 255 {
        powers[n] = times_a(powers[n - 1]);
        n += 1;
    }
    powers
};

/// a to the power n.
pub fn power_of_a(n: usize) -> u8 {
    POWERS_OF_A[n % 255]
}

/// The byte whose product with x is 1. There is none for 0.
pub fn inverse(x: u8) -> u8 {
    assert_ne!(x, 0, "0 has no inverse");
    power(x, 254)
}

#[cfg(test)]
mod tests {
    use super::*;

    /// The product by another way: the polynomials over the bits are
    /// multiplied out, then x^8+x^4+x^3+x^2+1 is taken away from the top.
    fn product_by_division(x: u8, y: u8) -> u8 {
        let mut long = 0u32;
        for k in 0..8 {
            if (y >> k) & 1 != 0 {
                long ^= u32::from(x) << k;
            }
        }
        for k in (8..=14).rev() {
            if (long >> k) & 1 != 0 {
                long ^= 0b1_0001_1101 << (k - 8);
            }
        }
        long as u8
    }

    #[test]
    fn both_ways_of_multiplying_agree() {
        for x in 0..=255 {
            for y in 0..=255 {
                assert_eq!(product(x, y), product_by_division(x, y), "{x} times {y}");
            }
        }
    }

    #[test]
    fn powers_of_a_run_through_all_nonzero_bytes() {
        let mut seen = [false; 256];
        let mut x = 1;
        for n in 0..255 {
            assert_eq!(power_of_a(n), x);
            assert_eq!(power(2, n), x);
            assert!(x != 0 && !seen[usize::from(x)]);
            seen[usize::from(x)] = true;
            x = times_a(x);
        }
        assert_eq!(x, 1);
        assert_eq!(
            power_of_a(8),
            power_of_a(4) ^ power_of_a(3) ^ power_of_a(2) ^ 1
        );
    }

    #[test]
    fn inverses() {
        for x in 1..=255 {
            assert_eq!(product(x, inverse(x)), 1);
        }
    }
}
