//! The CRC-8 of a piece: the piece times x^8, divided by x^8+x^5+x^4+1. The
//! top bit of each byte comes first, and the register starts at 0, or at any
//! other byte (document 02, Ask 2).

/// The divisor x^8+x^5+x^4+1 with all its nine bits.
const DIVISOR: u32 = 0b1_0011_0001;

/// The CRC-8 of the bytes.
pub fn crc8(bytes: &[u8]) -> u8 {
    crc8_from(0, bytes)
}

/// The CRC-8 of the bytes with the register starting at this value, such as
/// the CRC-8 of what came before. Without bytes this is the start itself.
pub fn crc8_from(start: u8, bytes: &[u8]) -> u8 {
    let mut register = u32::from(start);
    for &byte in bytes {
        for bit in (0..8).rev() {
            let coming = u32::from(byte >> bit) & 1;
            register = (register << 1) ^ (coming << 8);
            if register & 0x100 != 0 {
                register ^= DIVISOR;
            }
        }
    }
    register as u8
}

/// The CRC-8 once more, as written division on paper: the bits of the bytes,
/// then eight zero bits, with the start added to the first eight, and the
/// divisor taken away under every leading one.
pub fn crc8_on_paper(start: u8, bytes: &[u8]) -> u8 {
    let mut bits: Vec<u8> = Vec::with_capacity(bytes.len() * 8 + 8);
    for &byte in bytes {
        for bit in (0..8).rev() {
            bits.push((byte >> bit) & 1);
        }
    }
    bits.extend([0; 8]);
    for (place, bit) in (0..8).rev().enumerate() {
        bits[place] ^= (start >> bit) & 1;
    }
    for first in 0..bytes.len() * 8 {
        if bits[first] == 1 {
            for (offset, divisor) in [1, 0, 0, 1, 1, 0, 0, 0, 1].into_iter().enumerate() {
                bits[first + offset] ^= divisor;
            }
        }
    }
    let remainder = &bits[bytes.len() * 8..];
    remainder.iter().fold(0, |value, &bit| value << 1 | bit)
}

#[cfg(test)]
mod tests {
    use super::*;
    use crate::rng::Rng;

    #[test]
    fn example_d() {
        assert_eq!(crc8(&[0x01]), 0x31);
    }

    #[test]
    fn example_e() {
        assert_eq!(crc8(&[0x80]), 0x7A);
    }

    #[test]
    fn example_f() {
        assert_eq!(crc8(&[0x01, 0x00]), 0xF4);
    }

    #[test]
    fn both_ways_of_dividing_agree() {
        let seed = 0x0001_C8C8;
        println!("seed {seed:#x}");
        let mut rng = Rng::new(seed);
        for length in 0..=600 {
            let mut bytes = vec![0; length];
            rng.fill(&mut bytes);
            let whole = crc8(&bytes);
            assert_eq!(whole, crc8_on_paper(0, &bytes), "length {length}");
            let start = rng.byte();
            let from_start = crc8_from(start, &bytes);
            assert_eq!(from_start, crc8_on_paper(start, &bytes), "length {length}");
            let cut = rng.below(length + 1);
            assert_eq!(whole, crc8_from(crc8(&bytes[..cut]), &bytes[cut..]));
            // A piece followed by its CRC leaves nothing.
            bytes.push(whole);
            assert_eq!(crc8(&bytes), 0);
        }
    }

    /// Off the air the register starts at 255.
    #[test]
    fn from_255() {
        assert_eq!(crc8_from(255, &[0x01]), 0x9D);
        assert_eq!(crc8_from(255, &[0x80]), 0xD6);
        assert_eq!(crc8_from(255, &[0x01, 0x00]), 0x75);
        assert_eq!(crc8_from(255, b"123456789"), 0xF7);
    }

    #[test]
    fn every_start() {
        for start in 0..=255 {
            for length in 0..20 {
                let bytes: Vec<u8> = (0..length).map(|place| (place * 13) ^ start).collect();
                let crc = crc8_from(start, &bytes);
                assert_eq!(crc, crc8_on_paper(start, &bytes));
                // A piece followed by its CRC leaves nothing.
                assert_eq!(crc8_from(start, &[bytes, vec![crc]].concat()), 0);
            }
        }
    }

    #[test]
    fn a_start_counts_as_what_came_before() {
        // Starting at s is the same as adding s to the first byte.
        for start in 0..=255 {
            assert_eq!(crc8_from(start, &[]), start);
            assert_eq!(crc8_from(start, &[0x5A, 1]), crc8(&[0x5A ^ start, 1]));
        }
    }
}
