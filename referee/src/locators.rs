//! The locators from byte 14 on (document 01, "Control word"), and the pieces
//! they end ("Expansion, PSD, pieces").
//!
//! Bit b of locator k is bit number k times the width plus b of the locator
//! bytes, counted from the lowest bit of byte 14 up.

use crate::refusal::Cause;

/// The place of the first locator byte.
pub const FIRST: usize = 14;

/// How many bytes so many locators take, rounded up.
pub fn bytes(bits: usize, nop: usize) -> usize {
    (nop * bits).div_ceil(8)
}

/// The place of the last locator byte. Without pieces byte 13 counts as it.
pub fn last_byte(bits: usize, nop: usize) -> usize {
    FIRST + bytes(bits, nop) - 1
}

/// So many locators of a PDU, as sent. Four bits left by an odd last one are
/// ignored. The locator bytes must lie in the PDU.
pub fn decode(pdu: &[u8], bits: usize, nop: usize) -> Vec<usize> {
    (0..nop)
        .map(|k| {
            (0..bits)
                .map(|b| bit_of(pdu, k * bits + b) << b)
                .sum::<usize>()
        })
        .collect()
}

/// A bit of the locator bytes by its number.
fn bit_of(pdu: &[u8], number: usize) -> usize {
    usize::from(pdu[FIRST + number / 8] >> (number % 8)) & 1
}

/// The locator bytes of these locators. Of a locator past its width only the
/// low bits are sent. Four bits left by an odd last one are zero.
pub fn encode(locators: &[usize], bits: usize) -> Vec<u8> {
    let mut sent = vec![0; bytes(bits, locators.len())];
    for (k, &locator) in locators.iter().enumerate() {
        for b in 0..bits {
            let number = k * bits + b;
            sent[number / 8] |= (((locator >> b) & 1) as u8) << (number % 8);
        }
    }
    sent
}

/// Where the pieces start: after La, or after the previous locator as sent.
pub fn starts(la: usize, locators: &[usize]) -> Vec<usize> {
    let mut before = la;
    let mut starts = Vec::new();
    for &locator in locators {
        starts.push(before + 1);
        before = locator;
    }
    starts
}

/// What is wrong with the locators: under the piece's start plus 1, or not
/// below the PDU's length (refusal 11).
pub fn causes(la: usize, locators: &[usize], length: usize) -> Vec<Cause> {
    let mut causes = Vec::new();
    for (k, (start, &locator)) in starts(la, locators).into_iter().zip(locators).enumerate() {
        if locator < start + 1 {
            causes.push(Cause::LocatorUnderStart(k));
        }
        if locator >= length {
            causes.push(Cause::LocatorNotBelowLength(k));
        }
    }
    causes
}

#[cfg(test)]
mod tests {
    use super::*;
    use crate::control::MOST_PIECES;
    use crate::rng::Rng;

    /// The locators byte by byte, as the paper lists them.
    fn byte_by_byte(sent: &[u8], bits: usize, nop: usize) -> Vec<usize> {
        let byte = |place: usize| usize::from(sent[place]);
        (0..nop)
            .map(|k| match (bits, k % 2) {
                (16, _) => byte(2 * k) + 256 * byte(2 * k + 1),
                (_, 0) => byte(3 * (k / 2)) + 256 * (byte(3 * (k / 2) + 1) & 15),
                (_, _) => (byte(3 * (k / 2) + 1) >> 4) + 16 * byte(3 * (k / 2) + 2),
            })
            .collect()
    }

    #[test]
    fn example_b() {
        let sent = [0x2C, 0x01, 0xBC, 0x02];
        assert_eq!(encode(&[300, 700], 16), sent);
        let mut pdu = [0; 96];
        pdu[14..18].copy_from_slice(&sent);
        assert_eq!(decode(&pdu, 16, 2), [300, 700]);
    }

    #[test]
    fn example_c() {
        let sent = [0x2C, 0xC1, 0x2B];
        assert_eq!(encode(&[300, 700], 12), sent);
        let mut pdu = [0; 96];
        pdu[14..17].copy_from_slice(&sent);
        assert_eq!(decode(&pdu, 12, 2), [300, 700]);
    }

    #[test]
    fn both_ways_of_reading_agree() {
        let mut rng = Rng::new(0x10C);
        for bits in [16, 12] {
            for nop in 0..=MOST_PIECES {
                for _ in 0..20 {
                    let mut pdu = [0; 140];
                    rng.fill(&mut pdu);
                    let size = bytes(bits, nop);
                    let sent = &pdu[FIRST..FIRST + size];
                    let locators = decode(&pdu, bits, nop);
                    assert_eq!(locators, byte_by_byte(sent, bits, nop));
                    let again = encode(&locators, bits);
                    assert_eq!(again.len(), size);
                    if bits == 12 && nop % 2 == 1 {
                        assert_eq!(again[..size - 1], sent[..size - 1]);
                        assert_eq!(again[size - 1], sent[size - 1] & 15);
                    } else {
                        assert_eq!(again, sent);
                    }
                }
            }
        }
    }

    #[test]
    fn last_locator_byte() {
        assert_eq!(last_byte(16, 0), 13);
        assert_eq!(last_byte(12, 0), 13);
        assert_eq!(last_byte(16, 1), 15);
        assert_eq!(last_byte(12, 1), 15);
        assert_eq!(last_byte(12, 2), 16);
        // The last that lie in the header, and those of 63 pieces.
        assert_eq!((last_byte(16, 41), last_byte(16, 42)), (95, 97));
        assert_eq!((last_byte(12, 54), last_byte(12, 55)), (94, 96));
        assert_eq!(last_byte(16, MOST_PIECES), 139);
        assert_eq!(last_byte(12, MOST_PIECES), 108);
    }

    #[test]
    fn judged_from_the_previous_one_as_sent() {
        use Cause::{LocatorNotBelowLength, LocatorUnderStart};
        assert_eq!(
            causes(19, &[100, 30, 40], 96),
            [LocatorNotBelowLength(0), LocatorUnderStart(1)]
        );
        assert_eq!(causes(19, &[21, 95], 96), []);
        assert_eq!(causes(19, &[20, 95], 96), [LocatorUnderStart(0)]);
        assert_eq!(causes(19, &[21, 96], 96), [LocatorNotBelowLength(1)]);
        assert_eq!(
            causes(19, &[65_535, 0, 2], 20_480),
            [LocatorNotBelowLength(0), LocatorUnderStart(1)]
        );
    }
}
