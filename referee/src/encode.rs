//! Makes PDUs out of any parts, for the tests right or wrong ones: nothing is
//! checked. The parity is always right, each piece's CRC as asked for. The
//! writer hands over parts that fit, and bytes that are all zero.

use crate::control::{self, ControlWord};
use crate::crc::crc8_from;
use crate::header;
use crate::locators;

/// A field of the expansion. Of a value past its width only the low bits are
/// sent.
#[derive(Clone, Debug, PartialEq, Eq)]
pub enum Field {
    Class(u8),
    Program(u8),
    ProgramAndDisplacement(u8, usize),
    Type {
        access: u8,
        /// Bits 2 and 1, which say nothing.
        unused: u8,
        code: u8,
    },
    Marker {
        services: u8,
        marker: u32,
    },
    /// Any bytes, of which bit 7 is not used.
    Other(Vec<u8>),
}

impl Field {
    /// The bytes of the field with bit 7 clear.
    pub fn bytes(&self) -> Vec<u8> {
        let low_seven = |value: usize, shift: u32| ((value >> shift) & 0x7F) as u8;
        match *self {
            Field::Class(class) => vec![class & 15],
            Field::Program(program) => vec![0x10 | (program & 7) << 1],
            Field::ProgramAndDisplacement(program, place) => vec![
                0x11 | (program & 7) << 1,
                low_seven(place, 7),
                low_seven(place, 0),
            ],
            Field::Type {
                access,
                unused,
                code,
            } => vec![
                0x20 | (access & 1) << 3 | (unused & 3) << 1 | code >> 7,
                code & 0x7F,
            ],
            Field::Marker { services, marker } => vec![
                0x48 | services & 7,
                low_seven(marker as usize, 14),
                low_seven(marker as usize, 7),
                low_seven(marker as usize, 0),
            ],
            Field::Other(ref bytes) => bytes.iter().map(|byte| byte & 0x7F).collect(),
        }
    }
}

/// The bytes of these fields, with bit 7 in all but the last.
pub fn expansion(fields: &[Field]) -> Vec<u8> {
    let bytes: Vec<u8> = fields.iter().flat_map(Field::bytes).collect();
    follow(&bytes)
}

/// The bytes with bit 7 in all but the last.
pub fn follow(bytes: &[u8]) -> Vec<u8> {
    let last = bytes.len().saturating_sub(1);
    let mark = |(place, byte): (usize, &u8)| {
        let bit_7 = if place < last { 0x80 } else { 0 };
        byte & 0x7F | bit_7
    };
    bytes.iter().enumerate().map(mark).collect()
}

/// A piece of a packet, standing anywhere. Its CRC stands behind it.
#[derive(Clone, Debug, PartialEq, Eq)]
pub struct Piece {
    pub start: usize,
    pub bytes: Vec<u8>,
    /// Added to the CRC, which is right if this is 0.
    pub crc_error: u8,
}

/// The parts of a PDU. None of them needs to fit the others.
#[derive(Clone, Debug, Default, PartialEq, Eq)]
pub struct Parts {
    pub control: ControlWord,
    pub locator_bits: usize,
    pub locators: Vec<usize>,
    /// The four bits that an odd last locator of 12 bits leaves.
    pub unused_bits: u8,
    pub expansion: Vec<u8>,
    pub psd: Vec<u8>,
    /// What the register of the CRCs starts at.
    pub register: u8,
    pub pieces: Vec<Piece>,
}

impl Parts {
    /// Puts the parts into a PDU of at least 96 bytes and writes the parity.
    /// What lies outside of the PDU is left out, and bytes that belong to no
    /// part keep what they held. Where parts overlap, the one standing first
    /// in a PDU prevails.
    pub fn encode(&self, pdu: &mut [u8]) {
        for piece in self.pieces.iter().rev() {
            let crc = crc8_from(self.register, &piece.bytes) ^ piece.crc_error;
            put(pdu, piece.start + piece.bytes.len(), &[crc]);
            put(pdu, piece.start, &piece.bytes);
        }
        let locator_bytes = self.locator_bytes();
        let expansion_start = locators::FIRST + locator_bytes.len();
        put(pdu, expansion_start + self.expansion.len(), &self.psd);
        put(pdu, expansion_start, &self.expansion);
        put(pdu, locators::FIRST, &locator_bytes);
        put(pdu, control::FIRST, &control::encode(&self.control));
        let parity = header::parity_by_division(&header::header_of(pdu));
        put(pdu, 0, &parity);
    }

    /// The locators with the bits that the last one leaves.
    fn locator_bytes(&self) -> Vec<u8> {
        let mut bytes = locators::encode(&self.locators, self.locator_bits);
        if self.locators.len() * self.locator_bits % 8 == 4 {
            if let Some(last) = bytes.last_mut() {
                *last |= self.unused_bits << 4;
            }
        }
        bytes
    }
}

/// Puts the bytes at a place, those which lie in the PDU.
fn put(pdu: &mut [u8], place: usize, bytes: &[u8]) {
    for (target, &byte) in pdu.iter_mut().skip(place).zip(bytes) {
        *target = byte;
    }
}

#[cfg(test)]
mod tests {
    use super::*;

    #[test]
    fn fields_and_following() {
        let fields = [
            Field::Class(1),
            Field::ProgramAndDisplacement(2, (5 << 7) + 3),
            Field::Type {
                access: 1,
                unused: 0,
                code: 0x85,
            },
            Field::Marker {
                services: 1,
                marker: (1 << 14) + (2 << 7) + 3,
            },
            Field::Other(vec![0x71, 0xF2]),
        ];
        let wanted = [
            0x81, 0x95, 0x85, 0x83, 0xA9, 0x85, 0xC9, 0x81, 0x82, 0x83, 0xF1, 0x72,
        ];
        assert_eq!(expansion(&fields), wanted);
        assert_eq!(expansion(&[]), []);
        assert_eq!(
            expansion(&[
                Field::Program(0),
                Field::Type {
                    access: 0,
                    unused: 0,
                    code: 5
                }
            ]),
            [0x90, 0xA0, 0x05]
        );
    }

    #[test]
    fn parts_overlap_and_leave_the_pdu() {
        let mut pdu = [0x77; 96];
        let parts = Parts {
            control: ControlWord {
                nop: 1,
                la: 16,
                ..ControlWord::default()
            },
            locator_bits: 16,
            locators: vec![18],
            unused_bits: 15,
            expansion: Vec::new(),
            psd: vec![0xAA],
            register: 0,
            pieces: vec![
                Piece {
                    start: 17,
                    bytes: vec![0x01],
                    crc_error: 0,
                },
                Piece {
                    start: 18,
                    bytes: vec![0x55; 3],
                    crc_error: 0,
                },
                Piece {
                    start: 94,
                    bytes: vec![0x66; 100],
                    crc_error: 1,
                },
            ],
        };
        parts.encode(&mut pdu);
        assert!(header::is_code_word(&header::header_of(&pdu)));
        assert_eq!(
            pdu[8..24],
            [0, 0, 0, 0, 2, 16, 18, 0, 0xAA, 0x01, 0x31, 0x55, 0x55, 0x22, 0x77, 0x77]
        );
        assert_eq!(pdu[93..], [0x77, 0x66, 0x66]);
        // From another register the CRCs are others, and nothing else is.
        let mut other = [0x77; 96];
        let register = 255;
        Parts { register, ..parts }.encode(&mut other);
        assert_eq!(other[18], 0x9D);
        assert!(header::is_code_word(&header::header_of(&other)));
        let differing = (8..96).filter(|&place| pdu[place] != other[place]);
        assert_eq!(differing.collect::<Vec<_>>(), [18, 21]);
    }

    #[test]
    fn unused_bits_of_an_odd_last_locator() {
        for (bits, count, wanted) in [
            (12, 1, &[0x2C, 0xA1][..]),
            (12, 2, &[0x2C, 0xC1, 0x12]),
            (12, 3, &[0x2C, 0xC1, 0x12, 0x2C, 0xA1]),
            (16, 1, &[0x2C, 0x01]),
            (12, 0, &[]),
        ] {
            let parts = Parts {
                locator_bits: bits,
                locators: vec![300; count],
                unused_bits: 0xA,
                ..Parts::default()
            };
            assert_eq!(parts.locator_bytes(), wanted);
        }
    }
}
