//! The control word, bytes 8 to 13 of a PDU (document 01, "Control word").
//!
//! Taken as one number of 48 bits, low byte first, its fields follow one
//! another from the lowest bit up.

/// The place of the control word's first byte.
pub const FIRST: usize = 8;

/// How many bytes it has.
pub const BYTES: usize = 6;

/// The most pieces that NOP's six bits can say. A reader takes any count
/// (document 02, Ask 9).
pub const MOST_PIECES: usize = 63;

/// The fields of the control word.
#[derive(Clone, Copy, Debug, Default, PartialEq, Eq)]
pub struct ControlWord {
    pub mode: u8,
    pub stream: u8,
    /// PDU sequence.
    pub sequence: u8,
    pub blend: u8,
    /// Gain (core) or stream delay (enhanced).
    pub gain: u8,
    pub common_delay: u8,
    pub latency: u8,
    pub pfirst: bool,
    pub plast: bool,
    /// Starting number.
    pub start: u8,
    /// Count of pieces.
    pub nop: u8,
    /// Expansion flag.
    pub expansion: bool,
    /// The place of the last byte before the first piece.
    pub la: u8,
}

/// How many bits the fields have, in their order.
const WIDTHS: [u32; 13] = [4, 2, 3, 2, 5, 6, 3, 1, 1, 6, 6, 1, 8];

/// The control word in these bytes.
pub fn decode(bytes: &[u8; BYTES]) -> ControlWord {
    let mut left = bytes
        .iter()
        .rev()
        .fold(0u64, |number, &byte| number << 8 | u64::from(byte));
    let fields = WIDTHS.map(|width| {
        let field = left & ((1 << width) - 1);
        left >>= width;
        field as u8
    });
    ControlWord {
        mode: fields[0],
        stream: fields[1],
        sequence: fields[2],
        blend: fields[3],
        gain: fields[4],
        common_delay: fields[5],
        latency: fields[6],
        pfirst: fields[7] != 0,
        plast: fields[8] != 0,
        start: fields[9],
        nop: fields[10],
        expansion: fields[11] != 0,
        la: fields[12],
    }
}

/// The bytes of a control word. Of a value past its field's width only the
/// low bits are sent.
pub fn encode(word: &ControlWord) -> [u8; BYTES] {
    let fields = [
        word.mode,
        word.stream,
        word.sequence,
        word.blend,
        word.gain,
        word.common_delay,
        word.latency,
        u8::from(word.pfirst),
        u8::from(word.plast),
        word.start,
        word.nop,
        u8::from(word.expansion),
        word.la,
    ];
    let mut number = 0u64;
    let mut place = 0;
    for (field, width) in fields.into_iter().zip(WIDTHS) {
        number |= (u64::from(field) & ((1 << width) - 1)) << place;
        place += width;
    }
    std::array::from_fn(|byte| (number >> (8 * byte)) as u8)
}

#[cfg(test)]
mod tests {
    use super::*;
    use crate::rng::Rng;

    /// Bits `high` to `low` of byte `place` of a PDU.
    fn bits(bytes: &[u8; BYTES], place: usize, high: u32, low: u32) -> u8 {
        let value = u32::from(bytes[place - FIRST]);
        ((value >> low) & ((1 << (high - low + 1)) - 1)) as u8
    }

    /// The control word byte by byte, as the paper lists it.
    fn byte_by_byte(bytes: &[u8; BYTES]) -> ControlWord {
        let part = |place, high, low| bits(bytes, place, high, low);
        ControlWord {
            mode: part(8, 3, 0),
            stream: part(8, 5, 4),
            sequence: part(8, 7, 6) + 4 * part(9, 0, 0),
            blend: part(9, 2, 1),
            gain: part(9, 7, 3),
            common_delay: part(10, 5, 0),
            latency: part(10, 7, 6) + 4 * part(11, 0, 0),
            pfirst: part(11, 1, 1) == 1,
            plast: part(11, 2, 2) == 1,
            start: part(11, 7, 3) + 32 * part(12, 0, 0),
            nop: part(12, 6, 1),
            expansion: part(12, 7, 7) == 1,
            la: part(13, 7, 0),
        }
    }

    #[test]
    fn example_a() {
        let bytes = [0x40, 0x04, 0x05, 0x0B, 0x05, 0x11];
        let word = ControlWord {
            mode: 0,
            stream: 0,
            sequence: 1,
            blend: 2,
            gain: 0,
            common_delay: 5,
            latency: 4,
            pfirst: true,
            plast: false,
            start: 33,
            nop: 2,
            expansion: false,
            la: 17,
        };
        assert_eq!(decode(&bytes), word);
        assert_eq!(encode(&word), bytes);
    }

    #[test]
    fn both_ways_of_reading_agree() {
        let mut rng = Rng::new(0xC0);
        for case in 0..100_000 {
            let mut bytes = [0; BYTES];
            if case < 48 {
                bytes[case / 8] = 1 << (case % 8);
            } else {
                rng.fill(&mut bytes);
            }
            let word = decode(&bytes);
            assert_eq!(word, byte_by_byte(&bytes), "{bytes:02x?}");
            assert_eq!(encode(&word), bytes);
        }
    }
}
