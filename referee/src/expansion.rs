//! The expansion bytes behind the locators (document 01, "Expansion, PSD,
//! pieces").

use crate::refusal::Cause;

/// The most expansion bytes.
pub const MOST: usize = 16;

/// What the interpreted fields say; 0 where not sent or not interpreted.
#[derive(Clone, Copy, Debug, Default, PartialEq, Eq)]
pub struct Fields {
    pub class_code: u8,
    pub program: u8,
    /// None where not sent or not interpreted; a sent 0 is a value.
    pub displacement: Option<u16>,
    pub access: u8,
    pub type_code: u8,
    pub services: u8,
    pub marker: u32,
}

/// The expansion of a PDU as sent.
#[derive(Clone, Debug, Default, PartialEq, Eq)]
pub struct Sent {
    /// How many expansion bytes there are.
    pub count: usize,
    pub fields: Fields,
    /// What is wrong with it (refusal 10).
    pub causes: Vec<Cause>,
}

/// The expansion that begins at the place `first`, in a PDU that has the flag.
pub fn decode(pdu: &[u8], first: usize, la: usize) -> Sent {
    let count = count(pdu, first);
    let bytes: Vec<u8> = pdu.iter().skip(first).take(count).copied().collect();
    let parts = Parts::of(&bytes);
    let mut fields = Fields::default();
    for field in &parts.whole {
        interpret(field, &mut fields);
    }
    let mut causes = size_causes(first, count, la);
    causes.extend(parts.causes());
    Sent {
        count,
        fields,
        causes,
    }
}

/// How many expansion bytes there are: bit 7 of each says another follows,
/// also inside a field. Where the PDU ends first, the one that should follow
/// still counts.
fn count(pdu: &[u8], first: usize) -> usize {
    let saying_another_follows = pdu
        .iter()
        .skip(first)
        .take_while(|&byte| byte & 0x80 != 0)
        .count();
    saying_another_follows + 1
}

/// Too many bytes, or the last of them past La.
fn size_causes(first: usize, count: usize, la: usize) -> Vec<Cause> {
    let mut causes = Vec::new();
    if count > MOST {
        causes.push(Cause::ExpansionOver16Bytes);
    }
    if first + count - 1 > la {
        causes.push(Cause::ExpansionPastLa);
    }
    causes
}

/// The ID of a field, bits 6 to 4 of its first byte.
pub fn id(first: u8) -> u8 {
    (first >> 4) & 7
}

/// How many bytes the field with this first byte has; none if interpretation
/// stops there: at ID 3, 5, 6, 7, or 4 with bit 3 clear.
pub fn field_size(first: u8) -> Option<usize> {
    let bit_0 = first & 1 != 0;
    let bit_3 = first & 8 != 0;
    match id(first) {
        0 => Some(1),
        1 if bit_0 => Some(3),
        1 => Some(1),
        2 => Some(2),
        4 if bit_3 => Some(4),
        _ => None,
    }
}

/// The expansion bytes taken apart, as far as they are interpreted.
struct Parts<'a> {
    /// The fields that are interpreted.
    whole: Vec<&'a [u8]>,
    /// The IDs of these, and of the one after them that is cut or at which
    /// interpretation stops.
    ids: Vec<u8>,
    /// Whether the bytes end inside a field.
    cut: bool,
}

impl Parts<'_> {
    fn of(bytes: &[u8]) -> Parts<'_> {
        let mut parts = Parts {
            whole: Vec::new(),
            ids: Vec::new(),
            cut: false,
        };
        let mut left = bytes;
        while let Some(&first) = left.first() {
            parts.ids.push(id(first));
            let Some(size) = field_size(first) else {
                break;
            };
            if size > left.len() {
                parts.cut = true;
                break;
            }
            let (field, after) = left.split_at(size);
            parts.whole.push(field);
            left = after;
        }
        parts
    }

    /// IDs that don't rise strictly, class 0, a field cut.
    fn causes(&self) -> Vec<Cause> {
        let mut causes = Vec::new();
        if !self.ids.windows(2).all(|pair| pair[0] < pair[1]) {
            causes.push(Cause::FieldOrder);
        }
        let class_zero = |field: &&[u8]| id(field[0]) == 0 && field[0] & 15 == 0;
        if self.whole.iter().any(class_zero) {
            causes.push(Cause::ClassZero);
        }
        if self.cut {
            causes.push(Cause::FieldCut);
        }
        causes
    }
}

/// Takes over what a whole field says.
fn interpret(field: &[u8], fields: &mut Fields) {
    let first = field[0];
    let rest = seven_bits_each(&field[1..]);
    match id(first) {
        0 => fields.class_code = first & 15,
        1 => {
            fields.program = (first >> 1) & 7;
            if field.len() == 3 {
                fields.displacement = Some(rest as u16);
            }
        }
        2 => {
            fields.access = (first >> 3) & 1;
            fields.type_code = ((first & 1) << 7) | rest as u8;
        }
        4 => {
            fields.services = first & 7;
            fields.marker = rest;
        }
        other => panic!("ID {other} is never interpreted"),
    }
}

/// The number made of the low seven bits of each byte, high part first.
fn seven_bits_each(bytes: &[u8]) -> u32 {
    bytes
        .iter()
        .fold(0, |number, &byte| number << 7 | u32::from(byte & 0x7F))
}

#[cfg(test)]
mod tests {
    use super::*;

    /// The expansion in a PDU of 96 bytes with La 40, beginning at byte 20.
    fn sent(bytes: &[u8]) -> Sent {
        let mut pdu = [0x55; 96];
        pdu[20..20 + bytes.len()].copy_from_slice(bytes);
        decode(&pdu, 20, 40)
    }

    #[test]
    fn every_field() {
        let bytes = [0x8B, 0x9D, 0xE5, 0xB3, 0xAF, 0x91, 0xCE, 0xD5, 0x82, 0x7F];
        let sent = sent(&bytes);
        assert_eq!(sent.causes, []);
        assert_eq!(sent.count, 10);
        let wanted = Fields {
            class_code: 11,
            program: 6,
            displacement: Some((0x65 << 7) + 0x33),
            access: 1,
            type_code: 128 + 0x11,
            services: 6,
            marker: (0x55 << 14) + (0x02 << 7) + 0x7F,
        };
        assert_eq!(sent.fields, wanted);
    }

    #[test]
    fn stops_at_reserved_ids() {
        for stop in [0x30, 0x3F, 0x40, 0x47, 0x50, 0x6F, 0x70] {
            // Behind it class 0, a falling ID, and a field that is cut.
            let sent = sent(&[0x81, stop | 0x80, 0x80, 0x80, 0x91, 0x11]);
            assert_eq!(sent.causes, [], "{stop:#x}");
            assert_eq!(sent.count, 6);
            assert_eq!(sent.fields.class_code, 1);
            assert_eq!(sent.fields.displacement, None);
        }
        // Its own order is checked.
        let before = [0x90, 0xA0, 0x80];
        for stop in [0x30, 0x40, 0x50] {
            let bytes = [&before[..], &[0xC8, 0x80, 0x80, 0x80, stop]].concat();
            let causes = sent(&bytes).causes;
            assert_eq!(causes.is_empty(), stop == 0x50, "{stop:#x}");
        }
    }

    #[test]
    fn sizes() {
        let long = |count: usize| {
            let mut bytes = vec![0xF0; count];
            bytes[count - 1] = 0;
            sent(&bytes).causes
        };
        assert_eq!(long(16), []);
        assert_eq!(long(17), [Cause::ExpansionOver16Bytes]);
        assert_eq!(long(21), [Cause::ExpansionOver16Bytes]);
        assert_eq!(
            long(22),
            [Cause::ExpansionOver16Bytes, Cause::ExpansionPastLa]
        );
        let pdu = [0xFF; 96];
        assert_eq!(decode(&pdu, 94, 94).count, 3);
        assert_eq!(decode(&pdu, 94, 95).causes, [Cause::ExpansionPastLa]);
        assert_eq!(decode(&pdu, 96, 95).causes, [Cause::ExpansionPastLa]);
    }

    #[test]
    fn wrong_fields() {
        assert_eq!(sent(&[0x00]).causes, [Cause::ClassZero]);
        assert_eq!(sent(&[0x80, 0x10]).causes, [Cause::ClassZero]);
        assert_eq!(sent(&[0x81, 0x01]).causes, [Cause::FieldOrder]);
        assert_eq!(sent(&[0x90, 0x01]).causes, [Cause::FieldOrder]);
        for cut in [
            &[0x11][..],
            &[0x91, 0x00],
            &[0x20],
            &[0x48],
            &[0xC8, 0x00],
            &[0xC8, 0x80, 0x00],
        ] {
            assert_eq!(sent(cut).causes, [Cause::FieldCut], "{cut:02x?}");
        }
    }
}
