//! Reading a PDU without a receiver (document 01, "Receiver"; any count of
//! pieces, document 02, Ask 9), with the refusals 3 to 5 and 7 to 12. All causes
//! for a refusal are gathered first; the lowest of their numbers is the answer.

use crate::control::{self, ControlWord};
use crate::erasures;
use crate::expansion::{self, Fields};
use crate::header;
use crate::locators;
use crate::modes::{self, Line};
use crate::refusal::{self, Cause};

/// A piece's place and length, without its CRC byte.
#[derive(Clone, Copy, Debug, PartialEq, Eq)]
pub struct Piece {
    pub start: usize,
    pub length: usize,
}

/// What an accepted PDU says.
#[derive(Clone, Debug, PartialEq, Eq)]
pub struct Reading {
    pub control: ControlWord,
    pub expansion: Fields,
    /// The place of the PSD's first byte; La plus 1 if there is no PSD.
    pub psd_start: usize,
    pub psd_length: usize,
    pub pieces: Vec<Piece>,
}

/// A PDU turned down.
#[derive(Clone, Debug, PartialEq, Eq)]
pub struct Refusal {
    /// The lowest of the causes' numbers.
    pub number: u32,
    /// All causes that can be told.
    pub causes: Vec<Cause>,
}

impl Refusal {
    /// The k of each wrong locator.
    pub fn wrong_locators(&self) -> Vec<usize> {
        self.causes.iter().filter_map(|c| c.locator()).collect()
    }

    /// The k that comes with the number (document 02, Ask 6).
    pub fn k(&self) -> usize {
        refusal::k(self.number, &self.wrong_locators())
    }
}

/// Reads a lent PDU. When accepted it is left mended, when refused as it was.
pub fn read(pdu: &mut [u8]) -> Result<Reading, Refusal> {
    read_marked(pdu, &[])
}

/// The same with places of the header marked, as a receiver reads a PDU that
/// comes with marks. They are at most eight different places.
pub fn read_marked(pdu: &mut [u8], marks: &[u8]) -> Result<Reading, Refusal> {
    let mended = mended(pdu, marks);
    let view = mended.as_deref().map(View::of);
    let causes = causes(pdu, view.as_ref());
    if let Some(number) = causes.iter().map(|cause| cause.number()).min() {
        return Err(Refusal { number, causes });
    }
    let reading = view.expect("a mended PDU").reading();
    pdu.copy_from_slice(&mended.expect("a mended PDU"));
    Ok(reading)
}

/// The PDU with its header mended; none if it hasn't a whole header, or one
/// that is beyond mending.
pub fn mended(pdu: &[u8], marks: &[u8]) -> Option<Vec<u8>> {
    if pdu.len() < header::PLACES {
        return None;
    }
    let (word, _) = erasures::correct(&header::header_of(pdu), marks)?;
    Some([&word, &pdu[header::PLACES..]].concat())
}

/// All causes for turning the PDU down, as far as they can be told.
fn causes(pdu: &[u8], view: Option<&View>) -> Vec<Cause> {
    let mut causes = length_causes(pdu.len());
    match view {
        Some(view) => {
            causes.extend(view.mode_causes());
            causes.extend(view.sequence_causes());
            causes.extend(view.flag_causes());
            causes.extend(view.la_causes());
            causes.extend(view.expansion_causes());
            causes.extend(view.locator_causes());
            causes.extend(view.displacement_causes());
        }
        None if pdu.len() < header::PLACES => {}
        None => causes.push(Cause::BeyondMending),
    }
    causes
}

/// Refusal 3: the PDU length isn't 96 to 20,480.
pub fn length_causes(length: usize) -> Vec<Cause> {
    only_if(
        !(header::PLACES..=header::LONGEST).contains(&length),
        Cause::Length,
    )
}

/// The cause, if it applies.
fn only_if(applies: bool, cause: Cause) -> Vec<Cause> {
    if applies {
        vec![cause]
    } else {
        Vec::new()
    }
}

/// What is to be seen in a mended PDU.
struct View {
    length: usize,
    control: ControlWord,
    nop: usize,
    la: usize,
    /// What else depends on the mode and stream, if they are in the table.
    body: Option<Body>,
}

/// What the mode and stream let us see.
struct Body {
    line: Line,
    /// The place of the last locator byte.
    last_locator_byte: usize,
    expansion: expansion::Sent,
    /// The locators as sent; none if their bytes aren't all in the PDU. No La
    /// is right then.
    locators: Option<Vec<usize>>,
}

impl View {
    fn of(pdu: &[u8]) -> View {
        let word = pdu[control::FIRST..control::FIRST + control::BYTES]
            .try_into()
            .expect("six bytes");
        let control = control::decode(word);
        View {
            length: pdu.len(),
            control,
            nop: usize::from(control.nop),
            la: usize::from(control.la),
            body: modes::line_for(control.mode, control.stream)
                .map(|line| Body::of(pdu, &control, line)),
        }
    }

    /// Refusal 5: mode and stream not in the table.
    fn mode_causes(&self) -> Vec<Cause> {
        only_if(self.body.is_none(), Cause::ModeAndStream)
    }

    /// Refusal 7: sequence outside the mode's range.
    fn sequence_causes(&self) -> Vec<Cause> {
        let Some(body) = &self.body else {
            return Vec::new();
        };
        only_if(
            self.control.sequence >= body.line.sequences,
            Cause::Sequence,
        )
    }

    /// Refusal 8, which concerns the two flags only (document 02, Ask 9): Pfirst
    /// or Plast with NOP 0.
    fn flag_causes(&self) -> Vec<Cause> {
        let none = self.nop == 0;
        [
            only_if(none && self.control.pfirst, Cause::PfirstWithoutPieces),
            only_if(none && self.control.plast, Cause::PlastWithoutPieces),
        ]
        .concat()
    }

    /// Refusal 9: La before the last locator byte, or not below the length.
    fn la_causes(&self) -> Vec<Cause> {
        let before = |body: &Body| self.la < body.last_locator_byte;
        [
            only_if(
                self.body.as_ref().is_some_and(before),
                Cause::LaBeforeLastLocatorByte,
            ),
            only_if(self.la >= self.length, Cause::LaNotBelowLength),
        ]
        .concat()
    }

    /// Refusal 10: expansion over 16 bytes, past La, order, class 0, field
    /// cut.
    fn expansion_causes(&self) -> Vec<Cause> {
        match &self.body {
            Some(body) => body.expansion.causes.clone(),
            None => Vec::new(),
        }
    }

    /// Refusal 11: locator under start plus 1, or not below the length.
    fn locator_causes(&self) -> Vec<Cause> {
        let locators = self.body.as_ref().and_then(|body| body.locators.as_ref());
        match locators {
            Some(locators) => locators::causes(self.la, locators, self.length),
            None => Vec::new(),
        }
    }

    /// Refusal 12: displacement before the last piece's end (La if none), or
    /// not below the length. The end is the place of the piece's CRC byte.
    fn displacement_causes(&self) -> Vec<Cause> {
        let Some(body) = &self.body else {
            return Vec::new();
        };
        let (Some(locators), Some(displacement)) =
            (&body.locators, body.expansion.fields.displacement)
        else {
            return Vec::new();
        };
        let displacement = usize::from(displacement);
        let end = locators.last().copied().unwrap_or(self.la);
        [
            only_if(displacement < end, Cause::DisplacementBeforeEnd),
            only_if(
                displacement >= self.length,
                Cause::DisplacementNotBelowLength,
            ),
        ]
        .concat()
    }

    /// The answer, when nothing is wrong: PSD from behind the expansion to
    /// La, and the pieces up to their locators.
    fn reading(&self) -> Reading {
        let body = self.body.as_ref().expect("mode and stream in the table");
        let locators = body.locators.as_ref().expect("locators in the PDU");
        let psd_start = body.last_locator_byte + 1 + body.expansion.count;
        let pieces = locators::starts(self.la, locators)
            .into_iter()
            .zip(locators)
            .map(|(start, locator)| Piece {
                start,
                length: locator - start,
            })
            .collect();
        Reading {
            control: self.control,
            expansion: body.expansion.fields,
            psd_start,
            psd_length: self.la + 1 - psd_start,
            pieces,
        }
    }
}

impl Body {
    fn of(pdu: &[u8], control: &ControlWord, line: Line) -> Body {
        let nop = usize::from(control.nop);
        let bits = line.locator_bits;
        let last_locator_byte = locators::last_byte(bits, nop);
        let expansion = if control.expansion {
            expansion::decode(pdu, last_locator_byte + 1, usize::from(control.la))
        } else {
            expansion::Sent::default()
        };
        let in_the_pdu = last_locator_byte < pdu.len();
        Body {
            line,
            last_locator_byte,
            expansion,
            locators: in_the_pdu.then(|| locators::decode(pdu, bits, nop)),
        }
    }
}

#[cfg(test)]
mod tests {
    use super::*;
    use crate::encode::{self, Field, Parts};
    use crate::header::PLACES;
    use crate::rng::Rng;

    /// A PDU of 96 bytes that begins with these, in hexadecimal.
    fn pdu(hex: &str) -> Vec<u8> {
        let digits: Vec<u32> = hex.chars().filter_map(|c| c.to_digit(16)).collect();
        let mut bytes = vec![0; PLACES];
        for (byte, pair) in bytes.iter_mut().zip(digits.chunks(2)) {
            *byte = (pair[0] * 16 + pair[1]) as u8;
        }
        assert!(header::is_code_word(&header::header_of(&bytes)), "{hex}");
        bytes
    }

    /// Reads it as it is, and with up to four bytes altered.
    fn outcome(pdu: &[u8]) -> Result<Reading, Refusal> {
        let mut rng = Rng::new(96);
        let mut first = pdu.to_vec();
        let outcome = read(&mut first);
        assert_eq!(first, pdu);
        for altered in 1..=4 {
            let mut before = pdu.to_vec();
            for place in rng.places(altered, 0, 95) {
                before[place] ^= rng.nonzero_byte();
            }
            let mut after = before.clone();
            assert_eq!(read(&mut after), outcome);
            assert_eq!(after, if outcome.is_ok() { pdu } else { &before });
        }
        outcome
    }

    fn causes_of(pdu: &[u8]) -> Vec<Cause> {
        match outcome(pdu) {
            Ok(_) => Vec::new(),
            Err(refusal) => {
                let lowest = refusal.causes.iter().map(|cause| cause.number()).min();
                assert_eq!(lowest, Some(refusal.number));
                refusal.causes
            }
        }
    }

    /// A PDU of mode 0 in 96 bytes.
    fn mode_0(control: ControlWord, locators: &[usize], fields: &[Field]) -> Vec<u8> {
        let mut pdu = vec![0; PLACES];
        let parts = Parts {
            control: ControlWord {
                nop: locators.len() as u8,
                expansion: !fields.is_empty(),
                ..control
            },
            locator_bits: 16,
            locators: locators.to_vec(),
            expansion: encode::expansion(fields),
            ..Parts::default()
        };
        parts.encode(&mut pdu);
        pdu
    }

    fn with_la(la: u8) -> ControlWord {
        ControlWord {
            la,
            ..ControlWord::default()
        }
    }

    /// Examples (a) and (b) in one PDU of 701 bytes.
    #[test]
    fn examples_a_and_b() {
        let mut pdu = vec![0; 701];
        pdu[8..18].copy_from_slice(&[0x40, 4, 5, 0x0B, 5, 0x11, 0x2C, 1, 0xBC, 2]);
        header::write_parity(&mut pdu).unwrap();
        let reading = outcome(&pdu).unwrap();
        assert_eq!(reading.control.start, 33);
        assert_eq!(reading.control.sequence, 1);
        assert_eq!(reading.expansion, Fields::default());
        assert_eq!((reading.psd_start, reading.psd_length), (18, 0));
        let piece = |start, length| Piece { start, length };
        assert_eq!(reading.pieces, [piece(18, 282), piece(301, 399)]);
        let shorter = mode_0(with_la(17), &[300, 700], &[]);
        assert_eq!(
            causes_of(&shorter),
            [
                Cause::LocatorNotBelowLength(0),
                Cause::LocatorNotBelowLength(1)
            ]
        );
    }

    /// Example (c) in mode 1, with PSD of two bytes.
    #[test]
    fn example_c() {
        let mut pdu = vec![0; 701];
        pdu[8..17].copy_from_slice(&[0x41, 4, 5, 0x0B, 5, 18, 0x2C, 0xC1, 0x2B]);
        header::write_parity(&mut pdu).unwrap();
        let reading = outcome(&pdu).unwrap();
        assert_eq!((reading.psd_start, reading.psd_length), (17, 2));
        let piece = |start, length| Piece { start, length };
        assert_eq!(reading.pieces, [piece(19, 281), piece(301, 399)]);
    }

    #[test]
    fn wrong_lengths() {
        for length in [0, 1, 95, 20_481, 70_000] {
            let mut pdu = vec![0; length];
            let refusal = read(&mut pdu).unwrap_err();
            assert_eq!(refusal.number, 3);
            assert!(pdu.iter().all(|&byte| byte == 0));
        }
    }

    #[test]
    fn all_zero_is_9() {
        for length in [96, 97, 4_096, 20_480] {
            let zero = vec![0; length];
            assert_eq!(causes_of(&zero), [Cause::LaBeforeLastLocatorByte]);
        }
        assert_eq!(
            causes_of(&mode_0(with_la(12), &[], &[])),
            [Cause::LaBeforeLastLocatorByte]
        );
        assert_eq!(causes_of(&mode_0(with_la(13), &[], &[])), []);
    }

    #[test]
    fn nothing_but_la_13() {
        let pdu = pdu("c2c7dacd63c6d064 00000000000d");
        let reading = outcome(&pdu).unwrap();
        assert_eq!(reading.control, with_la(13));
        assert_eq!((reading.psd_start, reading.psd_length), (14, 0));
        assert_eq!(reading.pieces, []);
    }

    #[test]
    fn displacement_and_the_last_end() {
        let below = pdu("4aac5a8c1b4a49aa 000000008212140091801301 31");
        assert_eq!(causes_of(&below), [Cause::DisplacementBeforeEnd]);
        let at = pdu("e9d3f21d09b541a0 000000008212140091801401 31");
        let reading = outcome(&at).unwrap();
        assert_eq!(reading.expansion.displacement, Some(20));
        assert_eq!((reading.psd_start, reading.psd_length), (19, 0));
        let pieces = [Piece {
            start: 19,
            length: 1,
        }];
        assert_eq!(reading.pieces, pieces);
        let no_piece = pdu("d007c099d1bebed3 0000000080109180 10");
        let reading = outcome(&no_piece).unwrap();
        assert_eq!(reading.expansion.displacement, Some(16));
        let below = pdu("0cc2a18813ded908 0000000080109180 0f");
        assert_eq!(causes_of(&below), [Cause::DisplacementBeforeEnd]);
    }

    #[test]
    fn displacement_and_the_length() {
        for (place, wrong) in [(95, false), (96, true), (16_383, true)] {
            let fields = [Field::ProgramAndDisplacement(0, place)];
            let causes = causes_of(&mode_0(with_la(20), &[], &fields));
            let wanted = only_if(wrong, Cause::DisplacementNotBelowLength);
            assert_eq!(causes, wanted, "{place}");
        }
    }

    #[test]
    fn displacement_0() {
        let sent = [Field::ProgramAndDisplacement(0, 0)];
        let pdu_sent = mode_0(with_la(20), &[], &sent);
        assert_eq!(causes_of(&pdu_sent), [Cause::DisplacementBeforeEnd]);
        let not_interpreted = pdu("c65b7fd2d47f560b 000000008011b0918000");
        let reading = outcome(&not_interpreted).unwrap();
        assert_eq!(reading.expansion, Fields::default());
        assert_eq!((reading.psd_start, reading.psd_length), (18, 0));
    }

    #[test]
    fn expansion_and_la() {
        // The flag with no room before La, then with just enough of it.
        let fields = [Field::Program(3)];
        assert_eq!(
            causes_of(&mode_0(with_la(13), &[], &fields)),
            [Cause::ExpansionPastLa]
        );
        assert_eq!(causes_of(&mode_0(with_la(14), &[], &fields)), []);
        let reading = outcome(&mode_0(with_la(17), &[], &fields)).unwrap();
        assert_eq!((reading.psd_start, reading.psd_length), (15, 3));
    }

    /// A count of pieces whose locators don't end in the PDU: whatever La is, it
    /// is before the last locator byte or not below the length. What stands past
    /// the PDU tells nothing.
    #[test]
    fn no_la_is_right_for_63_pieces_in_96_bytes() {
        for (mode, length) in [(0, 96), (0, 139), (1, 96), (1, 108)] {
            for la in 0..=255 {
                let parts = Parts {
                    control: ControlWord {
                        mode,
                        nop: 63,
                        la,
                        ..ControlWord::default()
                    },
                    ..Parts::default()
                };
                let mut pdu = vec![0; length];
                parts.encode(&mut pdu);
                assert_eq!(read(&mut pdu).unwrap_err().number, 9, "{mode}, {la}");
            }
        }
        // With a byte more they end in the PDU; La there leaves no room for a
        // piece.
        for (mode, length) in [(0, 140), (1, 109)] {
            let parts = Parts {
                control: ControlWord {
                    mode,
                    nop: 63,
                    la: length as u8 - 1,
                    ..ControlWord::default()
                },
                ..Parts::default()
            };
            let mut pdu = vec![0; length];
            parts.encode(&mut pdu);
            assert_eq!(read(&mut pdu).unwrap_err().number, 11, "{mode}");
        }
    }

    /// Sixty-three pieces of a byte, just in the PDU. A locator behind the header
    /// is taken as it comes; one in it is mended.
    #[test]
    fn locators_behind_the_header() {
        let locators: Vec<usize> = (0..63).map(|k| 141 + 2 * k).collect();
        let parts = Parts {
            control: ControlWord {
                nop: 63,
                la: 139,
                ..ControlWord::default()
            },
            locator_bits: 16,
            locators,
            ..Parts::default()
        };
        let mut pdu = vec![0; 266];
        parts.encode(&mut pdu);
        let reading = outcome(&pdu).unwrap();
        assert_eq!(reading.pieces.len(), 63);
        assert!(reading.pieces.iter().all(|piece| piece.length == 1));
        assert_eq!((reading.psd_start, reading.psd_length), (140, 0));
        // Locator 40 ends at byte 95, locator 41 begins at byte 96.
        for (place, refused) in [(94, None), (96, Some(Cause::LocatorUnderStart(41)))] {
            let mut altered = pdu.clone();
            altered[place] -= 1;
            let before = altered.clone();
            match refused {
                None => {
                    assert_eq!(read(&mut altered), Ok(reading.clone()));
                    assert_eq!(altered, pdu);
                }
                Some(cause) => {
                    assert_eq!(causes_of(&altered), [cause]);
                    assert_eq!(altered, before);
                }
            }
        }
    }

    #[test]
    fn locators_as_sent() {
        let pdu = mode_0(with_la(19), &[100, 30, 40], &[]);
        let refusal = outcome(&pdu).unwrap_err();
        assert_eq!(refusal.number, 11);
        assert_eq!(refusal.wrong_locators(), [0, 1]);
        // La at the length's end leaves no place for a piece.
        let pdu = mode_0(with_la(95), &[95], &[]);
        assert_eq!(causes_of(&pdu), [Cause::LocatorUnderStart(0)]);
        let pdu = mode_0(with_la(93), &[95], &[]);
        assert_eq!(causes_of(&pdu), []);
    }

    #[test]
    fn many_causes_at_once() {
        let control = ControlWord {
            sequence: 7,
            pfirst: true,
            plast: true,
            la: 12,
            ..ControlWord::default()
        };
        let fields = [Field::Class(0), Field::ProgramAndDisplacement(0, 200)];
        let mut pdu = mode_0(control, &[], &fields);
        assert_eq!(
            causes_of(&pdu),
            [
                Cause::Sequence,
                Cause::PfirstWithoutPieces,
                Cause::PlastWithoutPieces,
                Cause::LaBeforeLastLocatorByte,
                Cause::ExpansionPastLa,
                Cause::ClassZero,
                Cause::DisplacementNotBelowLength,
            ]
        );
        // An unknown stream: 5 is lower than all of these.
        pdu[8] |= 0x20;
        header::write_parity(&mut pdu).unwrap();
        assert_eq!(outcome(&pdu).unwrap_err().number, 5);
        for byte in &mut pdu[30..40] {
            *byte ^= 0x11;
        }
        let before = pdu.clone();
        assert_eq!(read(&mut pdu).unwrap_err().number, 4);
        assert_eq!(pdu, before);
    }
}
