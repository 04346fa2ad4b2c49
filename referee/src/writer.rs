//! The writer (document 01, "Writer"; document 02, Asks 2 and 9), with the
//! refusals 1, 3, 5, 10 and 14 to 17. All causes for a refusal are gathered
//! first; the lowest of their numbers is the answer.

use crate::control::ControlWord;
use crate::encode::{self, Parts};
use crate::header::{LONGEST, PLACES};
use crate::modes::{self, Line};
use crate::placing::{self, Piece, Room};
use crate::refusal::{self, WriterCause};
use crate::settings::Settings;

/// How many numbers packets have, from 0 on.
pub const NUMBERS: u8 = 64;

/// The longest packet.
pub const LONGEST_PACKET: usize = 4_096;

/// The longest PDU with 12-bit locators.
pub const LONGEST_WITH_12_BITS: usize = 4_096;

/// What a writer was opened with and what it remembers.
#[derive(Clone, Copy, Debug, Default, PartialEq, Eq)]
pub struct Writer {
    pub mode: u8,
    pub stream: u8,
    /// What the register of the CRCs starts at: any byte.
    pub register: u8,
    /// The PDU sequence of the next PDU.
    pub sequence: u8,
    /// The number of the first unfinished packet.
    pub number: u8,
    /// How many bytes of it are already sent.
    pub sent: u16,
}

/// Opens a writer for a mode and stream, or answers the refusal's number. The
/// register of its CRCs starts at 0.
pub fn open(mode: u8, stream: u8) -> Result<Writer, u32> {
    open_with(mode, stream, 0)
}

/// Opens a writer for a mode and stream with what the register of its CRCs
/// starts at, any byte; or answers the refusal's number.
pub fn open_with(mode: u8, stream: u8, register: u8) -> Result<Writer, u32> {
    if modes::line_for(mode, stream).is_none() {
        return Err(refusal::MODE_AND_STREAM);
    }
    Ok(Writer {
        mode,
        stream,
        register,
        sequence: 0,
        number: 0,
        sent: 0,
    })
}

/// What a writing call is given besides the writer and the PDU.
#[derive(Clone, Copy, Debug)]
pub struct Offer<'a> {
    pub settings: Settings,
    pub psd: &'a [u8],
    /// The packets' lengths, beginning with the unfinished one's.
    pub lengths: &'a [u16],
    /// The packets' bytes, joined.
    pub bytes: &'a [u8],
}

/// The answer to a writing call.
#[derive(Clone, Debug, PartialEq, Eq)]
pub struct Answer {
    /// 0 if accepted, otherwise the lowest of the causes' numbers.
    pub refusal: u32,
    /// All causes for a refusal that can be told.
    pub causes: Vec<WriterCause>,
    /// How many packets ended; 0 if refused.
    pub ended: usize,
    /// The next writer; if refused, the writer as it came.
    pub writer: Writer,
}

/// Writes a PDU of the length of the lent one, whatever that holds. If refused,
/// it is left as it was.
pub fn write(writer: Writer, offer: &Offer, pdu: &mut [u8]) -> Answer {
    let causes = causes(&writer, offer, pdu.len());
    if let Some(number) = causes.iter().map(|cause| cause.number()).min() {
        return Answer {
            refusal: number,
            causes,
            ended: 0,
            writer,
        };
    }
    let line = modes::line_for(writer.mode, writer.stream).expect("a line of the table");
    let room = room(&line, offer, pdu.len());
    let pieces = placing::place(&room, usize::from(writer.sent), &lengths_of(offer));
    pdu.fill(0);
    parts(&writer, offer, &room, &pieces).encode(pdu);
    Answer {
        refusal: 0,
        causes,
        ended: ended(&pieces),
        writer: next(&writer, &line, &pieces),
    }
}

/// All causes for turning the call down, as far as they can be told.
fn causes(writer: &Writer, offer: &Offer, length: usize) -> Vec<WriterCause> {
    let line = modes::line_for(writer.mode, writer.stream);
    let mut causes = Vec::new();
    causes.extend(state_causes(writer, line.as_ref()));
    causes.extend(length_causes(line.as_ref(), length));
    causes.extend(offer.settings.rule_causes(length));
    causes.extend(offer.settings.value_causes(writer.stream));
    causes.extend(packet_causes(writer, offer));
    if let Some(line) = line {
        causes.extend(psd_causes(&line, offer));
        causes.extend(overhead_causes(&line, offer, length));
    }
    causes
}

/// Refusal 1: a state field outside its range.
fn state_causes(writer: &Writer, line: Option<&Line>) -> Vec<WriterCause> {
    let mut causes = Vec::new();
    match line {
        None => causes.push(WriterCause::ModeAndStream),
        Some(line) if writer.sequence >= line.sequences => causes.push(WriterCause::Sequence),
        Some(_) => {}
    }
    if writer.number >= NUMBERS {
        causes.push(WriterCause::Number);
    }
    if writer.sent > 4_095 {
        causes.push(WriterCause::Sent);
    }
    causes
}

/// Refusal 3: PDU length not 96 to 20,480, or over 4,096 with 12-bit locators.
fn length_causes(line: Option<&Line>, length: usize) -> Vec<WriterCause> {
    let mut causes = Vec::new();
    if !(PLACES..=LONGEST).contains(&length) {
        causes.push(WriterCause::Length);
    }
    if line.is_some_and(|line| line.locator_bits == 12) && length > LONGEST_WITH_12_BITS {
        causes.push(WriterCause::LengthOver4096);
    }
    causes
}

/// Refusal 15: packet length 0 or over 4,096; lengths that don't sum to the
/// bytes; sent above 0 and the unfinished packet absent or not longer than
/// sent. Every packet offered counts, whether it will fit or not.
fn packet_causes(writer: &Writer, offer: &Offer) -> Vec<WriterCause> {
    let lengths = lengths_of(offer);
    let mut causes = Vec::new();
    if lengths.contains(&0) {
        causes.push(WriterCause::PacketLength0);
    }
    if lengths.iter().any(|&length| length > LONGEST_PACKET) {
        causes.push(WriterCause::PacketLengthOver4096);
    }
    if lengths.iter().sum::<usize>() != offer.bytes.len() {
        causes.push(WriterCause::LengthsDontSum);
    }
    if writer.sent > 0 {
        match lengths.first() {
            None => causes.push(WriterCause::UnfinishedAbsent),
            Some(&length) if length <= usize::from(writer.sent) => {
                causes.push(WriterCause::UnfinishedNotLonger);
            }
            Some(_) => {}
        }
    }
    causes
}

/// Refusal 16: PSD plus expansion past the mode's column, or any PSD where it
/// says no PSD.
fn psd_causes(line: &Line, offer: &Offer) -> Vec<WriterCause> {
    let mut causes = Vec::new();
    if offer.psd.len() + offer.settings.expansion_size() > line.psd_and_expansion {
        causes.push(WriterCause::PsdPlusExpansionPastColumn);
    }
    if !line.psd && !offer.psd.is_empty() {
        causes.push(WriterCause::NoPsdHere);
    }
    causes
}

/// Refusal 17: overhead for one piece plus 2 over R; with none offered,
/// overhead over R.
fn overhead_causes(line: &Line, offer: &Offer, length: usize) -> Vec<WriterCause> {
    let room = room(line, offer, length);
    let mut causes = Vec::new();
    if offer.lengths.is_empty() {
        if room.overhead(0) > length {
            causes.push(WriterCause::NoRoomForOverhead);
        }
    } else if room.overhead(1) + 2 > length {
        causes.push(WriterCause::NoRoomForAPiece);
    }
    causes
}

/// The packets' lengths.
fn lengths_of(offer: &Offer) -> Vec<usize> {
    offer.lengths.iter().map(|&l| usize::from(l)).collect()
}

/// What the pieces have to fit into.
fn room(line: &Line, offer: &Offer, length: usize) -> Room {
    Room {
        length,
        locator_bits: line.locator_bits,
        expansion_and_psd: offer.settings.expansion_size() + offer.psd.len(),
    }
}

/// The PDU in its parts, one behind the other: control word, locators,
/// expansion, PSD up to La, then the pieces, each with its CRC.
fn parts(writer: &Writer, offer: &Offer, room: &Room, pieces: &[Piece]) -> Parts {
    let la = room.la(pieces.len());
    let mut placed = Vec::new();
    let mut locators = Vec::new();
    let mut start = la + 1;
    for piece in pieces {
        let locator = start + piece.length;
        placed.push(encode::Piece {
            start,
            bytes: bytes_of(offer, piece),
            crc_error: 0,
        });
        locators.push(locator);
        start = locator + 1;
    }
    Parts {
        control: control_word(writer, &offer.settings, pieces, la),
        locator_bits: room.locator_bits,
        locators,
        unused_bits: 0,
        expansion: offer.settings.expansion(room.length - 1),
        psd: offer.psd.to_vec(),
        register: writer.register,
        pieces: placed,
    }
}

/// The bytes of a piece.
fn bytes_of(offer: &Offer, piece: &Piece) -> Vec<u8> {
    let before: usize = lengths_of(offer)[..piece.packet].iter().sum();
    let first = before + piece.first;
    offer.bytes[first..first + piece.length].to_vec()
}

/// The control word of the PDU.
fn control_word(writer: &Writer, settings: &Settings, pieces: &[Piece], la: usize) -> ControlWord {
    // The first piece continues a packet, or the last one doesn't end it.
    let pfirst = pieces.first().is_some_and(|piece| piece.first > 0);
    let plast = pieces.last().is_some_and(|piece| !piece.ends);
    // The number of the first packet not continued.
    let start = (writer.number + u8::from(pfirst)) % NUMBERS;
    ControlWord {
        mode: writer.mode,
        stream: writer.stream,
        sequence: writer.sequence,
        blend: settings.blend,
        gain: settings.gain,
        common_delay: settings.common_delay,
        latency: settings.latency,
        pfirst,
        plast,
        start,
        nop: u8::try_from(pieces.len()).expect("within the limit"),
        expansion: settings.asks_for_expansion(),
        la: u8::try_from(la).expect("a place that a byte can say"),
    }
}

/// How many packets end in the PDU.
fn ended(pieces: &[Piece]) -> usize {
    pieces.iter().filter(|piece| piece.ends).count()
}

/// The writer after the PDU.
fn next(writer: &Writer, line: &Line, pieces: &[Piece]) -> Writer {
    let sent = match pieces.last() {
        Some(piece) if !piece.ends => piece.first + piece.length,
        _ => 0,
    };
    let number = (usize::from(writer.number) + ended(pieces)) % usize::from(NUMBERS);
    Writer {
        mode: writer.mode,
        stream: writer.stream,
        register: writer.register,
        sequence: (writer.sequence + 1) % line.sequences,
        number: number as u8,
        sent: u16::try_from(sent).expect("less than a packet"),
    }
}

#[cfg(test)]
mod tests {
    use super::*;
    use crate::crc::crc8;
    use crate::header;
    use crate::modes::TABLE;
    use crate::reading;
    use crate::refusal::Value;
    use crate::settings::{Applied, ProgramType};

    /// So many bytes that tell where they stand.
    fn bytes(count: usize) -> Vec<u8> {
        (0..count).map(|place| (place * 7 + 1) as u8).collect()
    }

    /// Writes packets of these lengths; the PDU held something before.
    fn written(
        writer: Writer,
        settings: Settings,
        psd: &[u8],
        lengths: &[u16],
        length: usize,
    ) -> (Answer, Vec<u8>) {
        let total = lengths.iter().map(|&l| usize::from(l)).sum();
        let mut pdu = vec![0xEE; length];
        let offer = Offer {
            settings,
            psd,
            lengths,
            bytes: &bytes(total),
        };
        let answer = write(writer, &offer, &mut pdu);
        if answer.refusal == 0 {
            assert_eq!(answer.causes, []);
            assert!(header::is_code_word(&header::header_of(&pdu)));
        } else {
            assert_eq!((answer.ended, answer.writer), (0, writer));
            assert_eq!(pdu, vec![0xEE; length]);
        }
        (answer, pdu)
    }

    /// A fresh writer of mode 0.
    fn fresh() -> Writer {
        open(0, 0).unwrap()
    }

    fn refused(writer: Writer, settings: Settings, lengths: &[u16]) -> Vec<WriterCause> {
        written(writer, settings, &[], lengths, 96).0.causes
    }

    #[test]
    fn opening() {
        for mode in 0..=255 {
            for stream in 0..=255 {
                let opened = open(mode, stream);
                let there = TABLE.iter().any(|l| (l.mode, l.stream) == (mode, stream));
                if there {
                    let writer = Writer {
                        mode,
                        stream,
                        ..Writer::default()
                    };
                    assert_eq!(opened, Ok(writer));
                } else {
                    assert_eq!(opened, Err(5));
                }
                let register = mode ^ stream.rotate_left(3);
                let opened_with = open_with(mode, stream, register);
                assert_eq!(opened_with, opened.map(|w| Writer { register, ..w }));
            }
        }
    }

    #[test]
    fn example_j() {
        let (answer, pdu) = written(fresh(), Settings::default(), &[], &[100], 96);
        assert_eq!((answer.refusal, answer.ended), (0, 0));
        let after = Writer {
            sequence: 1,
            sent: 79,
            ..fresh()
        };
        assert_eq!(answer.writer, after);
        // Plast, NOP 1, La 15, locator 95.
        assert_eq!(pdu[8..16], [0, 0, 0, 0x04, 0x02, 15, 95, 0]);
        assert_eq!(pdu[16..95], bytes(100)[..79]);
        assert_eq!(pdu[95], crc8(&pdu[16..95]));
    }

    #[test]
    fn example_k() {
        let writer = written(fresh(), Settings::default(), &[], &[100], 96)
            .0
            .writer;
        let (answer, pdu) = written(writer, Settings::default(), &[], &[100, 50], 96);
        assert_eq!((answer.refusal, answer.ended), (0, 2));
        let after = Writer {
            sequence: 0,
            number: 2,
            ..fresh()
        };
        assert_eq!(answer.writer, after);
        // Sequence 1, Pfirst, start 1, NOP 2, La 17, locators 39 and 90.
        assert_eq!(pdu[8..18], [0x40, 0, 0, 0x0A, 0x04, 17, 39, 0, 90, 0]);
        assert_eq!(pdu[18..39], bytes(150)[79..100]);
        assert_eq!(pdu[39], crc8(&pdu[18..39]));
        assert_eq!(pdu[40..90], bytes(150)[100..]);
        assert_eq!(pdu[90], crc8(&pdu[40..90]));
        assert_eq!(pdu[91..], [0; 5]);
    }

    #[test]
    fn example_l() {
        let writer = written(fresh(), Settings::default(), &[], &[100], 96)
            .0
            .writer;
        let (answer, pdu) = written(writer, Settings::default(), &[], &[100, 56], 96);
        assert_eq!((answer.refusal, answer.ended), (0, 1));
        let after = Writer {
            sequence: 0,
            number: 1,
            sent: 55,
            ..fresh()
        };
        assert_eq!(answer.writer, after);
        // Plast as well, locators 39 and 95.
        assert_eq!(pdu[8..18], [0x40, 0, 0, 0x0E, 0x04, 17, 39, 0, 95, 0]);
        assert_eq!(pdu[40..95], bytes(156)[100..155]);
        assert_eq!(pdu[95], crc8(&pdu[40..95]));
    }

    #[test]
    fn example_m() {
        let settings = Settings::default();
        let (answer, pdu) = written(fresh(), settings, &[0x50; 78], &[100], 96);
        assert_eq!((answer.refusal, answer.writer.sent), (0, 1));
        assert_eq!(pdu[13], 93);
        assert_eq!(pdu[16..94], [0x50; 78]);
        assert_eq!(pdu[94..], [1, 0x31]);
        let (answer, _) = written(fresh(), settings, &[0x50; 79], &[100], 96);
        assert_eq!(answer.refusal, 17);
        assert_eq!(answer.causes, [WriterCause::NoRoomForAPiece]);
        // With none offered, 82 fit.
        for (psd, number) in [(82, 0), (83, 17)] {
            let (answer, _) = written(fresh(), settings, &vec![0x50; psd], &[], 96);
            assert_eq!(answer.refusal, number);
        }
    }

    /// Sixty-four packets of a byte: the last one waits, however long the PDU is.
    /// With PSD of 117 bytes 62 are placed, with 128 it is 57.
    #[test]
    fn sixty_four_packets_of_a_byte() {
        for (psd, placed, la) in [(0, 63, 139), (116, 63, 255), (117, 62, 254), (128, 57, 255)] {
            let psd = vec![0x50; psd];
            let (answer, pdu) = written(fresh(), Settings::default(), &psd, &[1; 64], 20_480);
            assert_eq!((answer.refusal, answer.ended), (0, placed));
            let after = Writer {
                sequence: 1,
                number: placed as u8,
                ..fresh()
            };
            assert_eq!(answer.writer, after);
            let reading = reading::read(&mut pdu.clone()).unwrap();
            assert_eq!(usize::from(reading.control.nop), placed);
            assert!(!reading.control.pfirst && !reading.control.plast);
            assert_eq!(usize::from(pdu[13]), la);
            assert!(pdu[la + 1 + 2 * placed..].iter().all(|&byte| byte == 0));
        }
    }

    #[test]
    fn only_type_5() {
        let settings = Settings {
            program_type: Some(ProgramType { access: 0, code: 5 }),
            ..Settings::default()
        };
        let (answer, pdu) = written(fresh(), settings, &[], &[], 96);
        assert_eq!((answer.refusal, answer.ended), (0, 0));
        // The expansion flag, NOP 0, La 16.
        assert_eq!(pdu[8..17], [0, 0, 0, 0, 0x80, 16, 0x90, 0xA0, 0x05]);
        assert!(pdu[17..].iter().all(|&byte| byte == 0));
    }

    #[test]
    fn numbers_come_back_to_0() {
        let writer = Writer {
            sequence: 7,
            number: 63,
            sent: 3,
            ..open(1, 0).unwrap()
        };
        let (answer, pdu) = written(writer, Settings::default(), &[], &[4, 5], 96);
        // Start 0, although the first piece belongs to packet 63.
        let control = reading::read(&mut pdu.clone()).unwrap().control;
        assert_eq!((control.sequence, control.start), (7, 0));
        assert!(control.pfirst && !control.plast);
        let after = Writer {
            sequence: 0,
            number: 1,
            sent: 0,
            ..writer
        };
        assert_eq!((answer.writer, answer.ended), (after, 2));
    }

    #[test]
    fn a_packet_cut_again() {
        let mut writer = fresh();
        let mut cut = Vec::new();
        while writer.number == 0 {
            writer = written(writer, Settings::default(), &[], &[200], 96)
                .0
                .writer;
            cut.push(writer.sent);
        }
        assert_eq!(cut, [79, 158, 0]);
    }

    #[test]
    fn refusals_of_the_state() {
        use WriterCause::{ModeAndStream, Number, Sent, Sequence};
        let settings = Settings::default();
        for (writer, cause) in [
            (Writer { mode: 4, ..fresh() }, ModeAndStream),
            (
                Writer {
                    stream: 2,
                    ..fresh()
                },
                ModeAndStream,
            ),
            (
                Writer {
                    sequence: 2,
                    ..fresh()
                },
                Sequence,
            ),
            (
                Writer {
                    number: 64,
                    ..fresh()
                },
                Number,
            ),
        ] {
            assert_eq!(refused(writer, settings, &[100]), [cause]);
        }
        let writer = Writer {
            sent: 4_096,
            ..fresh()
        };
        assert!(refused(writer, settings, &[4_096]).contains(&Sent));
        let writer = Writer {
            number: 63,
            sent: 4_095,
            sequence: 1,
            ..fresh()
        };
        assert_eq!(refused(writer, settings, &[4_096]), []);
    }

    #[test]
    fn refusals_of_the_length() {
        let refused = |writer, length| {
            let answer = written(writer, Settings::default(), &[], &[1], length).0;
            answer.refusal
        };
        for (length, wide, narrow) in [
            (0, 3, 3),
            (95, 3, 3),
            (96, 0, 0),
            (4_096, 0, 0),
            (4_097, 0, 3),
            (20_480, 0, 3),
            (20_481, 3, 3),
        ] {
            assert_eq!(refused(fresh(), length), wide, "{length}");
            assert_eq!(refused(open(10, 0).unwrap(), length), narrow, "{length}");
        }
    }

    #[test]
    fn refusals_of_the_packets() {
        use WriterCause::{
            LengthsDontSum, PacketLength0, PacketLengthOver4096, UnfinishedAbsent,
            UnfinishedNotLonger,
        };
        let settings = Settings::default();
        assert_eq!(refused(fresh(), settings, &[4_000, 0]), [PacketLength0]);
        assert_eq!(refused(fresh(), settings, &[4_096]), []);
        assert_eq!(
            refused(fresh(), settings, &[1, 4_097]),
            [PacketLengthOver4096]
        );
        let writer = Writer { sent: 5, ..fresh() };
        assert_eq!(refused(writer, settings, &[]), [UnfinishedAbsent]);
        assert_eq!(refused(writer, settings, &[5, 9]), [UnfinishedNotLonger]);
        assert_eq!(refused(writer, settings, &[6, 9]), []);
        // Lengths that would sum to the bytes if sums had 16 bits.
        let lengths = [4_096; 16];
        let offer = Offer {
            settings,
            psd: &[],
            lengths: &lengths,
            bytes: &[],
        };
        let answer = write(fresh(), &offer, &mut [0; 96]);
        assert_eq!(answer.causes, [LengthsDontSum]);
    }

    #[test]
    fn refusals_of_the_psd() {
        for line in TABLE {
            let writer = open(line.mode, line.stream).unwrap();
            let settings = Settings {
                displaced: true,
                ..Settings::default()
            };
            let refusal = |psd: usize| {
                let psd = vec![1; psd];
                written(writer, settings, &psd, &[1], 200).0.refusal
            };
            assert_eq!(refusal(0), 0);
            if line.psd {
                assert_eq!(refusal(line.psd_and_expansion - 3), 0);
                assert_eq!(refusal(line.psd_and_expansion - 2), 16);
            } else {
                assert_eq!(refusal(1), 16);
            }
        }
    }

    /// The lowest of several is answered.
    #[test]
    fn several_refusals() {
        let settings = Settings {
            blend: 4,
            displaced: true,
            applied: Some(Applied {
                services: 2,
                marker: 1 << 21,
            }),
            ..Settings::default()
        };
        let writer = Writer {
            number: 64,
            sent: 2,
            ..fresh()
        };
        let (answer, _) = written(writer, settings, &[0; 200], &[], 20_481);
        assert_eq!(
            answer.causes,
            [
                WriterCause::Number,
                WriterCause::Length,
                WriterCause::ServicesOver1,
                WriterCause::DisplacementTooFar,
                WriterCause::PastWidth(Value::Blend),
                WriterCause::PastWidth(Value::Marker),
                WriterCause::UnfinishedAbsent,
                WriterCause::PsdPlusExpansionPastColumn,
            ]
        );
        assert_eq!(answer.refusal, 1);
    }
}
