//! Reading a PDU without a receiver, and the list of its pieces (document 01,
//! "Receiver", and for the panel; document 02, Asks 2 and 9).

use crate::{ffi, Mode, Refusal, Stream};
use std::ops::Range;

/// The control word, bytes 8 to 13 of a PDU.
#[derive(Clone, Copy, Debug, PartialEq, Eq)]
pub struct ControlWord {
    /// The mode.
    pub mode: Mode,
    /// The stream.
    pub stream: Stream,
    /// The PDU sequence.
    pub sequence: u8,
    /// Blend, 0 to 3.
    pub blend: u8,
    /// Gain (core) or stream delay (enhanced), 0 to 31.
    pub gain: u8,
    /// Common delay, 0 to 63.
    pub common_delay: u8,
    /// Latency, 0 to 7.
    pub latency: u8,
    /// Pfirst: the first piece continues a packet.
    pub pfirst: bool,
    /// Plast: the last piece is not its packet's end.
    pub plast: bool,
    /// The starting number: that of the first packet not continued, 0 to 63.
    pub start: u8,
    /// NOP, the count of pieces, 0 to [`PIECES_MAX`](crate::PIECES_MAX).
    pub nop: u8,
    /// Whether expansion bytes follow the locators.
    pub expansion: bool,
    /// La, the place of the last byte before the first piece.
    pub la: u8,
}

/// The expansion fields of a PDU; 0 where not sent or not interpreted.
#[derive(Clone, Copy, Debug, Default, PartialEq, Eq)]
pub struct Expansion {
    /// Class, 1 to 15 if sent.
    pub class: u8,
    /// Program number, 0 to 7.
    pub program: u8,
    /// Displacement, the place of the PDU's last byte.
    pub displacement: u16,
    /// Access, 0 or 1.
    pub access: u8,
    /// Type.
    pub type_code: u8,
    /// Applied services, 0 to 7.
    pub services: u8,
    /// Marker, of 21 bits.
    pub marker: u32,
}

/// What a PDU holds.
#[derive(Clone, Debug, PartialEq, Eq)]
pub struct Reading {
    /// The control word.
    pub control: ControlWord,
    /// The expansion fields.
    pub expansion: Expansion,
    /// Where the PSD stands in the PDU; an empty range, after La, if it has none.
    pub psd: Range<usize>,
    /// Where each piece stands in the PDU, without its CRC byte, which follows
    /// it.
    pub pieces: Vec<Range<usize>>,
}

impl Reading {
    /// The library's answer, if it is accepted.
    fn accepted(answer: ffi::Reading) -> Result<Reading, Refusal> {
        Refusal::check(answer.refusal, answer.wrong_locator)?;
        let nop = usize::from(answer.control.nop);
        let places = answer.starts.iter().zip(&answer.lengths).take(nop);
        Ok(Reading {
            control: control_word(&answer.control)?,
            expansion: expansion(&answer.expansion),
            psd: range(answer.psd_start as usize, answer.psd_length as usize),
            pieces: places
                .map(|(&start, &length)| range(start.into(), length.into()))
                .collect(),
        })
    }
}

/// The range with this start and length.
fn range(start: usize, length: usize) -> Range<usize> {
    start..start + length
}

/// The control word of an accepted PDU.
fn control_word(word: &ffi::ControlWord) -> Result<ControlWord, Refusal> {
    Ok(ControlWord {
        mode: word.mode.try_into()?,
        stream: word.stream.try_into()?,
        sequence: word.sequence,
        blend: word.blend,
        gain: word.gain,
        common_delay: word.common_delay,
        latency: word.latency,
        pfirst: word.pfirst == 1,
        plast: word.plast == 1,
        start: word.start,
        nop: word.nop,
        expansion: word.expansion == 1,
        la: word.la,
    })
}

/// The expansion fields of an accepted PDU.
fn expansion(fields: &ffi::Expansion) -> Expansion {
    Expansion {
        class: fields.class_code,
        program: fields.program,
        displacement: fields.displacement,
        access: fields.access,
        type_code: fields.type_code,
        services: fields.services,
        marker: fields.marker,
    }
}

/// Reads a PDU without a receiver: corrects its header in place and says what
/// it holds.
///
/// Locators past byte 95, those of a PDU with more than 41 pieces (locators of
/// 16 bits) or 54 (12 bits), are outside the header code: they are taken as
/// they came.
///
/// # Errors
///
/// The first of these that applies, and then the PDU is as it was:
/// [`Refusal::PduLength`], [`Refusal::Uncorrectable`], [`Refusal::Mode`],
/// [`Refusal::Sequence`], [`Refusal::Pieces`], [`Refusal::La`],
/// [`Refusal::Expansion`], [`Refusal::Locator`], [`Refusal::Displacement`].
///
/// # Example
///
/// ```
/// use barzhilup::{read, Mode, Settings, Stream, Writer};
///
/// let mut pdu = [0; 96];
/// let mut writer = Writer::open(Mode::M1, Stream::Core)?;
/// writer.write(&Settings::default(), b"title", &[b"audio"], &mut pdu)?;
/// let reading = read(&mut pdu)?;
/// assert_eq!(&pdu[reading.psd.clone()], b"title");
/// assert_eq!(&pdu[reading.pieces[0].clone()], b"audio");
/// # Ok::<(), barzhilup::Refusal>(())
/// ```
pub fn read(pdu: &mut [u8]) -> Result<Reading, Refusal> {
    Reading::accepted(ffi::read(pdu))
}

/// A piece of a PDU, as [`list_pieces`] lists it.
#[repr(C)]
#[derive(Clone, Copy, Debug, Default, PartialEq, Eq)]
pub struct Piece {
    /// Its place in the PDU.
    pub start: u16,
    /// Its length without its CRC byte.
    pub length: u16,
    /// Whether its CRC is right, by the value that [`list_pieces`] was given.
    pub right: bool,
}

impl Piece {
    /// Where the piece stands in the PDU, without its CRC byte.
    #[must_use]
    pub fn range(&self) -> Range<usize> {
        range(self.start.into(), self.length.into())
    }
}

/// Reads a PDU without a receiver, as [`read`] does, and fills a list with its
/// pieces: entry k is piece k, for k below NOP. Entries from NOP on keep what
/// they held. A wrong CRC is a verdict, and no refusal.
///
/// `crc_start` is the value that the register of the CRCs starts with, any
/// byte: the one that the PDU was written with. It decides verdicts and nothing
/// else. Where nothing else was said it is [`CRC_START`](crate::CRC_START);
/// recordings off the air check with
/// [`CRC_START_OFF_AIR`](crate::CRC_START_OFF_AIR).
///
/// # Errors
///
/// Refused as [`read`] is, and with [`Refusal::LogLength`] for a list of fewer
/// than NOP entries; then the PDU and the list are as they were. A list of
/// [`PIECES_MAX`](crate::PIECES_MAX) entries is always long enough.
///
/// # Example
///
/// ```
/// use barzhilup::{list_pieces, Mode, Piece, Settings, Stream, Writer, CRC_START, PIECES_MAX};
///
/// let mut pdu = [0; 300];
/// let mut writer = Writer::open(Mode::M1, Stream::Core)?;
/// writer.write(&Settings::default(), b"", &[[1; 100], [2; 100]], &mut pdu)?;
/// pdu[200] ^= 0x10; // noise in the second packet
///
/// let mut list = [Piece::default(); PIECES_MAX];
/// let reading = list_pieces(&mut pdu, CRC_START, &mut list)?;
/// let pieces = &list[..reading.control.nop.into()];
/// assert_eq!(pieces.iter().map(|piece| piece.right).collect::<Vec<_>>(), [true, false]);
/// assert_eq!(&pdu[pieces[0].range()], [1; 100]);
/// # Ok::<(), barzhilup::Refusal>(())
/// ```
pub fn list_pieces(pdu: &mut [u8], crc_start: u8, list: &mut [Piece]) -> Result<Reading, Refusal> {
    Reading::accepted(ffi::list_pieces(pdu, crc_start, list))
}
