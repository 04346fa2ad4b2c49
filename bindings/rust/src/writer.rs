//! The PDU writer (document 01, "Writer"; document 02, Asks 2 and 9).

use crate::{ffi, Mode, Refusal, Stream, CRC_START};

/// A PDU's settings: what its control word and its expansion say beside the
/// packets. [`Settings::default`] is 0 everywhere and no expansion.
///
/// An expansion field that is `None` is not asked for. The program field is sent
/// whenever any is, with program 0 if it is not asked for. Class is 1 only, and
/// goes with a nonzero program and access 1; access 1 and applied services 1 go
/// with class 1. Anything else in these three is refused with
/// [`Refusal::Expansion`], and another value outside its range with
/// [`Refusal::Value`].
#[derive(Clone, Copy, Debug, Default, PartialEq, Eq)]
pub struct Settings {
    /// Blend, 0 to 2; 0 with a nonzero program.
    pub blend: u8,
    /// Gain (core: 0 to 6, 24 to 31) or stream delay (enhanced: 0 to 31).
    pub gain: u8,
    /// Common delay, 0 to 63.
    pub common_delay: u8,
    /// Latency, 0 to 7.
    pub latency: u8,
    /// Class: only 1, with a nonzero program and access 1.
    pub class: Option<u8>,
    /// Program number, 0 to 7.
    pub program: Option<u8>,
    /// Whether the displacement, which is the PDU's length minus 1, is sent; for
    /// lengths to 16,384.
    pub displacement: bool,
    /// Access and type.
    pub program_type: Option<ProgramType>,
    /// Applied services and marker.
    pub services: Option<Services>,
}

/// Access and type of a program, an expansion field.
#[derive(Clone, Copy, Debug, Default, PartialEq, Eq)]
pub struct ProgramType {
    /// Access, 0 or (with class 1) 1.
    pub access: u8,
    /// Type.
    pub type_code: u8,
}

/// Applied services and marker, an expansion field.
#[derive(Clone, Copy, Debug, Default, PartialEq, Eq)]
pub struct Services {
    /// Applied services, 0 or (with class 1) 1.
    pub applied: u8,
    /// Marker, 0 to 2,097,151.
    pub marker: u32,
}

impl Settings {
    /// The settings as C has them: each field behind a flag.
    fn to_c(self) -> ffi::Settings {
        let typed = self.program_type.unwrap_or_default();
        let services = self.services.unwrap_or_default();
        ffi::Settings {
            blend: self.blend,
            gain: self.gain,
            common_delay: self.common_delay,
            latency: self.latency,
            classed: self.class.is_some(),
            class_code: self.class.unwrap_or(0),
            programmed: self.program.is_some(),
            program: self.program.unwrap_or(0),
            displaced: self.displacement,
            typed: self.program_type.is_some(),
            access: typed.access,
            type_code: typed.type_code,
            serviced: self.services.is_some(),
            services: services.applied,
            marker: services.marker,
        }
    }
}

/// What a writer was opened with and what it remembers between calls: to be
/// kept and to go on from with [`Writer::resume`].
#[derive(Clone, Copy, Debug, PartialEq, Eq)]
pub struct WriterState {
    /// The mode.
    pub mode: Mode,
    /// The stream.
    pub stream: Stream,
    /// The value that the CRC's register starts with, any byte.
    pub crc_start: u8,
    /// The next PDU's sequence.
    pub sequence: u8,
    /// The number of the first unfinished packet, 0 to 63.
    pub number: u8,
    /// How many bytes of it are sent, 0 to 4,095.
    pub sent: u16,
}

impl WriterState {
    /// The state as C has it.
    fn to_c(self) -> ffi::Writer {
        ffi::Writer {
            mode: self.mode.number(),
            stream: self.stream.number(),
            crc_start: self.crc_start,
            sequence: self.sequence,
            number: self.number,
            sent: self.sent,
        }
    }
}

/// Packs packets and PSD into PDUs.
///
/// A refused call leaves the writer as it was.
#[derive(Clone, Debug, PartialEq, Eq)]
pub struct Writer {
    state: WriterState,
}

impl Writer {
    /// Opens a writer for a mode and stream: its first PDU has sequence 0, its
    /// first packet number 0. The register of its CRCs starts at [`CRC_START`], 0.
    ///
    /// # Errors
    ///
    /// [`Refusal::Mode`]: the mode has no such stream.
    ///
    /// # Example
    ///
    /// ```
    /// use barzhilup::{Mode, Refusal, Stream, Writer};
    ///
    /// assert!(Writer::open(Mode::M1, Stream::Enhanced).is_ok());
    /// assert_eq!(Writer::open(Mode::M0, Stream::Enhanced), Err(Refusal::Mode));
    /// ```
    pub fn open(mode: Mode, stream: Stream) -> Result<Writer, Refusal> {
        Writer::open_with(mode, stream, CRC_START)
    }

    /// Opens a writer for a mode and stream, and with the value that the
    /// register of its CRCs starts with, any byte. Recordings off the air check
    /// with [`CRC_START_OFF_AIR`](crate::CRC_START_OFF_AIR).
    ///
    /// Open the receiver of its PDUs with the same value. Nothing is promised for
    /// unequal ones; what a user sees then is [`Cause::Crc`](crate::Cause::Crc) for
    /// every piece that came as it was sent.
    ///
    /// # Errors
    ///
    /// [`Refusal::Mode`]: the mode has no such stream.
    ///
    /// # Example
    ///
    /// ```
    /// use barzhilup::{Cause, Entry, Mode, Receiver, Settings, Stream, Writer, CRC_START_OFF_AIR};
    ///
    /// # fn main() -> Result<(), barzhilup::Refusal> {
    /// let mut writer = Writer::open_with(Mode::M1, Stream::Core, CRC_START_OFF_AIR)?;
    /// let mut pdu = [0; 96];
    /// writer.write(&Settings::default(), b"", &[b"audio"], &mut pdu)?;
    ///
    /// let mut receiver = Receiver::open_with(Mode::M1, Stream::Core, CRC_START_OFF_AIR)?;
    /// let log = receiver.receive(&mut pdu)?;
    /// assert!(matches!(log.entries().next(), Some(Entry::Packet { number: 0, .. })));
    ///
    /// let mut other = Receiver::open(Mode::M1, Stream::Core)?; // with 0
    /// let log = other.receive(&mut pdu)?;
    /// let note = Entry::Note { cause: Cause::Crc, piece: Some(0) };
    /// assert_eq!(log.entries().collect::<Vec<_>>(), [note]);
    /// # Ok(())
    /// # }
    /// ```
    pub fn open_with(mode: Mode, stream: Stream, crc_start: u8) -> Result<Writer, Refusal> {
        let answer = ffi::open_writer(mode.number(), stream.number(), crc_start);
        Refusal::check(answer.refusal, 0)?;
        Ok(Writer::after(mode, stream, answer.writer))
    }

    /// A writer that goes on from a state that was kept.
    ///
    /// # Errors
    ///
    /// [`Refusal::State`]: a field is outside its range, or the mode has no such
    /// stream.
    ///
    /// # Example
    ///
    /// ```
    /// use barzhilup::{Mode, Settings, Stream, Writer};
    ///
    /// let (mut first, mut second) = ([0; 96], [0; 96]);
    /// let mut writer = Writer::open(Mode::M0, Stream::Core)?;
    /// writer.write(&Settings::default(), b"", &[[7; 100]], &mut first)?;
    /// let kept = writer.state();
    /// assert_eq!((kept.sequence, kept.number, kept.sent), (1, 0, 79));
    ///
    /// let mut writer = Writer::resume(kept)?;
    /// let ended = writer.write(&Settings::default(), b"", &[[7; 100]], &mut second)?;
    /// assert_eq!(ended, 1);
    /// # Ok::<(), barzhilup::Refusal>(())
    /// ```
    pub fn resume(state: WriterState) -> Result<Writer, Refusal> {
        // A PDU of no bytes is refused with 3 for every state in range.
        let answer = ffi::write(
            state.to_c(),
            ffi::Settings::default(),
            &[],
            &[],
            &[],
            &mut [],
        );
        match Refusal::check(answer.refusal, 0) {
            Err(Refusal::State) => Err(Refusal::State),
            _ => Ok(Writer { state }),
        }
    }

    /// What the writer remembers.
    #[must_use]
    pub fn state(&self) -> WriterState {
        self.state
    }

    /// Writes one PDU: all bytes of `pdu`, whatever they held. Answers how many
    /// of the packets offered ended in it.
    ///
    /// The packets, of 1 to 4,096 bytes each, begin with the unfinished one,
    /// whole, if there is one. As many are placed as fit, and then a part of the
    /// next: offer again from the first that did not end. The bytes of all that
    /// are offered are copied once, so offer no more than a PDU may take, if time
    /// counts.
    ///
    /// A PDU gets no more pieces than the largest count up to 63 for which La
    /// is at most 255. That is 63 with locators of 12 bits, and with 16 bits
    /// where PSD and expansion together have up to 116 bytes; from there on it
    /// is one fewer for every two bytes more: 62 with 117 and 118, 57 with 127
    /// and 128.
    ///
    /// # Errors
    ///
    /// The first of these that applies, and then the writer and the PDU are as they
    /// were:
    ///
    /// - [`Refusal::PduLength`]: the PDU has not 96 to 20,480 bytes; with locators of
    ///   12 bits not 96 to 4,096.
    /// - [`Refusal::Expansion`]: expansion fields that do not go together, or the
    ///   displacement is asked for in a PDU of over 16,384 bytes.
    /// - [`Refusal::Value`]: a setting that is not sent.
    /// - [`Refusal::Packets`]: a packet is empty or over 4,096 bytes, or the unfinished
    ///   one is not offered first and whole.
    /// - [`Refusal::Psd`]: too much PSD and expansion for the mode and stream.
    /// - [`Refusal::Room`]: the PDU has no room for a byte of a packet, or for what
    ///   stands before the pieces.
    ///
    /// # Example
    ///
    /// ```
    /// use barzhilup::{Mode, Settings, Stream, Writer};
    ///
    /// let packets = [vec![1; 100], vec![2; 50]];
    /// let mut writer = Writer::open(Mode::M0, Stream::Core)?;
    /// let mut pdus = Vec::new();
    /// let mut ended = 0;
    /// while ended < packets.len() {
    ///     let mut pdu = [0; 96];
    ///     ended += writer.write(&Settings::default(), b"", &packets[ended..], &mut pdu)?;
    ///     pdus.push(pdu);
    /// }
    /// assert_eq!(pdus.len(), 2);
    /// # Ok::<(), barzhilup::Refusal>(())
    /// ```
    pub fn write<P: AsRef<[u8]>>(
        &mut self,
        settings: &Settings,
        psd: &[u8],
        packets: &[P],
        pdu: &mut [u8],
    ) -> Result<usize, Refusal> {
        let (lengths, bytes) = join(packets);
        let state = self.state.to_c();
        let answer = ffi::write(state, settings.to_c(), psd, &lengths, &bytes, pdu);
        Refusal::check(answer.refusal, 0)?;
        *self = Writer::after(self.state.mode, self.state.stream, answer.writer);
        Ok(answer.ended as usize)
    }

    /// The writer that an accepted call for this mode and stream hands back.
    fn after(mode: Mode, stream: Stream, writer: ffi::Writer) -> Writer {
        let state = WriterState {
            mode,
            stream,
            crc_start: writer.crc_start,
            sequence: writer.sequence,
            number: writer.number,
            sent: writer.sent,
        };
        Writer { state }
    }
}

/// The packets' lengths, and their bytes joined. A length that 16 bits can't say
/// is said as the greatest that they can: it is over 4,096 too.
fn join<P: AsRef<[u8]>>(packets: &[P]) -> (Vec<u16>, Vec<u8>) {
    let lengths = packets
        .iter()
        .map(|packet| u16::try_from(packet.as_ref().len()).unwrap_or(u16::MAX))
        .collect();
    let mut bytes = Vec::new();
    for packet in packets {
        bytes.extend_from_slice(packet.as_ref());
    }
    (lengths, bytes)
}
