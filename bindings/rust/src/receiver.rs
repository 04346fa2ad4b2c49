//! The PDU receiver (document 01, "Receiver"; document 02, Asks 1 to 3, 5, 10, 13
//! and 14).

use crate::{ffi, Log, Mode, Refusal, Stream, CARRY_BYTES, CRC_START, LOG_WORDS};
use std::fmt;

mod batch;
mod pair;
mod snapshot;

pub use batch::Batch;

/// What a receiver was opened with and what it remembers between calls, beside
/// its carry buffer: to be kept and to go on from with [`Receiver::resume`].
#[derive(Clone, Copy, Debug, PartialEq, Eq)]
pub struct ReceiverState {
    /// The mode.
    pub mode: Mode,
    /// The stream.
    pub stream: Stream,
    /// The value that the CRC's register starts with, any byte.
    pub crc_start: u8,
    /// The programs that it is entitled to: bit p for program p.
    pub entitled: u8,
    /// The last PDU's sequence, if it is known.
    pub sequence: Option<u8>,
    /// How many bytes of an unfinished packet are held, 0 to 4,096. 0: nothing is
    /// held.
    pub held: u16,
    /// That packet's number, 0 to 63; 0 if nothing is held.
    pub number: u8,
    /// The applied services in force, 0 to 7, if they are known: only for the
    /// core streams of modes 1, 2, 3 and 13, which keep them from one PDU to
    /// the next.
    pub services: Option<u8>,
    /// How many packets were delivered since the opening.
    pub delivered: u32,
    /// How many packets are missing between those delivered, by their numbers
    /// ([`Receiver::missing`]); 0 where none is delivered.
    pub missing: u32,
    /// The number, 0 to 63, of the last packet delivered; 0 where none is.
    pub last: u8,
}

impl ReceiverState {
    /// The state as C has it.
    fn to_c(self) -> ffi::Receiver {
        ffi::Receiver {
            mode: self.mode.number(),
            stream: self.stream.number(),
            crc_start: self.crc_start,
            entitled: self.entitled,
            known: self.sequence.is_some(),
            sequence: self.sequence.unwrap_or(0),
            held: self.held,
            number: self.number,
            serviced: self.services.is_some(),
            services: self.services.unwrap_or(0),
            delivered: self.delivered,
            missing: self.missing,
            last: self.last,
        }
    }

    /// The state that a call for this mode and stream hands back.
    fn after(mode: Mode, stream: Stream, receiver: ffi::Receiver) -> ReceiverState {
        ReceiverState {
            mode,
            stream,
            crc_start: receiver.crc_start,
            entitled: receiver.entitled,
            sequence: receiver.known.then_some(receiver.sequence),
            held: receiver.held,
            number: receiver.number,
            services: receiver.serviced.then_some(receiver.services),
            delivered: receiver.delivered,
            missing: receiver.missing,
            last: receiver.last,
        }
    }
}

/// Joins the pieces of PDUs to packets and logs packets, PSD and notes.
///
/// It owns its carry buffer, of 4,096 bytes, and a log that is long enough for
/// every call; each accepted call hands out the log of that call. A refused call
/// leaves the receiver as it was.
///
/// Two receivers are equal if they remember the same and hold the same bytes.
#[derive(Clone)]
pub struct Receiver {
    state: ReceiverState,
    carry: Box<[u8]>,
    log: Vec<u32>,
}

impl Receiver {
    /// Opens a receiver for a mode and stream: no sequence is known, nothing is
    /// held or delivered. The register of its CRCs starts at [`CRC_START`], 0. It is
    /// entitled to programs 0 to 7: no PDU is withheld.
    ///
    /// # Errors
    ///
    /// [`Refusal::Mode`]: the mode has no such stream.
    pub fn open(mode: Mode, stream: Stream) -> Result<Receiver, Refusal> {
        Receiver::open_with(mode, stream, CRC_START)
    }

    /// Opens a receiver for a mode and stream, and with the value that the
    /// register of its CRCs starts with, any byte: the one that the PDUs were
    /// written with. Recordings off the air check with
    /// [`CRC_START_OFF_AIR`](crate::CRC_START_OFF_AIR).
    ///
    /// Nothing is promised for a writer and a receiver with unequal values; what a
    /// user sees then is [`Cause::Crc`](crate::Cause::Crc) for every piece that came
    /// as it was sent. It is entitled to programs 0 to 7: no PDU is withheld.
    ///
    /// # Errors
    ///
    /// [`Refusal::Mode`]: the mode has no such stream.
    pub fn open_with(mode: Mode, stream: Stream, crc_start: u8) -> Result<Receiver, Refusal> {
        let answer = ffi::open_receiver(mode.number(), stream.number(), crc_start);
        Refusal::check(answer.refusal, 0)?;
        let state = ReceiverState::after(mode, stream, answer.receiver);
        Ok(Receiver::new(state, vec![0; CARRY_BYTES]))
    }

    /// Opens a receiver that is entitled to some programs only: `programs` has
    /// their numbers, each 0 to 7 and none twice, in any order. With none it is
    /// entitled to none, with all eight this is [`Receiver::open_with`].
    ///
    /// A PDU is withheld if its applied services are 1 and its program is not listed.
    /// Other applied services withhold nothing; not sent, they count as 0, and so does
    /// the program. For the core streams of modes 1, 2, 3 and 13 the value that counts
    /// is the one sent with PDU sequence 0, until the next such PDU. Opening, marking
    /// lost and [`Cause::Sequence`](crate::Cause::Sequence) forget it; while it is
    /// unknown, every program that is not listed is withheld.
    ///
    /// A withheld PDU logs [`Cause::Withheld`](crate::Cause::Withheld) in place of its
    /// PSD, and of its pieces nothing but what comes of the first, if it continues a
    /// packet of which a beginning is held. So a packet follows the right of the PDU in
    /// which it began.
    ///
    /// # Errors
    ///
    /// The first of these that applies:
    ///
    /// - [`Refusal::Mode`]: the mode has no such stream.
    /// - [`Refusal::Programs`]: a program number is over 7, or repeated.
    ///
    /// # Example
    ///
    /// ```
    /// use barzhilup::{Cause, Entry, Mode, ProgramType, Receiver, Services, Settings, Stream, Writer};
    ///
    /// # fn main() -> Result<(), barzhilup::Refusal> {
    /// let mut writer = Writer::open(Mode::M0, Stream::Core)?;
    /// let paid = Settings {
    ///     class: Some(1),
    ///     program: Some(3),
    ///     program_type: Some(ProgramType { access: 1, type_code: 0 }),
    ///     services: Some(Services { applied: 1, marker: 0 }),
    ///     ..Settings::default()
    /// };
    /// let mut pdu = [0; 96];
    /// writer.write(&paid, b"", &[b"audio"], &mut pdu)?;
    /// let mut without = Receiver::open_entitled(Mode::M0, Stream::Core, 0, &[1, 2])?;
    /// let log = without.receive(&mut pdu.clone())?;
    /// let withheld = Entry::Note { cause: Cause::Withheld, piece: None };
    /// assert!(log.entries().eq([withheld]));
    /// let mut with = Receiver::open_entitled(Mode::M0, Stream::Core, 0, &[3])?;
    /// let log = with.receive(&mut pdu)?;
    /// assert!(matches!(log.entries().next(), Some(Entry::Packet { number: 0, .. })));
    /// # Ok(())
    /// # }
    /// ```
    pub fn open_entitled(
        mode: Mode,
        stream: Stream,
        crc_start: u8,
        programs: &[u8],
    ) -> Result<Receiver, Refusal> {
        let answer =
            ffi::open_receiver_entitled(mode.number(), stream.number(), crc_start, programs);
        Refusal::check(answer.refusal, 0)?;
        let state = ReceiverState::after(mode, stream, answer.receiver);
        Ok(Receiver::new(state, vec![0; CARRY_BYTES]))
    }

    /// A receiver that goes on from a state and a carry buffer that were kept.
    /// The first bytes of `carry`, as many as are held, are the beginning of the
    /// unfinished packet. [`Receiver::save`] and [`Receiver::load`] keep both as words.
    ///
    /// # Errors
    ///
    /// The first of these that applies:
    ///
    /// - [`Refusal::State`]: a field is outside its range, or the mode has no such
    ///   stream.
    /// - [`Refusal::CarryLength`]: the carry buffer has under 4,096 bytes.
    ///
    /// # Example
    ///
    /// ```
    /// use barzhilup::{Mode, Receiver, Settings, Stream, Writer};
    ///
    /// # fn main() -> Result<(), barzhilup::Refusal> {
    /// let mut writer = Writer::open(Mode::M0, Stream::Core)?;
    /// let mut receiver = Receiver::open(Mode::M0, Stream::Core)?;
    /// let mut pdu = [0; 96];
    /// writer.write(&Settings::default(), b"", &[[7; 100]], &mut pdu)?;
    /// receiver.receive(&mut pdu)?; // packet 0 begins
    /// let (state, carry) = (receiver.state(), receiver.carry().to_vec());
    ///
    /// let mut receiver = Receiver::resume(state, &carry)?;
    /// assert_eq!(receiver.held(), [7; 79]);
    /// writer.write(&Settings::default(), b"", &[[7; 100]], &mut pdu)?;
    /// receiver.receive(&mut pdu)?; // and ends
    /// assert_eq!(receiver.delivered(), 1);
    /// # Ok(())
    /// # }
    /// ```
    pub fn resume(state: ReceiverState, carry: &[u8]) -> Result<Receiver, Refusal> {
        let mut carry = carry.to_vec();
        // A PDU of no bytes is refused with 3 where state and carry are right.
        let answer = ffi::receive(state.to_c(), &mut carry, &mut [], &mut []);
        match Refusal::check(answer.refusal, 0) {
            Err(refusal @ (Refusal::State | Refusal::CarryLength)) => Err(refusal),
            _ => Ok(Receiver::new(state, carry)),
        }
    }

    /// A receiver with this state and carry buffer.
    fn new(state: ReceiverState, carry: Vec<u8>) -> Receiver {
        Receiver {
            state,
            carry: carry.into(),
            log: vec![0; LOG_WORDS],
        }
    }

    /// What the receiver remembers.
    #[must_use]
    pub fn state(&self) -> ReceiverState {
        self.state
    }

    /// The carry buffer, of at least 4,096 bytes.
    #[must_use]
    pub fn carry(&self) -> &[u8] {
        &self.carry
    }

    /// The bytes that are held: the beginning of an unfinished packet. They are
    /// the first ones of the carry buffer.
    #[must_use]
    pub fn held(&self) -> &[u8] {
        &self.carry[..usize::from(self.state.held)]
    }

    /// How many packets were delivered since the opening: those that the logs
    /// of all calls had together. Marking lost keeps it, and so do
    /// [`Receiver::save`] and [`Receiver::load`].
    #[must_use]
    pub fn delivered(&self) -> u32 {
        self.state.delivered
    }

    /// How many packets are missing between those delivered. It is told from
    /// their numbers, which run from 0 to 63 and from 0 again: from the second
    /// packet delivered on, each adds its number minus the last one's minus 1,
    /// modulo 64. Lost, damaged and withheld packets are missing alike; none is
    /// counted before the first packet delivered, nor after the last.
    ///
    /// Where each PDU of a writer is received or marked lost, once and in their order,
    /// and fewer than 64 packets are missing between each one delivered and the next,
    /// [`Receiver::delivered`] plus this is just how many packets the writer sent from
    /// the first delivered to the last. Where 64 or more are missing in one gap, their
    /// count is short by 64, or by a multiple of it. A packet whose number is that of the
    /// one delivered before it adds 63.
    ///
    /// # Example
    ///
    /// ```
    /// use barzhilup::{Mode, Receiver, Settings, Stream, Writer};
    ///
    /// # fn main() -> Result<(), barzhilup::Refusal> {
    /// let mut writer = Writer::open(Mode::M0, Stream::Core)?;
    /// let mut receiver = Receiver::open(Mode::M0, Stream::Core)?;
    /// let mut pdu = [0; 96];
    /// for turn in 0..3 {
    ///     writer.write(&Settings::default(), b"", &[b"one", b"two"], &mut pdu)?;
    ///     match turn {
    ///         1 => receiver.mark_lost(), // packets 2 and 3 are lost
    ///         _ => receiver.receive(&mut pdu)?,
    ///     };
    /// }
    /// assert_eq!((receiver.delivered(), receiver.missing()), (4, 2));
    /// assert_eq!(receiver.last_number(), Some(5));
    /// # Ok(())
    /// # }
    /// ```
    #[must_use]
    pub fn missing(&self) -> u32 {
        self.state.missing
    }

    /// The number, 0 to 63, of the last packet delivered, if one was.
    #[must_use]
    pub fn last_number(&self) -> Option<u8> {
        (self.state.delivered > 0).then_some(self.state.last)
    }

    /// Receives one PDU: corrects its header in place, joins its pieces to
    /// packets, and hands out the log of this call. In log order: a note on the
    /// sequence or on a beginning that is not continued, if due; the PSD, if any;
    /// and for each piece a packet if one ends with it, a note if it is dropped,
    /// or nothing if it is held. Of a PDU that is withheld,
    /// [`Receiver::open_entitled`] says what there is.
    ///
    /// # Errors
    ///
    /// The first of these that applies, and then the receiver and the PDU are as they
    /// were: [`Refusal::PduLength`], [`Refusal::Uncorrectable`], [`Refusal::Mode`],
    /// [`Refusal::OtherMode`], [`Refusal::Sequence`], [`Refusal::Pieces`],
    /// [`Refusal::La`], [`Refusal::Expansion`], [`Refusal::Locator`],
    /// [`Refusal::Displacement`], and [`Refusal::CountLimit`] where a count of packets
    /// would pass 4,294,967,295.
    ///
    /// A PDU that is refused still had its place in the row: mark it lost, so that
    /// nothing is joined across it.
    ///
    /// # Example
    ///
    /// ```
    /// use barzhilup::{Entry, Mode, Receiver, Settings, Stream, Writer};
    ///
    /// # fn main() -> Result<(), barzhilup::Refusal> {
    /// let mut writer = Writer::open(Mode::M1, Stream::Core)?;
    /// let mut receiver = Receiver::open(Mode::M1, Stream::Core)?;
    /// let mut pdu = [0; 96];
    /// writer.write(&Settings::default(), b"title", &[b"audio"], &mut pdu)?;
    /// let log = match receiver.receive(&mut pdu) {
    ///     Ok(log) => log,
    ///     Err(refusal) => {
    ///         eprintln!("{refusal}");
    ///         receiver.mark_lost()
    ///     }
    /// };
    /// let mut kinds = Vec::new();
    /// for entry in &log {
    ///     kinds.push(match entry {
    ///         Entry::Packet { .. } => "packet",
    ///         Entry::Psd(_) => "PSD",
    ///         Entry::Note { .. } => "note",
    ///     });
    /// }
    /// assert_eq!(kinds, ["PSD", "packet"]);
    /// # Ok(())
    /// # }
    /// ```
    pub fn receive(&mut self, pdu: &mut [u8]) -> Result<Log<'_>, Refusal> {
        let answer = ffi::receive(self.state.to_c(), &mut self.carry, pdu, &mut self.log);
        self.step(answer)
    }

    /// Receives one PDU of whose header some places are marked, as
    /// [`Receiver::receive`] does; the header is corrected as
    /// [`correct_header_marked`](crate::correct_header_marked) corrects it.
    ///
    /// `marks` has the marked places of this PDU, each 0 to 95, at most eight and
    /// none twice; those of other PDUs make no difference. With none this is
    /// [`Receiver::receive`].
    ///
    /// # Errors
    ///
    /// As for [`Receiver::receive`], and after [`Refusal::PduLength`] with
    /// [`Refusal::Marks`]: more than eight marks, one over 95, or one repeated.
    ///
    /// # Example
    ///
    /// ```
    /// use barzhilup::{Mode, Receiver, Settings, Stream, Writer};
    ///
    /// # fn main() -> Result<(), barzhilup::Refusal> {
    /// let mut writer = Writer::open(Mode::M0, Stream::Core)?;
    /// let mut receiver = Receiver::open(Mode::M0, Stream::Core)?;
    /// let mut pdu = [0; 96];
    /// writer.write(&Settings::default(), b"", &[b"audio"], &mut pdu)?;
    /// let guessed = [1, 8, 12, 13, 14, 16, 20, 95];
    /// for place in guessed {
    ///     pdu[usize::from(place)] = 0xEE; // whatever the demodulator guessed
    /// }
    /// let log = receiver.receive_marked(&mut pdu, &guessed)?;
    /// assert_eq!(log.entries().count(), 1);
    /// # Ok(())
    /// # }
    /// ```
    pub fn receive_marked(&mut self, pdu: &mut [u8], marks: &[u8]) -> Result<Log<'_>, Refusal> {
        let state = self.state.to_c();
        let answer = ffi::receive_marked(state, &mut self.carry, pdu, marks, &mut self.log);
        self.step(answer)
    }

    /// Marks a PDU lost, in its place in the row of PDUs: logs
    /// [`Cause::Lost`](crate::Cause::Lost), drops what is held and forgets the
    /// sequence and the applied services. The counts and the last number stay.
    ///
    /// It is never refused, and its log is that one note.
    ///
    /// # Example
    ///
    /// ```
    /// use barzhilup::{Cause, Entry, Mode, Receiver, Stream};
    ///
    /// let mut receiver = Receiver::open(Mode::M0, Stream::Core)?;
    /// let log = receiver.mark_lost();
    /// let lost = Entry::Note { cause: Cause::Lost, piece: None };
    /// assert!(log.entries().eq([lost]));
    /// # Ok::<(), barzhilup::Refusal>(())
    /// ```
    pub fn mark_lost(&mut self) -> Log<'_> {
        let answer = ffi::mark_lost(self.state.to_c(), &mut self.log);
        assert_eq!(
            answer.refusal, 0,
            "the state is in range, and the log has room for a note"
        );
        self.accept(answer)
    }

    /// Hands out the log of an answer that is accepted.
    fn step(&mut self, answer: ffi::Received) -> Result<Log<'_>, Refusal> {
        Refusal::check(answer.refusal, answer.wrong_locator)?;
        Ok(self.accept(answer))
    }

    /// Takes over the state of an accepted answer, and hands out its log.
    fn accept(&mut self, answer: ffi::Received) -> Log<'_> {
        self.state = ReceiverState::after(self.state.mode, self.state.stream, answer.receiver);
        Log::written(&self.log[..answer.words as usize])
    }
}

impl PartialEq for Receiver {
    fn eq(&self, other: &Receiver) -> bool {
        self.state == other.state && self.held() == other.held()
    }
}

impl Eq for Receiver {}

impl fmt::Debug for Receiver {
    fn fmt(&self, f: &mut fmt::Formatter<'_>) -> fmt::Result {
        f.debug_struct("Receiver")
            .field("state", &self.state)
            .field("held", &self.held())
            .finish_non_exhaustive()
    }
}
