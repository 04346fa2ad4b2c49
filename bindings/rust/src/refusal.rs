//! Why a call is refused (document 01, "What is turned down"; document 02).

use std::error::Error;
use std::fmt;

/// Why a call was refused. Each cause has a number, the one that the C library and
/// the program `barzhilup` have for it; there may be more causes in time.
///
/// A refused call has changed nothing. If several causes applied, this is the one
/// with the lowest number, except that 19 comes directly after 3, and 18 before any
/// PDU of the batch is looked at. A batch that stopped at a refused PDU has received
/// those before it: see [`Batch`](crate::Batch).
///
/// # Example
///
/// ```
/// use barzhilup::{Mode, Receiver, Refusal, Stream};
///
/// let mut receiver = Receiver::open(Mode::M0, Stream::Core)?;
/// let refusal = receiver.receive(&mut [0; 95]).unwrap_err();
/// assert_eq!((refusal, refusal.number()), (Refusal::PduLength, 3));
/// assert_eq!(refusal.to_string(), "refusal 3: a PDU can't have this length");
/// # Ok::<(), Refusal>(())
/// ```
#[derive(Clone, Copy, Debug, PartialEq, Eq, Hash)]
#[non_exhaustive]
pub enum Refusal {
    /// 1: a field of a writer's or receiver's state is outside its range.
    State,
    /// 2: the carry buffer has under 4,096 bytes.
    CarryLength,
    /// 3: the PDU's length is not 96 to 20,480; for a writer with locators of 12
    /// bits, it is over 4,096.
    PduLength,
    /// 4: no code word differs from the header in at most four bytes; with marks:
    /// for none is twice the differing unmarked bytes plus the count of marks at
    /// most eight.
    Uncorrectable,
    /// 5: there is no such mode and stream: the table at [`Mode`](crate::Mode) has
    /// those that there are.
    Mode,
    /// 6: there are such a mode and stream as the PDU's, but they are not those that
    /// the receiver was opened for.
    OtherMode,
    /// 7: the PDU sequence is outside its mode's range.
    Sequence,
    /// 8: Pfirst or Plast is set with NOP 0. Any count of pieces is read: one
    /// whose locators go past La, or past the PDU's end, is refused with
    /// [`Refusal::La`].
    Pieces,
    /// 9: La is before the last locator byte, or not below the length.
    La,
    /// 10: the expansion is over 16 bytes, past La, out of order, with class 0
    /// or with a field cut; or a writer may not send it: see
    /// [`Settings`](crate::Settings).
    Expansion,
    /// 11: a locator is under its piece's start plus 1, or not below the length.
    Locator {
        /// The number of the first wrong locator, from 0: the smallest, if
        /// there are several.
        k: u32,
    },
    /// 12: the displacement is before the last piece's end, or not below the
    /// length.
    Displacement,
    /// 13: the list of pieces has fewer than NOP entries. In C a log can be too short
    /// too; that of a [`Receiver`](crate::Receiver) never is.
    LogLength,
    /// 14: a setting that is not sent: blend 3, or nonzero with a nonzero
    /// program; core gain 7 to 23; a value past its width. Or a place outside 8
    /// to 95, whose byte has no share in the parity.
    Value,
    /// 15: a packet's length is 0 or over 4,096, or the unfinished packet is not
    /// offered first and whole.
    Packets,
    /// 16: PSD plus expansion is past the limit of the mode and stream, or there is
    /// PSD on an enhanced stream: see the table at [`Mode`](crate::Mode).
    Psd,
    /// 17: there is no room for a piece of one byte; with no packet offered, none
    /// for the overhead.
    Room,
    /// 18: the lengths of a batch's PDUs do not sum to the buffer.
    Lengths,
    /// 19: more than eight marks, one over 95, or one repeated.
    Marks,
    /// 20: two copies of a PDU, of which both can be corrected, have other
    /// lengths or other corrected bytes 8 to La. Damage of one copy in bytes 96
    /// to La, which no parity covers, can give it too.
    Pair,
    /// 21: a bench for latency settings has no counts, more than 4,096, or one
    /// over 63.
    Counts,
    /// 22: a list of entitled programs has a number over 7, or one repeated.
    Programs,
    /// 23: words to be joined are no log.
    LogWords,
    /// 24: packet numbers do not rise strictly within a log to be joined,
    /// counted from its own first packet, modulo 64.
    Numbers,
    /// 25: the words that a receiver is loaded from are not those of a
    /// receiver, or a field in them is outside its range.
    Words,
    /// 26: the buffer for a receiver's words is too short.
    WordBuffer,
    /// 27: [`Receiver::delivered`](crate::Receiver::delivered) or
    /// [`Receiver::missing`](crate::Receiver::missing) would pass
    /// 4,294,967,295. A PDU that delivers no packet is never refused with it.
    /// To go on, write both down and [resume](crate::Receiver::resume) the
    /// state with `delivered`, `missing` and `last` 0.
    /// Packets missing between the last one delivered before that and the
    /// first one after it are then in neither.
    CountLimit,
}

impl Refusal {
    /// The cause's number, 1 to 27.
    #[must_use]
    pub const fn number(self) -> u32 {
        match self {
            Refusal::State => 1,
            Refusal::CarryLength => 2,
            Refusal::PduLength => 3,
            Refusal::Uncorrectable => 4,
            Refusal::Mode => 5,
            Refusal::OtherMode => 6,
            Refusal::Sequence => 7,
            Refusal::Pieces => 8,
            Refusal::La => 9,
            Refusal::Expansion => 10,
            Refusal::Locator { .. } => 11,
            Refusal::Displacement => 12,
            Refusal::LogLength => 13,
            Refusal::Value => 14,
            Refusal::Packets => 15,
            Refusal::Psd => 16,
            Refusal::Room => 17,
            Refusal::Lengths => 18,
            Refusal::Marks => 19,
            Refusal::Pair => 20,
            Refusal::Counts => 21,
            Refusal::Programs => 22,
            Refusal::LogWords => 23,
            Refusal::Numbers => 24,
            Refusal::Words => 25,
            Refusal::WordBuffer => 26,
            Refusal::CountLimit => 27,
        }
    }

    /// What an answer of the library says: `number` is 0 if the call was
    /// accepted, and `k` counts with 11 only.
    pub(crate) fn check(number: u32, k: u32) -> Result<(), Refusal> {
        Err(match number {
            0 => return Ok(()),
            1 => Refusal::State,
            2 => Refusal::CarryLength,
            3 => Refusal::PduLength,
            4 => Refusal::Uncorrectable,
            5 => Refusal::Mode,
            6 => Refusal::OtherMode,
            7 => Refusal::Sequence,
            8 => Refusal::Pieces,
            9 => Refusal::La,
            10 => Refusal::Expansion,
            11 => Refusal::Locator { k },
            12 => Refusal::Displacement,
            13 => Refusal::LogLength,
            14 => Refusal::Value,
            15 => Refusal::Packets,
            16 => Refusal::Psd,
            17 => Refusal::Room,
            18 => Refusal::Lengths,
            19 => Refusal::Marks,
            20 => Refusal::Pair,
            21 => Refusal::Counts,
            22 => Refusal::Programs,
            23 => Refusal::LogWords,
            24 => Refusal::Numbers,
            25 => Refusal::Words,
            26 => Refusal::WordBuffer,
            27 => Refusal::CountLimit,
            _ => unreachable!("the library has no refusal {number}"),
        })
    }

    /// The cause in plain words; 11's without its k.
    const fn words(self) -> &'static str {
        match self {
            Refusal::State => "a field of the state is outside its range",
            Refusal::CarryLength => "the carry buffer has under 4,096 bytes",
            Refusal::PduLength => "a PDU can't have this length",
            Refusal::Uncorrectable => "more bytes of the header are wrong than can be corrected",
            Refusal::Mode => "no such mode and stream",
            Refusal::OtherMode => "the PDU is of another mode or stream than the receiver",
            Refusal::Sequence => "the PDU sequence is outside its mode's range",
            Refusal::Pieces => "Pfirst or Plast without a piece",
            Refusal::La => "La is before the last locator byte or past the PDU's end",
            Refusal::Expansion => "the expansion breaks its rules",
            Refusal::Locator { .. } => "a locator is before its piece's end or past the PDU's end",
            Refusal::Displacement => {
                "the displacement is before the last piece's end or past the PDU's end"
            }
            Refusal::LogLength => "the log or the list of pieces is too short",
            Refusal::Value => "a setting that is not sent, or a place outside 8 to 95",
            Refusal::Packets => {
                "a packet is empty or over 4,096 bytes, or the unfinished one is not offered whole"
            }
            Refusal::Psd => "too much PSD and expansion for the mode and stream",
            Refusal::Room => "the PDU has no room for a byte of a packet, or for its overhead",
            Refusal::Lengths => "the lengths of the PDUs do not sum to the buffer",
            Refusal::Marks => "more than eight marks, one over 95, or one repeated",
            Refusal::Pair => "the two copies say different things before their pieces",
            Refusal::Counts => "no counts, more than 4,096, or one over 63",
            Refusal::Programs => "a program number is over 7, or repeated",
            Refusal::LogWords => "the words are not a log's",
            Refusal::Numbers => "packet numbers do not rise within a log",
            Refusal::Words => "the words are not those of a receiver",
            Refusal::WordBuffer => "the buffer is too short for the receiver's words",
            Refusal::CountLimit => "a count of packets would pass 4,294,967,295",
        }
    }
}

impl fmt::Display for Refusal {
    fn fmt(&self, f: &mut fmt::Formatter<'_>) -> fmt::Result {
        write!(f, "refusal {}: {}", self.number(), self.words())?;
        match self {
            Refusal::Locator { k } => write!(f, " (locator {k})"),
            _ => Ok(()),
        }
    }
}

impl Error for Refusal {}
