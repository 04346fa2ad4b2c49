//! The numbers of the table of refusals, and the causes its rows name. Where
//! several apply, the lowest number is answered, but 19 directly after 3, 20 directly
//! after 12 and 27 directly after 13; and a refusal changes nothing that was lent.

/// A field of a lent state is outside its range.
pub const STATE: u32 = 1;

/// The lent carry has fewer than 4,096 bytes.
pub const CARRY: u32 = 2;

/// The PDU length isn't 96 to 20,480; for the writer also: over 4,096 with
/// 12-bit locators.
pub const LENGTH: u32 = 3;

/// No code word differs from the header in at most four bytes; with marks: for
/// none is twice the differing unmarked bytes plus the marks at most eight.
pub const BEYOND_MENDING: u32 = 4;

/// Mode and stream aren't in the table of modes.
pub const MODE_AND_STREAM: u32 = 5;

/// Mode and stream of a PDU aren't those the receiver was opened for.
pub const NOT_THOSE_OPENED: u32 = 6;

/// The PDU sequence is outside the mode's range.
pub const SEQUENCE: u32 = 7;

/// Pfirst or Plast with NOP 0: the two flags only (document 02, Ask 9).
pub const PIECES: u32 = 8;

/// La is before the last locator byte, or not below the length.
pub const LA: u32 = 9;

/// The expansion is too long, or its fields are wrong; for the writer: it may
/// not send them.
pub const EXPANSION: u32 = 10;

/// A locator is under its piece's start plus 1, or not below the length.
pub const LOCATOR: u32 = 11;

/// The displacement is before the last piece's end, or not below the length.
pub const DISPLACEMENT: u32 = 12;

/// The log is shorter than the words that the call would write.
pub const LOG: u32 = 13;

/// The writer may not send a value, or it is past its width.
pub const VALUE: u32 = 14;

/// A place outside 8 to 95, whose byte has no share in the parity (document 02,
/// Ask 8).
pub const PLACE: u32 = 14;

/// A packet's length is wrong, the lengths don't sum to the bytes, or the
/// unfinished packet is absent or not longer than what was sent of it.
pub const PACKETS: u32 = 15;

/// PSD and expansion are past the mode's column, or there is PSD where it
/// says no PSD.
pub const PSD: u32 = 16;

/// The overhead leaves no room.
pub const OVERHEAD: u32 = 17;

/// The lengths of a batch do not sum to its buffer (document 02, Ask 1).
pub const LENGTHS: u32 = 18;

/// More than eight marks, one over 95, or one repeated (document 02, Ask 3).
pub const MARKS: u32 = 19;

/// Two copies that can both be mended have other lengths, or other mended bytes 8
/// to La (document 02, Ask 5).
pub const COPIES: u32 = 20;

/// A bench has no counts, more than 4,096, or one over 63 (document 02, Ask 7).
pub const COUNTS: u32 = 21;

/// A list of entitled programs has a number over 7, or one repeated (document 02,
/// Ask 10).
pub const PROGRAMS: u32 = 22;

/// Words to be joined are no log (document 02, Ask 11).
pub const LOG_WORDS: u32 = 23;

/// Packet numbers of a log, counted from its first packet, do not rise strictly
/// (document 02, Ask 11).
pub const NUMBERS: u32 = 24;

/// Words that a receiver is read from are not of their form, or a field is outside its
/// range (document 02, Ask 13).
pub const WORDS: u32 = 25;

/// The buffer for a receiver's words is too short (document 02, Ask 13).
pub const WORD_BUFFER: u32 = 26;

/// A count of packets would pass 4,294,967,295 (document 02, Ask 14).
pub const COUNT_LIMIT: u32 = 27;

/// Which of these numbers is answered: the lowest, but 19 directly after 3, 20 directly
/// after 12 and 27 directly after 13.
pub fn first(numbers: impl Iterator<Item = u32>) -> Option<u32> {
    numbers.min_by_key(|&number| match number {
        MARKS => (LENGTH, MARKS),
        COPIES => (DISPLACEMENT, COPIES),
        COUNT_LIMIT => (LOG, COUNT_LIMIT),
        other => (other, 0),
    })
}

/// The k that comes with a number, where these locators are wrong: with 11 the
/// smallest, otherwise 0 (document 02, Ask 6).
pub fn k(number: u32, wrong: &[usize]) -> usize {
    match number {
        LOCATOR => *wrong.iter().min().expect("a wrong locator"),
        _ => 0,
    }
}

/// Each single cause for turning down a list of marks.
#[derive(Clone, Copy, Debug, PartialEq, Eq, PartialOrd, Ord)]
pub enum MarksCause {
    MoreThanEight,
    Over95,
    Repeated,
}

/// Each single cause for turning down a PDU that is read without a receiver.
#[derive(Clone, Copy, Debug, PartialEq, Eq, PartialOrd, Ord)]
pub enum Cause {
    Length,
    BeyondMending,
    ModeAndStream,
    Sequence,
    PfirstWithoutPieces,
    PlastWithoutPieces,
    LaBeforeLastLocatorByte,
    LaNotBelowLength,
    ExpansionOver16Bytes,
    ExpansionPastLa,
    FieldOrder,
    ClassZero,
    FieldCut,
    /// With the locator's k, as in the next one.
    LocatorUnderStart(usize),
    LocatorNotBelowLength(usize),
    DisplacementBeforeEnd,
    DisplacementNotBelowLength,
}

impl Cause {
    /// The number of the table's row which names this cause.
    pub fn number(self) -> u32 {
        match self {
            Cause::Length => LENGTH,
            Cause::BeyondMending => BEYOND_MENDING,
            Cause::ModeAndStream => MODE_AND_STREAM,
            Cause::Sequence => SEQUENCE,
            Cause::PfirstWithoutPieces | Cause::PlastWithoutPieces => PIECES,
            Cause::LaBeforeLastLocatorByte | Cause::LaNotBelowLength => LA,
            Cause::ExpansionOver16Bytes
            | Cause::ExpansionPastLa
            | Cause::FieldOrder
            | Cause::ClassZero
            | Cause::FieldCut => EXPANSION,
            Cause::LocatorUnderStart(_) | Cause::LocatorNotBelowLength(_) => LOCATOR,
            Cause::DisplacementBeforeEnd | Cause::DisplacementNotBelowLength => DISPLACEMENT,
        }
    }

    /// The k of the locator that the cause is about, if it is about one.
    pub fn locator(self) -> Option<usize> {
        match self {
            Cause::LocatorUnderStart(k) | Cause::LocatorNotBelowLength(k) => Some(k),
            _ => None,
        }
    }
}

/// Each single cause for turning down a writing call.
#[derive(Clone, Copy, Debug, PartialEq, Eq, PartialOrd, Ord)]
pub enum WriterCause {
    /// The state's mode and stream aren't in the table.
    ModeAndStream,
    /// The state's fields, outside their ranges.
    Sequence,
    Number,
    Sent,
    /// The PDU length isn't 96 to 20,480.
    Length,
    /// It is over 4,096 with 12-bit locators.
    LengthOver4096,
    ClassNot1,
    ClassWithoutProgram,
    ClassWithoutAccess,
    AccessWithoutClass,
    ServicesOver1,
    ServicesWithoutClass,
    /// The displacement is wanted for a length over 16,384.
    DisplacementTooFar,
    Blend3,
    BlendWithProgram,
    CoreGain7To23,
    PastWidth(Value),
    PacketLength0,
    PacketLengthOver4096,
    LengthsDontSum,
    UnfinishedAbsent,
    UnfinishedNotLonger,
    PsdPlusExpansionPastColumn,
    NoPsdHere,
    /// Overhead for one piece plus 2 over R, with packets offered.
    NoRoomForAPiece,
    /// Overhead over R, with none offered.
    NoRoomForOverhead,
}

/// The values that a writing call can be asked to send.
#[derive(Clone, Copy, Debug, PartialEq, Eq, PartialOrd, Ord)]
pub enum Value {
    Blend,
    Gain,
    CommonDelay,
    Latency,
    Class,
    Program,
    Access,
    Type,
    Services,
    Marker,
}

impl WriterCause {
    /// The number of the table's row which names this cause.
    pub fn number(self) -> u32 {
        use WriterCause::*;
        match self {
            ModeAndStream | Sequence | Number | Sent => STATE,
            Length | LengthOver4096 => LENGTH,
            ClassNot1 | ClassWithoutProgram | ClassWithoutAccess | AccessWithoutClass
            | ServicesOver1 | ServicesWithoutClass | DisplacementTooFar => EXPANSION,
            Blend3 | BlendWithProgram | CoreGain7To23 | PastWidth(_) => VALUE,
            PacketLength0 | PacketLengthOver4096 | LengthsDontSum | UnfinishedAbsent
            | UnfinishedNotLonger => PACKETS,
            PsdPlusExpansionPastColumn | NoPsdHere => PSD,
            NoRoomForAPiece | NoRoomForOverhead => OVERHEAD,
        }
    }
}

/// Each single cause for turning down a receiving call, or marking lost.
#[derive(Clone, Copy, Debug, PartialEq, Eq, PartialOrd, Ord)]
pub enum ReceiverCause {
    /// The state's mode and stream aren't in the table.
    ModeAndStream,
    /// The state's fields, outside their ranges.
    Sequence,
    Held,
    Number,
    /// The sequence is not 0 where none is known.
    SequenceNotKnown,
    /// The number is not 0 where nothing is held.
    NumberNotHeld,
    /// The kept applied services are over 7, not 0 where they are unknown, or known
    /// where none are kept (document 02, Ask 10).
    ServicesOver7,
    ServicesNotKnown,
    ServicesNotKept,
    /// The last delivered number is over 63; missing or it is not 0 where nothing is
    /// delivered (document 02, Ask 14).
    Last,
    MissingOfNone,
    LastOfNone,
    CarryUnder4096,
    Marks(MarksCause),
    /// What reading the PDU without a receiver turns down.
    Pdu(Cause),
    NotThoseOpened,
    /// Two copies have other lengths.
    LengthsDiffer,
    /// They have other mended bytes 8 to La.
    BytesDiffer,
    LogTooShort,
    /// Delivered or missing would pass 4,294,967,295 (document 02, Ask 14).
    DeliveredPasses,
    MissingPasses,
}

impl ReceiverCause {
    /// The number of the table's row which names this cause.
    pub fn number(self) -> u32 {
        use ReceiverCause::*;
        match self {
            ModeAndStream | Sequence | Held | Number | SequenceNotKnown | NumberNotHeld
            | ServicesOver7 | ServicesNotKnown | ServicesNotKept | Last | MissingOfNone
            | LastOfNone => STATE,
            CarryUnder4096 => CARRY,
            Marks(_) => MARKS,
            Pdu(cause) => cause.number(),
            NotThoseOpened => NOT_THOSE_OPENED,
            LengthsDiffer | BytesDiffer => COPIES,
            LogTooShort => LOG,
            DeliveredPasses | MissingPasses => COUNT_LIMIT,
        }
    }
}

/// Each single cause for turning down a receiver that is written out, or words that are
/// read (document 02, Asks 13 and 14).
#[derive(Clone, Copy, Debug, PartialEq, Eq, PartialOrd, Ord)]
pub enum SnapshotCause {
    /// The state of the receiver that is written out, or the carry.
    Receiver(ReceiverCause),
    BufferTooShort,
    Words(WordsCause),
}

/// Each single cause for turning words down, some with the kind of the word.
#[derive(Clone, Copy, Debug, PartialEq, Eq, PartialOrd, Ord)]
pub enum WordsCause {
    /// No word of kind 0, or no word at all.
    NoMode,
    UnknownKind(u32),
    /// A kind that comes again and isn't 5 or 6.
    Repeated(u32),
    /// A kind under the one before it.
    NotRising(u32),
    UnusedBit(u32),
    ModeAndStream,
    Sequence,
    /// Kind 2 with length 0.
    NothingHeld,
    HeldOver4096,
    /// Kind 2 without kind 5.
    NoBytes,
    /// Kind 5 without kind 2.
    BytesOfNothing,
    /// Other bytes in number than kind 2 says.
    OtherCount,
    /// A word of no bytes.
    CountZero,
    /// Under three bytes in another word than the last.
    ShortBeforeLast,
    /// Applied services that are not 0 and not known, or known where none are kept.
    ServicesNotKnown,
    ServicesNotKept,
    /// Kind 6 in another number of words than five.
    NotFive,
    /// Kind 6 with nothing delivered.
    NothingDelivered,
    /// Kind 6 with a last number over 63.
    Last,
}

impl SnapshotCause {
    /// The number of this cause.
    pub fn number(self) -> u32 {
        match self {
            SnapshotCause::Receiver(cause) => cause.number(),
            SnapshotCause::BufferTooShort => WORD_BUFFER,
            SnapshotCause::Words(_) => WORDS,
        }
    }
}
