//! The packet log (document 01, "Receiver").

use std::error::Error;
use std::fmt;
use std::iter::FusedIterator;

/// The log of a call: a row of words of 32 bits, which is gone through entry by
/// entry.
///
/// Bits 31-30 of a word are its kind:
///
/// | kind | what | bits |
/// |---|---|---|
/// | 0 | packet | 21-16 its number, 15-0 its length; data words follow |
/// | 1 | data | 25-24 how many bytes, 1 to 3; the first in 23-16, then 15-8, then 7-0; unused ones zero |
/// | 2 | PSD | 15-0 its length; data words follow |
/// | 3 | note | 29-16 its cause, 15-0 the piece, 0 if none |
///
/// # Example
///
/// ```
/// use barzhilup::{Entry, Mode, Receiver, Settings, Stream, Writer};
///
/// # fn main() -> Result<(), barzhilup::Refusal> {
/// let mut pdu = [0; 96];
/// Writer::open(Mode::M0, Stream::Core)?
///     .write(&Settings::default(), b"title", &[b"audio"], &mut pdu)?;
/// let mut receiver = Receiver::open(Mode::M0, Stream::Core)?;
/// let log = receiver.receive(&mut pdu)?;
/// for entry in &log {
///     match entry {
///         Entry::Packet { number, data } => println!("packet {number}, {} bytes", data.len()),
///         Entry::Psd(data) => println!("PSD, {} bytes", data.len()),
///         Entry::Note { cause, piece } => println!("note on {piece:?}: {cause}"),
///     }
/// }
/// assert_eq!(log.words()[0], 0x8000_0005); // PSD of five bytes
/// # Ok(())
/// # }
/// ```
#[derive(Clone, Copy, Debug, PartialEq, Eq)]
pub struct Log<'a> {
    words: &'a [u32],
}

impl<'a> Log<'a> {
    /// A log of words that were kept, one call's or several calls' joined.
    ///
    /// # Errors
    ///
    /// The place of a word that is not as a log has it: of another kind, length or
    /// cause than can stand there, or with a bit set that has no meaning. Logs of a
    /// receiver never have one.
    ///
    /// # Example
    ///
    /// ```
    /// use barzhilup::{Entry, Log};
    ///
    /// let words = [0x0005_0004, 0x4311_2233, 0x4144_0000];
    /// let log = Log::new(&words)?;
    /// let Some(Entry::Packet { number, data }) = log.entries().next() else {
    ///     panic!("a packet comes first");
    /// };
    /// assert_eq!((number, data.to_vec()), (5, vec![0x11, 0x22, 0x33, 0x44]));
    /// # Ok::<(), barzhilup::MalformedLog>(())
    /// ```
    pub fn new(words: &'a [u32]) -> Result<Log<'a>, MalformedLog> {
        let mut rest = words;
        while !rest.is_empty() {
            let place = words.len() - rest.len();
            rest = after_entry(rest).map_err(|wrong| MalformedLog {
                place: place + wrong,
            })?;
        }
        Ok(Log { words })
    }

    /// The log of words that a receiver wrote.
    pub(crate) fn written(words: &'a [u32]) -> Log<'a> {
        Log { words }
    }

    /// The words.
    #[must_use]
    pub fn words(&self) -> &'a [u32] {
        self.words
    }

    /// What the log holds, in order.
    pub fn entries(&self) -> Entries<'a> {
        Entries { words: self.words }
    }
}

impl<'a> IntoIterator for Log<'a> {
    type Item = Entry<'a>;
    type IntoIter = Entries<'a>;

    fn into_iter(self) -> Entries<'a> {
        self.entries()
    }
}

impl<'a> IntoIterator for &Log<'a> {
    type Item = Entry<'a>;
    type IntoIter = Entries<'a>;

    fn into_iter(self) -> Entries<'a> {
        self.entries()
    }
}

/// Words that are not a log.
#[derive(Clone, Copy, Debug, PartialEq, Eq)]
pub struct MalformedLog {
    /// The place, from 0, of the first word that does not fit; the count of words
    /// if the last packet or PSD is cut.
    pub place: usize,
}

impl fmt::Display for MalformedLog {
    fn fmt(&self, f: &mut fmt::Formatter<'_>) -> fmt::Result {
        write!(f, "not a log: word {} does not fit", self.place)
    }
}

impl Error for MalformedLog {}

/// An entry of a log. A log has no others: its words have no further kinds.
#[derive(Clone, Copy, Debug, PartialEq, Eq)]
pub enum Entry<'a> {
    /// A packet that arrived whole.
    Packet {
        /// Its number, 0 to 63.
        number: u8,
        /// Its bytes, 1 to 4,096.
        data: Data<'a>,
    },
    /// PSD of a PDU.
    Psd(Data<'a>),
    /// Something that was missing or wrong.
    Note {
        /// What.
        cause: Cause,
        /// The piece of the PDU that it is about, from 0, if it is about one.
        piece: Option<u16>,
    },
}

/// The cause of a note. There may be more causes in time.
#[derive(Clone, Copy, Debug, PartialEq, Eq, Hash)]
#[non_exhaustive]
pub enum Cause {
    /// 1: the PDU sequence is not the one after the last. What was held is
    /// dropped. About no piece.
    Sequence,
    /// 2: the piece's CRC is wrong.
    Crc,
    /// 3: the piece continues a packet of which nothing is held.
    NothingHeld,
    /// 4: the beginning that was held is not continued by this PDU, and dropped.
    /// About no piece.
    NotContinued,
    /// 5: with the piece, the packet is over 4,096 bytes.
    TooLong,
    /// 6: the PDU was marked lost. What was held is dropped. About no piece.
    Lost,
    /// 7: the piece has a right CRC in both copies of a pair, and other bytes
    /// in one than in the other. It stands where [`Cause::Crc`] would.
    CopiesDiffer,
    /// 8: the PDU is withheld: its applied services are 1, or unknown, and the
    /// receiver is not entitled to its program. It stands where the PSD would.
    /// [`Receiver::open_entitled`](crate::Receiver::open_entitled) says more.
    /// About no piece.
    Withheld,
}

impl Cause {
    /// The cause's number, 1 to 8, as a log's word has it.
    #[must_use]
    pub const fn number(self) -> u16 {
        match self {
            Cause::Sequence => 1,
            Cause::Crc => 2,
            Cause::NothingHeld => 3,
            Cause::NotContinued => 4,
            Cause::TooLong => 5,
            Cause::Lost => 6,
            Cause::CopiesDiffer => 7,
            Cause::Withheld => 8,
        }
    }

    /// The cause with this number.
    fn numbered(number: u32) -> Option<Cause> {
        Some(match number {
            1 => Cause::Sequence,
            2 => Cause::Crc,
            3 => Cause::NothingHeld,
            4 => Cause::NotContinued,
            5 => Cause::TooLong,
            6 => Cause::Lost,
            7 => Cause::CopiesDiffer,
            8 => Cause::Withheld,
            _ => return None,
        })
    }

    /// Whether a note with this cause is about a piece.
    fn about_a_piece(self) -> bool {
        matches!(
            self,
            Cause::Crc | Cause::NothingHeld | Cause::TooLong | Cause::CopiesDiffer
        )
    }
}

impl fmt::Display for Cause {
    fn fmt(&self, f: &mut fmt::Formatter<'_>) -> fmt::Result {
        f.write_str(match self {
            Cause::Sequence => "the PDU sequence is not the next one",
            Cause::Crc => "the piece's CRC is wrong",
            Cause::NothingHeld => "the piece continues a packet of which nothing is held",
            Cause::NotContinued => "the held beginning is not continued",
            Cause::TooLong => "the packet is over 4,096 bytes",
            Cause::Lost => "the PDU was marked lost",
            Cause::CopiesDiffer => "the two copies of the piece differ, and both CRCs are right",
            Cause::Withheld => "the PDU is withheld: its program is not one of those entitled",
        })
    }
}

/// The bytes of a packet or of PSD, as they stand in a log: three to a word.
#[derive(Clone, Copy, PartialEq, Eq)]
pub struct Data<'a> {
    words: &'a [u32],
    length: usize,
}

impl<'a> Data<'a> {
    /// So many bytes in the data words that these words begin with, and the words
    /// after them; none if there are too few.
    pub(crate) fn split(words: &'a [u32], length: usize) -> Option<(Data<'a>, &'a [u32])> {
        let (words, rest) = words.split_at_checked(data_words(length))?;
        Some((Data { words, length }, rest))
    }

    /// How many bytes there are.
    #[must_use]
    pub fn len(&self) -> usize {
        self.length
    }

    /// Whether there are none. In a log there is always one.
    #[must_use]
    pub fn is_empty(&self) -> bool {
        self.length == 0
    }

    /// The bytes, one after another.
    pub fn bytes(&self) -> Bytes<'a> {
        Bytes {
            words: self.words,
            place: 0,
            length: self.length,
        }
    }

    /// The bytes, joined.
    #[must_use]
    pub fn to_vec(&self) -> Vec<u8> {
        self.bytes().collect()
    }
}

impl<'a> IntoIterator for Data<'a> {
    type Item = u8;
    type IntoIter = Bytes<'a>;

    fn into_iter(self) -> Bytes<'a> {
        self.bytes()
    }
}

impl<'a> IntoIterator for &Data<'a> {
    type Item = u8;
    type IntoIter = Bytes<'a>;

    fn into_iter(self) -> Bytes<'a> {
        self.bytes()
    }
}

impl PartialEq<[u8]> for Data<'_> {
    fn eq(&self, other: &[u8]) -> bool {
        self.bytes().eq(other.iter().copied())
    }
}

impl fmt::Debug for Data<'_> {
    fn fmt(&self, f: &mut fmt::Formatter<'_>) -> fmt::Result {
        f.debug_list().entries(self.bytes()).finish()
    }
}

/// The bytes of [`Data`], one after another.
#[derive(Clone, Debug)]
#[must_use = "bytes are read only when they are asked for"]
pub struct Bytes<'a> {
    words: &'a [u32],
    place: usize,
    length: usize,
}

impl Iterator for Bytes<'_> {
    type Item = u8;

    fn next(&mut self) -> Option<u8> {
        if self.place == self.length {
            return None;
        }
        let [_, bytes @ ..] = self.words[self.place / 3].to_be_bytes();
        let byte = bytes[self.place % 3];
        self.place += 1;
        Some(byte)
    }

    fn size_hint(&self) -> (usize, Option<usize>) {
        let left = self.length - self.place;
        (left, Some(left))
    }
}

impl ExactSizeIterator for Bytes<'_> {}
impl FusedIterator for Bytes<'_> {}

/// The entries of a [`Log`], one after another. Words are looked at only when
/// their entry is asked for.
#[derive(Clone, Debug)]
#[must_use = "entries are read only when they are asked for"]
pub struct Entries<'a> {
    words: &'a [u32],
}

impl<'a> Iterator for Entries<'a> {
    type Item = Entry<'a>;

    fn next(&mut self) -> Option<Entry<'a>> {
        let (entry, rest) = split(self.words)?;
        self.words = rest;
        Some(entry)
    }
}

impl FusedIterator for Entries<'_> {}

/// How many data words these bytes take.
fn data_words(length: usize) -> usize {
    length.div_ceil(3)
}

/// The first entry, and the words after it; none at the end and where no whole
/// entry begins.
fn split(words: &[u32]) -> Option<(Entry<'_>, &[u32])> {
    let (&first, rest) = words.split_first()?;
    let low = (first & 0xFFFF) as u16;
    let length = usize::from(low);
    match first >> 30 {
        0 => {
            let number = (first >> 16 & 63) as u8;
            let (data, rest) = Data::split(rest, length)?;
            Some((Entry::Packet { number, data }, rest))
        }
        2 => {
            let (data, rest) = Data::split(rest, length)?;
            Some((Entry::Psd(data), rest))
        }
        3 => {
            let cause = Cause::numbered(first >> 16 & 0x3FFF)?;
            let piece = cause.about_a_piece().then_some(low);
            Some((Entry::Note { cause, piece }, rest))
        }
        _ => None,
    }
}

/// The words after the first entry; or the place of the first word that does not
/// fit.
fn after_entry(words: &[u32]) -> Result<&[u32], usize> {
    let first = words[0];
    let length = (first & 0xFFFF) as usize;
    let right = match first >> 30 {
        0 => first >> 22 == 0 && (1..=crate::PACKET_MAX).contains(&length),
        2 => first >> 16 == 0x8000 && length > 0,
        3 => Cause::numbered(first >> 16 & 0x3FFF)
            .is_some_and(|cause| cause.about_a_piece() || length == 0),
        _ => false,
    };
    if !right {
        return Err(0);
    }
    let count = if first >> 30 == 3 {
        0
    } else {
        data_words(length)
    };
    for place in 1..=count {
        let bytes = (length - 3 * (place - 1)).min(3);
        match words.get(place) {
            Some(&word) if is_data(word, bytes) => (),
            _ => return Err(place),
        }
    }
    Ok(&words[1 + count..])
}

/// Whether this is a data word with so many bytes, 1 to 3, and unused ones zero.
fn is_data(word: u32, bytes: usize) -> bool {
    let unused = (1u32 << (24 - 8 * bytes)) - 1;
    word >> 24 == 0x40 + bytes as u32 && word & unused == 0
}
