//! PDUs from a file of records (DECISIONS T1).

use crate::PDU_MAX;
use std::error::Error;
use std::fmt;
use std::fs::File;
use std::io::{self, BufReader, Read};
use std::iter::FusedIterator;
use std::path::Path;

/// A record of a file of PDUs.
#[derive(Clone, Debug, PartialEq, Eq)]
pub enum Record {
    /// A PDU as it came, of 1 to 20,480 bytes. One of fewer than 96 bytes is
    /// refused when it is received.
    Pdu(Vec<u8>),
    /// A PDU that did not come: its record has length 0. It is for
    /// [`Receiver::mark_lost`](crate::Receiver::mark_lost).
    Lost,
}

/// The records of a file of PDUs, one after another, as the program `barzhilup`
/// writes them. Each is a length in two bytes, low byte first, and then so many
/// bytes; one of length 0 stands for a PDU that is lost.
///
/// An error is the last item. A file that ends after a whole record, or has none,
/// ends without one.
///
/// # Example
///
/// ```
/// use barzhilup::{Entry, Mode, Receiver, Record, Records, Settings, Stream, Writer};
///
/// # fn main() -> Result<(), Box<dyn std::error::Error>> {
/// let mut pdu = [0; 96];
/// Writer::open(Mode::M0, Stream::Core)?
///     .write(&Settings::default(), b"", &[b"audio"], &mut pdu)?;
/// let mut file = vec![96, 0]; // a record of 96 bytes
/// file.extend(pdu);
/// file.extend([0, 0]); // and a PDU that is lost
///
/// let mut receiver = Receiver::open(Mode::M0, Stream::Core)?;
/// let (mut packets, mut notes) = (0, 0);
/// for record in Records::new(&file[..]) {
///     let log = match record? {
///         Record::Pdu(mut pdu) => receiver.receive(&mut pdu)?,
///         Record::Lost => receiver.mark_lost(),
///     };
///     for entry in &log {
///         match entry {
///             Entry::Packet { .. } => packets += 1,
///             Entry::Psd(_) => {}
///             Entry::Note { .. } => notes += 1,
///         }
///     }
/// }
/// assert_eq!((packets, notes), (1, 1));
/// # Ok(())
/// # }
/// ```
#[derive(Clone, Debug)]
#[must_use = "records are read only when they are asked for"]
pub struct Records<R> {
    source: R,
    offset: u64,
    ended: bool,
}

impl Records<BufReader<File>> {
    /// The records of the file with this name.
    ///
    /// # Errors
    ///
    /// The file can't be opened.
    ///
    /// # Example
    ///
    /// ```no_run
    /// use barzhilup::{Record, Records};
    ///
    /// # fn main() -> Result<(), Box<dyn std::error::Error>> {
    /// let mut lost = 0;
    /// for record in Records::open("drive.pdus")? {
    ///     lost += usize::from(record? == Record::Lost);
    /// }
    /// println!("{lost} PDUs are lost");
    /// # Ok(())
    /// # }
    /// ```
    pub fn open(path: impl AsRef<Path>) -> io::Result<Records<BufReader<File>>> {
        File::open(path).map(BufReader::new).map(Records::new)
    }
}

impl<R: Read> Records<R> {
    /// The records of a source, from its next byte on: a file, standard input, or
    /// bytes. Each record takes a few reads, so a file is best put in a
    /// [`BufReader`], as [`Records::open`] does.
    pub fn new(source: R) -> Records<R> {
        Records {
            source,
            offset: 0,
            ended: false,
        }
    }

    /// The next record; none at the end.
    fn read_record(&mut self) -> Result<Option<Record>, RecordError> {
        let offset = self.offset;
        let failed = |source| RecordError::Read { offset, source };
        let length = match self.take(2).map_err(failed)?[..] {
            [] => return Ok(None),
            [low, high] => u16::from_le_bytes([low, high]),
            _ => return Err(RecordError::Cut { offset }),
        };
        let count = usize::from(length);
        if count > PDU_MAX {
            return Err(RecordError::TooLong { offset, length });
        }
        let pdu = self.take(count).map_err(failed)?;
        match pdu.len() {
            0 if count == 0 => Ok(Some(Record::Lost)),
            read if read == count => Ok(Some(Record::Pdu(pdu))),
            _ => Err(RecordError::Cut { offset }),
        }
    }

    /// The next bytes of the source: so many, or fewer where it ends.
    fn take(&mut self, count: usize) -> io::Result<Vec<u8>> {
        let mut bytes = Vec::with_capacity(count);
        let mut part = self.source.by_ref().take(count as u64);
        part.read_to_end(&mut bytes)?;
        self.offset += bytes.len() as u64;
        Ok(bytes)
    }
}

impl<R: Read> Iterator for Records<R> {
    type Item = Result<Record, RecordError>;

    fn next(&mut self) -> Option<Result<Record, RecordError>> {
        if self.ended {
            return None;
        }
        let record = self.read_record();
        self.ended = !matches!(record, Ok(Some(_)));
        record.transpose()
    }
}

impl<R: Read> FusedIterator for Records<R> {}

/// Why a file of PDUs can't be read on. The offset is the place, in bytes from
/// the first that was read, at which the record begins with its length.
#[derive(Debug)]
#[non_exhaustive]
pub enum RecordError {
    /// The file ends inside the record.
    Cut {
        /// Where the record begins.
        offset: u64,
    },
    /// The record's length is over 20,480 bytes, which no PDU has: this is not a
    /// file of PDUs, or a part of it is missing, and where the next record begins
    /// can't be told. `barzhilup log` trusts such a length: it says that the record
    /// is refused with 3, and reads on after it.
    TooLong {
        /// Where the record begins.
        offset: u64,
        /// The length that it says.
        length: u16,
    },
    /// The record can't be read.
    Read {
        /// Where the record begins.
        offset: u64,
        /// Why.
        source: io::Error,
    },
}

impl RecordError {
    /// Where the record begins, in bytes from the first that was read.
    #[must_use]
    pub fn offset(&self) -> u64 {
        match self {
            RecordError::Cut { offset }
            | RecordError::TooLong { offset, .. }
            | RecordError::Read { offset, .. } => *offset,
        }
    }
}

impl fmt::Display for RecordError {
    fn fmt(&self, f: &mut fmt::Formatter<'_>) -> fmt::Result {
        let offset = self.offset();
        match self {
            RecordError::Cut { .. } => {
                write!(f, "the file ends inside the record at byte {offset}")
            }
            RecordError::TooLong { length, .. } => write!(
                f,
                "the record at byte {offset} says {length} bytes, and a PDU has at most {PDU_MAX}"
            ),
            RecordError::Read { .. } => write!(f, "the record at byte {offset} can't be read"),
        }
    }
}

impl Error for RecordError {
    fn source(&self) -> Option<&(dyn Error + 'static)> {
        match self {
            RecordError::Read { source, .. } => Some(source),
            _ => None,
        }
    }
}
