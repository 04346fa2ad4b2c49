//! The audio transport layer of HD Radio for testers of reception: a writer
//! that packs encoded audio packets and program service data (PSD) into
//! protocol data units (PDUs), and a receiver that turns PDUs into a packet
//! log. No audio is decoded.
//!
//! This crate is a thin layer over the C library `libcapi.a` and `libpanel.a`,
//! which does the work. The rules are those of the HD Radio standard 1017s,
//! Rev. H.
//!
//! # A PDU
//!
//! A PDU has 96 to 20,480 bytes, and these parts, in this order:
//!
//! - Parity, bytes 0 to 7. The first 96 bytes are the header, a word of a
//!   Reed-Solomon code over GF(256): up to four wrong bytes in it are corrected,
//!   wherever they are, and up to eight at places that are known.
//! - The control word, bytes 8 to 13: [`ControlWord`].
//! - A locator for each piece, the place of the piece's CRC byte, of 12 or 16 bits.
//! - Expansion bytes, up to 16, if there are any: [`Expansion`].
//! - PSD, if there is any, to byte La, which the control word names.
//! - The pieces, up to 63, each with its CRC byte after it. A piece is a packet or
//!   a part of one: the first may continue a packet of the PDU before (Pfirst), and
//!   the last may be continued by the PDU after (Plast).
//! - Reserved bytes, written zero and ignored on reading.
//!
//! Packets have 1 to 4,096 bytes and are numbered 0 to 63 and from 0 again. PDUs
//! have a sequence number too. Its range, the width of the locators and the most
//! PSD are the mode's: see [`Mode`].
//!
//! # Example
//!
//! ```
//! use barzhilup::{Entry, Mode, Receiver, Settings, Stream, Writer};
//!
//! fn main() -> Result<(), barzhilup::Refusal> {
//!     let mut writer = Writer::open(Mode::M0, Stream::Core)?;
//!     let mut pdu = [0; 96];
//!     let ended = writer.write(&Settings::default(), b"", &[b"audio"], &mut pdu)?;
//!     assert_eq!(ended, 1);
//!
//!     pdu[3] ^= 0x40; // noise in the header, which the receiver corrects
//!
//!     let mut receiver = Receiver::open(Mode::M0, Stream::Core)?;
//!     let log = receiver.receive(&mut pdu)?;
//!     for entry in &log {
//!         match entry {
//!             Entry::Packet { number, data } => {
//!                 assert_eq!((number, data.to_vec()), (0, b"audio".to_vec()));
//!             }
//!             Entry::Psd(_) | Entry::Note { .. } => unreachable!("nothing else was sent"),
//!         }
//!     }
//!     Ok(())
//! }
//! ```
//!
//! # Recordings off the air
//!
//! [`Records`] reads the PDUs of a recording, one after another, from a file as the
//! program `barzhilup` writes it.
//!
//! Each piece of a PDU has a CRC. The standard names no value for its register to
//! start with, and where none is given it is 0, [`CRC_START`]. Recordings off the
//! air check with one that starts at [`CRC_START_OFF_AIR`]: a writer and a receiver
//! are opened with it by [`Writer::open_with`] and [`Receiver::open_with`], and
//! [`list_pieces`] is given it. Any byte will do, if both ends have the same.
//!
//! # A receiver that goes on after a restart
//!
//! [`Receiver::save`] writes a receiver out as words of 32 bits, and
//! [`Receiver::load`] makes a receiver of them again, in this program or in a later
//! one: its log goes on as if there had been no interruption.
//!
//! # Packets delivered and missing
//!
//! A receiver counts the packets that it delivers and, by their numbers, those that are
//! missing between them: [`Receiver::delivered`], [`Receiver::missing`] and
//! [`Receiver::last_number`].
//!
//! # Refusals
//!
//! A call that can't be done is refused: it answers with a [`Refusal`], whose
//! number, 1 to 27, is the one that the C library and the program have for it. A
//! refused call changes nothing: the PDU, the list of pieces, the [`Writer`] and
//! the [`Receiver`] are as they were. If several causes apply, the refusal has the
//! lowest number, except that 19 comes directly after 3, and 18 before any PDU of
//! the batch is looked at. A batch of PDUs stops at a refused one; those before it
//! are received, and its [`Batch`] says so.
//!
//! A call that can't be refused answers no `Result`. Every call ends, on every
//! input, and none panics.
//!
//! [`Refusal`], [`Cause`], [`Mode`] and [`RecordError`] may grow: a match on one of
//! them has a last arm for what is new.
//!
//! # Linking
//!
//! The two libraries are looked for in `target/staticlib` under the project's
//! root, where `bash scripts/libraries` makes them, or in the
//! directory that the environment variable `BARZHILUP_LIB` names when the crate is
//! built. Where one is missing, the build says so.

#![deny(missing_docs)]
#![deny(unsafe_code)]
#![warn(clippy::all)]
#![warn(clippy::missing_errors_doc)]
#![warn(clippy::must_use_candidate)]

#[allow(unsafe_code)]
mod ffi;
mod header;
mod joining;
mod latency;
mod log;
mod mode;
mod pairs;
mod reading;
mod receiver;
mod records;
mod refusal;
mod shares;
mod writer;

pub use header::{
    correct_header, correct_header_marked, crc8, crc8_from, parity, syndromes, write_parity,
};
pub use joining::{join, Joined, JoinedPacket, JoinedPackets, JOINED_ENHANCED};
pub use latency::{smallest_latency, try_latency, waiting_packets, LatencyTrial};
pub use log::{Bytes, Cause, Data, Entries, Entry, Log, MalformedLog};
pub use mode::{Mode, Stream};
pub use pairs::choose;
pub use reading::{list_pieces, read, ControlWord, Expansion, Piece, Reading};
pub use receiver::{Batch, Receiver, ReceiverState};
pub use records::{Record, RecordError, Records};
pub use refusal::Refusal;
pub use shares::add_parity_share;
pub use writer::{ProgramType, Services, Settings, Writer, WriterState};

/// Bytes of a header: the first 96 bytes of a PDU are one word of the header
/// code.
pub const HEADER_BYTES: usize = 96;

/// Parity bytes of a header, its bytes 0 to 7; also how many syndromes there
/// are.
pub const PARITY_BYTES: usize = 8;

/// The most bytes of a header that are corrected where no place is marked.
pub const CORRECTED_MAX: usize = 4;

/// The most places of a header that can be marked; also the most bytes of it
/// that are corrected with marks.
pub const MARKS_MAX: usize = 8;

/// The value that the CRC's register starts with where none is given.
pub const CRC_START: u8 = 0;

/// The value with which recordings off the air check.
pub const CRC_START_OFF_AIR: u8 = 255;

/// The shortest PDU, in bytes.
pub const PDU_MIN: usize = 96;

/// The longest PDU, in bytes.
pub const PDU_MAX: usize = 20_480;

/// The longest PDU that a writer writes with locators of 12 bits, in bytes.
/// [`Mode`] says which modes and streams have them.
pub const PDU_MAX_12_BITS: usize = 4_096;

/// The longest packet, in bytes.
pub const PACKET_MAX: usize = 4_096;

/// The most pieces of a PDU: as many as its six-bit count can say. A list of so
/// many entries is long enough for every PDU.
pub const PIECES_MAX: usize = 63;

/// Bytes of a carry buffer, in which a receiver keeps the beginning of a packet
/// between calls.
pub const CARRY_BYTES: usize = 4_096;

/// A log of so many words is long enough for every PDU.
pub const LOG_WORDS: usize = 8_400;

/// A buffer of so many words is long enough for every receiver that is saved.
pub const SNAPSHOT_WORDS: usize = 1_376;

/// The most counts that a bench for latency settings takes.
pub const COUNTS_MAX: usize = 4_096;

/// The largest count of packets ended in a PDU that a bench for latency
/// settings takes.
pub const COUNT_MAX: u32 = 63;

/// The largest latency that a control word can say.
pub const LATENCY_MAX: u8 = 7;
