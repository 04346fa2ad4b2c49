//! The reference for the audio transport layer: the rules of document 01 in
//! their plainest form, for the tests to compare the product with. It covers
//! the header code, the CRC-8, reading without a receiver, the writer, the
//! receiver, the packet log and the refusals 1 to 17; and of document 02, PDUs
//! received in one call with refusal 18 (Ask 1), the CRC's starting register
//! (Ask 2), header bytes marked doubtful with refusal 19 (Ask 3), two copies of a
//! PDU with refusal 20 and note 7 (Ask 5), a bench for latency settings with
//! refusal 21 (Ask 7), parity as bytes arrive (Ask 8), up to 63 pieces (Ask 9),
//! paid programs with refusal 22 and note 8 (Ask 10), two logs joined with refusals
//! 23 and 24 (Ask 11), a receiver saved as words and loaded again with refusals 25
//! and 26 (Ask 13), and packets delivered and missing with refusal 27 (Ask 14):
//!
//! - `field`: the bytes as elements of GF(256);
//! - `linear`: systems of linear equations over them;
//! - `header`: sums, parity and mending of the first 96 bytes of a PDU;
//! - `erasures`: mending with places of the header marked;
//! - `shares`: each byte's share in the parity;
//! - `search`: mending again, by trying all sets of places;
//! - `crc`: the CRC-8 of a piece;
//! - `modes`: the modes and streams, and what they decide;
//! - `control`, `locators`, `expansion`: the parts of a PDU before its PSD;
//! - `reading`: reading a PDU without a receiver;
//! - `settings`: what a PDU to be written is asked to say;
//! - `placing`: which pieces of the offered packets go into a PDU;
//! - `writer`: the writer, opened and writing;
//! - `log`: the words of the packet log;
//! - `receiver`: the receiver, opened, receiving and marking lost;
//! - `entitlement`: the entitled programs, and which PDUs are withheld;
//! - `counts`: packets delivered and missing, and the last delivered number;
//! - `batches`: PDUs received in one call;
//! - `pairs`: two copies of a PDU, one chosen, or both received in one call;
//! - `snapshot`: a receiver written out as words, and read again;
//! - `refusal`: the numbers of the table of refusals, and their causes;
//! - `encode`: PDUs made of any parts, for the writer and the tests;
//! - `latency`: the bench for latency settings;
//! - `joining`: the logs of core and enhanced side by side;
//! - `rng`: repeatable random numbers for the tests.

#![forbid(unsafe_code)]

pub mod batches;
pub mod control;
pub mod counts;
pub mod crc;
pub mod encode;
pub mod entitlement;
pub mod erasures;
pub mod expansion;
pub mod field;
pub mod header;
pub mod joining;
pub mod latency;
pub mod linear;
pub mod locators;
pub mod log;
pub mod modes;
pub mod pairs;
pub mod placing;
pub mod reading;
pub mod receiver;
pub mod refusal;
pub mod rng;
pub mod search;
pub mod settings;
pub mod shares;
pub mod snapshot;
pub mod writer;
