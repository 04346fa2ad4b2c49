//! Lists of pieces: what is lent for one, which lengths are tried, what it has
//! to hold by the reference, and how often each outcome came.

use crate::lent::Lent;
use crate::product::Piece;
use referee::control::{self, ControlWord};
use referee::crc::crc8_from;
use referee::reading::{Reading, Refusal};
use referee::refusal;
use referee::rng::Rng;
use std::collections::BTreeMap;

/// How many guard entries stand on each side of a lent list.
const GUARD: usize = 8;

/// A list to be lent to the product. Entries before and after it belong to
/// nobody and must never change; comparing two compares these as well. Of the
/// lent entries C's unused byte is left out.
#[derive(Clone)]
pub struct LentList {
    entries: Vec<Piece>,
    count: usize,
}

impl LentList {
    /// So many entries with anything in them.
    pub fn random(rng: &mut Rng, count: usize) -> LentList {
        let entry = |_| {
            let bits = rng.bits();
            Piece {
                start: bits as u16,
                length: (bits >> 16) as u16,
                right: (bits >> 32) as u8 & 1,
                unused: (bits >> 40) as u8,
            }
        };
        LentList {
            entries: (0..GUARD + count + GUARD).map(entry).collect(),
            count,
        }
    }

    /// The lent entries.
    pub fn entries(&self) -> &[Piece] {
        &self.entries[GUARD..GUARD + self.count]
    }

    /// The lent entries, to be changed.
    pub fn entries_mut(&mut self) -> &mut [Piece] {
        &mut self.entries[GUARD..GUARD + self.count]
    }

    /// The list with its first entries changed to these.
    pub fn filled(&self, pieces: &[Piece]) -> LentList {
        let mut list = self.clone();
        list.entries_mut()[..pieces.len()].copy_from_slice(pieces);
        list
    }

    /// Where two lists differ: entries counted from the first lent one,
    /// negative ones before it.
    pub fn differences(&self, other: &LentList) -> String {
        let (one, other) = (self.comparable(), other.comparable());
        let told: Vec<String> = (0..one.len())
            .filter(|&place| one[place] != other[place])
            .map(|place| {
                let entry = place as isize - GUARD as isize;
                format!("{entry}: {:?}, not {:?}", one[place], other[place])
            })
            .take(10)
            .collect();
        format!("entries differ, {told:?}")
    }

    /// All entries, with 0 as the lent ones' unused byte.
    fn comparable(&self) -> Vec<Piece> {
        let mut entries = self.entries.clone();
        for entry in &mut entries[GUARD..GUARD + self.count] {
            entry.unused = 0;
        }
        entries
    }
}

impl PartialEq for LentList {
    fn eq(&self, other: &LentList) -> bool {
        self.comparable() == other.comparable()
    }
}

/// The pieces of an accepted PDU, which has been mended: where they are, and
/// whether the byte behind each is its CRC from this register.
pub fn pieces(pdu: &[u8], register: u8, reading: &Reading) -> Vec<Piece> {
    let listed = |piece: &referee::reading::Piece| {
        let end = piece.start + piece.length;
        Piece {
            start: piece.start as u16,
            length: piece.length as u16,
            right: u8::from(crc8_from(register, &pdu[piece.start..end]) == pdu[end]),
            unused: 0,
        }
    };
    reading.pieces.iter().map(listed).collect()
}

/// The refusal's number with a list of so many entries; 0 if it is filled. The
/// list is looked at last.
pub fn number(outcome: &Result<Reading, Refusal>, count: usize) -> u32 {
    match outcome {
        Err(refusal) => refusal.number,
        Ok(reading) if count < reading.pieces.len() => refusal::LOG,
        Ok(_) => 0,
    }
}

/// The lengths to be tried: none, one entry too few, just enough, one more, 64.
pub fn lengths(outcome: &Result<Reading, Refusal>, pdu: &Lent) -> [usize; 5] {
    let nop = match outcome {
        Ok(reading) => reading.pieces.len(),
        Err(_) => nop_said(pdu.bytes()),
    };
    [0, nop.saturating_sub(1), nop, nop + 1, 64]
}

/// NOP as the bytes of a refused PDU say it, 0 if they end before.
fn nop_said(pdu: &[u8]) -> usize {
    let word = pdu.get(control::FIRST..control::FIRST + control::BYTES);
    let word = word.and_then(|word| word.try_into().ok());
    usize::from(word.map_or(ControlWord::default(), control::decode).nop)
}

/// How often each outcome came.
#[derive(Default)]
pub struct Counts {
    pub calls: u64,
    pub taken: u64,
    /// By number.
    refused: BTreeMap<u32, u64>,
    /// Entries filled, by verdict.
    pub verdicts: BTreeMap<bool, u64>,
    /// Accepted, by how the list's length and NOP are and what it holds.
    pub looks: BTreeMap<&'static str, u64>,
}

impl Counts {
    /// Counts a call with this number; an accepted one filled these entries of
    /// a list of so many.
    pub fn count(&mut self, number: u32, pieces: &[Piece], count: usize) {
        self.calls += 1;
        if number != 0 {
            *self.refused.entry(number).or_default() += 1;
            return;
        }
        self.taken += 1;
        let right = pieces.iter().filter(|piece| piece.right == 1).count();
        let wrong = pieces.len() - right;
        *self.verdicts.entry(true).or_default() += right as u64;
        *self.verdicts.entry(false).or_default() += wrong as u64;
        for (look, is_so) in [
            ("no piece", pieces.is_empty()),
            ("one piece", pieces.len() == 1),
            ("41 pieces", pieces.len() == 41),
            ("42 pieces", pieces.len() == 42),
            ("54 pieces", pieces.len() == 54),
            ("55 pieces", pieces.len() == 55),
            ("63 pieces", pieces.len() == 63),
            ("just enough entries", pieces.len() == count),
            ("one entry more", pieces.len() + 1 == count),
            ("64 entries", count == 64),
            ("no entries", count == 0),
            ("one CRC wrong", wrong == 1),
            ("several CRCs wrong", wrong > 1),
            ("all CRCs wrong", wrong > 0 && right == 0),
            ("no CRC wrong", right > 0 && wrong == 0),
        ] {
            *self.looks.entry(look).or_default() += u64::from(is_so);
        }
    }

    pub fn add(&mut self, other: &Counts) {
        self.calls += other.calls;
        self.taken += other.taken;
        add(&mut self.refused, &other.refused);
        add(&mut self.verdicts, &other.verdicts);
        add(&mut self.looks, &other.looks);
    }

    pub fn refused_with(&self, number: u32) -> u64 {
        self.refused.get(&number).copied().unwrap_or(0)
    }

    /// Prints the counts.
    pub fn report(&self) {
        println!(
            "lists of pieces: {} calls, {} accepted, refused by number {:?}",
            self.calls, self.taken, self.refused
        );
        println!(
            "entries filled by whether the CRC is right: {:?}",
            self.verdicts
        );
        println!("lists filled, by how they are: {:?}", self.looks);
    }
}

/// Adds counts.
fn add<K: Copy + Ord>(to: &mut BTreeMap<K, u64>, other: &BTreeMap<K, u64>) {
    for (&key, &count) in other {
        *to.entry(key).or_default() += count;
    }
}
