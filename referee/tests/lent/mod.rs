//! What is lent to the product: buffers with guards on both sides.

#![allow(dead_code)]

use referee::header::Header;
use referee::rng::Rng;

/// How many guard bytes stand on each side of a lent buffer, at least. A whole
/// header fits behind the shortest buffer.
const GUARD: usize = 104;

/// A buffer to be lent to the product. Bytes before and after it belong to
/// nobody and must never change; comparing two compares these as well.
#[derive(Clone, PartialEq, Eq)]
pub struct Lent {
    bytes: Vec<u8>,
    start: usize,
    length: usize,
}

impl Lent {
    /// A buffer of the length, filled at random, beginning at any alignment.
    pub fn random(rng: &mut Rng, length: usize) -> Lent {
        let start = GUARD + rng.below(8);
        let mut bytes = vec![0; start + length + GUARD];
        rng.fill(&mut bytes);
        Lent {
            bytes,
            start,
            length,
        }
    }

    /// A buffer that holds these bytes.
    pub fn of(rng: &mut Rng, bytes: &[u8]) -> Lent {
        let mut lent = Lent::random(rng, bytes.len());
        lent.bytes_mut().copy_from_slice(bytes);
        lent
    }

    /// The lent bytes.
    pub fn bytes(&self) -> &[u8] {
        &self.bytes[self.start..self.start + self.length]
    }

    /// The lent bytes, to be changed.
    pub fn bytes_mut(&mut self) -> &mut [u8] {
        &mut self.bytes[self.start..self.start + self.length]
    }

    /// Puts a header at the beginning. Behind a shorter buffer it goes on
    /// into the guard.
    pub fn put_header(&mut self, header: &Header) {
        self.bytes[self.start..self.start + header.len()].copy_from_slice(header);
    }

    /// Where two buffers differ: places counted from the lent bytes' first,
    /// negative ones before it. At most the first ten are told.
    pub fn differences(&self, other: &Lent) -> String {
        assert_eq!(self.bytes.len(), other.bytes.len());
        let places: Vec<isize> = (0..self.bytes.len())
            .filter(|&place| self.bytes[place] != other.bytes[place])
            .map(|place| place as isize - self.start as isize)
            .collect();
        let told = &places[..places.len().min(10)];
        format!("{} bytes differ, at {told:?}", places.len())
    }
}

/// Packet lengths to be lent to the product, between guards as well.
#[derive(Clone, PartialEq, Eq)]
pub struct LentLengths {
    words: Vec<u16>,
    start: usize,
    count: usize,
}

impl LentLengths {
    /// These lengths between random guards.
    pub fn of(rng: &mut Rng, lengths: &[u16]) -> LentLengths {
        let start = 4 + rng.below(4);
        let mut words: Vec<u16> = (0..start).map(|_| rng.bits() as u16).collect();
        words.extend(lengths);
        words.extend((0..4).map(|_| rng.bits() as u16));
        LentLengths {
            words,
            start,
            count: lengths.len(),
        }
    }

    /// The lent lengths.
    pub fn words(&self) -> &[u16] {
        &self.words[self.start..self.start + self.count]
    }

    /// The lent lengths, as they are handed over.
    pub fn words_mut(&mut self) -> &mut [u16] {
        &mut self.words[self.start..self.start + self.count]
    }
}

/// A log to be lent to the product, between guards as well.
#[derive(Clone, PartialEq, Eq)]
pub struct LentLog {
    words: Vec<u32>,
    start: usize,
    count: usize,
}

impl LentLog {
    /// So many random words between random guards.
    pub fn random(rng: &mut Rng, count: usize) -> LentLog {
        let start = 4 + rng.below(4);
        let all = start + count + 4;
        LentLog {
            words: (0..all).map(|_| rng.bits() as u32).collect(),
            start,
            count,
        }
    }

    /// These words between random guards.
    pub fn of(rng: &mut Rng, words: &[u32]) -> LentLog {
        let mut log = LentLog::random(rng, 0);
        log.words
            .splice(log.start..log.start, words.iter().copied());
        log.count = words.len();
        log
    }

    /// The lent words.
    pub fn words(&self) -> &[u32] {
        &self.words[self.start..self.start + self.count]
    }

    /// The lent words, to be changed.
    pub fn words_mut(&mut self) -> &mut [u32] {
        &mut self.words[self.start..self.start + self.count]
    }

    /// Where two logs differ, counted as for bytes.
    pub fn differences(&self, other: &LentLog) -> String {
        assert_eq!(self.words.len(), other.words.len());
        let places: Vec<isize> = (0..self.words.len())
            .filter(|&place| self.words[place] != other.words[place])
            .map(|place| place as isize - self.start as isize)
            .collect();
        let told = &places[..places.len().min(10)];
        format!("{} words differ, at {told:?}", places.len())
    }
}

/// Lengths of PDUs to be lent to the product, between guards as well.
#[derive(Clone, PartialEq, Eq)]
pub struct LentSizes {
    sizes: Vec<usize>,
    start: usize,
    count: usize,
}

impl LentSizes {
    /// These lengths between random guards.
    pub fn of(rng: &mut Rng, lengths: &[usize]) -> LentSizes {
        let start = 4 + rng.below(4);
        let mut sizes: Vec<usize> = (0..start).map(|_| rng.bits() as usize).collect();
        sizes.extend(lengths);
        sizes.extend((0..4).map(|_| rng.bits() as usize));
        LentSizes {
            sizes,
            start,
            count: lengths.len(),
        }
    }

    /// The lent lengths.
    pub fn sizes(&self) -> &[usize] {
        &self.sizes[self.start..self.start + self.count]
    }
}
