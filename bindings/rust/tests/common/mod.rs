//! What the tests share: the table of modes, repeatable random numbers, and
//! damage to headers.

#![allow(dead_code)]

use barzhilup::{Mode, Stream};

/// A row of the table of document 01, "Modes".
#[derive(Clone, Copy, Debug)]
pub struct Row {
    pub mode: Mode,
    pub stream: Stream,
    pub locator_bits: usize,
    pub sequences: u8,
    /// The most PSD that a PDU without expansion may have.
    pub psd: usize,
}

const fn row(mode: Mode, stream: Stream, locator_bits: usize, sequences: u8, psd: usize) -> Row {
    Row {
        mode,
        stream,
        locator_bits,
        sequences,
        psd,
    }
}

/// Each mode and stream of the table.
pub const TABLE: [Row; 10] = [
    row(Mode::M0, Stream::Core, 16, 2, 128),
    row(Mode::M1, Stream::Core, 12, 8, 21),
    row(Mode::M2, Stream::Core, 12, 8, 21),
    row(Mode::M3, Stream::Core, 12, 8, 21),
    row(Mode::M1, Stream::Enhanced, 16, 2, 0),
    row(Mode::M2, Stream::Enhanced, 16, 2, 0),
    row(Mode::M3, Stream::Enhanced, 16, 2, 0),
    row(Mode::M10, Stream::Core, 12, 2, 128),
    row(Mode::M10, Stream::Enhanced, 12, 8, 0),
    row(Mode::M13, Stream::Core, 12, 8, 21),
];

/// Repeatable random numbers.
pub struct Random(u64);

impl Random {
    /// Numbers that this seed, which is not 0, decides.
    pub fn new(seed: u64) -> Random {
        Random(seed)
    }

    /// A number below `limit`.
    pub fn below(&mut self, limit: usize) -> usize {
        self.0 ^= self.0 << 13;
        self.0 ^= self.0 >> 7;
        self.0 ^= self.0 << 17;
        (self.0 >> 16) as usize % limit
    }

    /// So many bytes.
    pub fn bytes(&mut self, length: usize) -> Vec<u8> {
        (0..length).map(|_| self.below(256) as u8).collect()
    }

    /// So many packets of 1 to `longest` bytes.
    pub fn packets(&mut self, count: usize, longest: usize) -> Vec<Vec<u8>> {
        (0..count)
            .map(|_| {
                let length = 1 + self.below(longest);
                self.bytes(length)
            })
            .collect()
    }

    /// Marks so many places of a header, alters every other one of these, and so
    /// many other bytes. Answers the marks, and how many bytes are altered.
    pub fn alter_marked(
        &mut self,
        pdu: &mut [u8],
        marks: usize,
        others: usize,
    ) -> (Vec<u8>, usize) {
        let mut places = Vec::new();
        while places.len() < marks + others {
            let place = self.below(96);
            if !places.contains(&place) {
                places.push(place);
            }
        }
        let (marked, unmarked) = places.split_at(marks);
        let altered: Vec<usize> = marked.iter().step_by(2).chain(unmarked).copied().collect();
        for &place in &altered {
            pdu[place] ^= 1 + self.below(255) as u8;
        }
        let marked = marked.iter().map(|&place| place as u8).collect();
        (marked, altered.len())
    }

    /// Alters so many bytes of a header, each at another place.
    pub fn alter(&mut self, pdu: &mut [u8], count: usize) {
        let clean = pdu.to_vec();
        let mut altered = 0;
        while altered < count {
            let place = self.below(96);
            if pdu[place] == clean[place] {
                pdu[place] ^= 1 + self.below(255) as u8;
                altered += 1;
            }
        }
    }
}
