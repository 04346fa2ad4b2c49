//! The packet log, words of 32 bits (document 01, "Receiver"): entries, the
//! words that the log's layout gives for them, and back.

/// What a note is about. Those about a piece tell which, from 0.
#[derive(Clone, Copy, Debug, PartialEq, Eq, PartialOrd, Ord)]
pub enum Note {
    /// 1: the sequence isn't the next.
    NotTheNext,
    /// 2: wrong CRC.
    WrongCrc(usize),
    /// 3: continuing with nothing held.
    NothingHeld(usize),
    /// 4: a beginning is held that the PDU doesn't continue.
    NotContinued,
    /// 5: over 4,096 bytes with what was held.
    TooLong(usize),
    /// 6: marked lost.
    Lost,
    /// 7: right CRCs in both copies, and other bytes in one than in the other
    /// (document 02, Ask 5).
    Differing(usize),
    /// 8: the PDU is withheld (document 02, Ask 10).
    Withheld,
}

impl Note {
    /// The number of the cause.
    pub fn cause(self) -> u32 {
        match self {
            Note::NotTheNext => 1,
            Note::WrongCrc(_) => 2,
            Note::NothingHeld(_) => 3,
            Note::NotContinued => 4,
            Note::TooLong(_) => 5,
            Note::Lost => 6,
            Note::Differing(_) => 7,
            Note::Withheld => 8,
        }
    }

    /// The piece; 0 if the note is about none.
    pub fn piece(self) -> usize {
        match self {
            Note::WrongCrc(k) | Note::NothingHeld(k) | Note::TooLong(k) | Note::Differing(k) => k,
            Note::NotTheNext | Note::NotContinued | Note::Lost | Note::Withheld => 0,
        }
    }

    /// The note with this cause about this piece, if there is one.
    fn of(cause: u32, piece: usize) -> Option<Note> {
        let note = match cause {
            1 => Note::NotTheNext,
            2 => Note::WrongCrc(piece),
            3 => Note::NothingHeld(piece),
            4 => Note::NotContinued,
            5 => Note::TooLong(piece),
            6 => Note::Lost,
            7 => Note::Differing(piece),
            8 => Note::Withheld,
            _ => return None,
        };
        (note.piece() == piece).then_some(note)
    }
}

/// An entry of the log.
#[derive(Clone, Debug, PartialEq, Eq)]
pub enum Entry {
    /// A packet with its number.
    Packet(u8, Vec<u8>),
    Psd(Vec<u8>),
    Note(Note),
}

/// The kinds of words, bits 31 and 30.
const PACKET: u32 = 0;
const DATA: u32 = 1;
const PSD: u32 = 2;
const NOTE: u32 = 3;

/// How many bytes a data word holds at most.
const DATA_BYTES: usize = 3;

impl Entry {
    /// The words of the entry.
    pub fn words(&self) -> Vec<u32> {
        match self {
            Entry::Packet(number, bytes) => {
                let first = PACKET << 30 | u32::from(*number) << 16 | bytes.len() as u32;
                [vec![first], data_words(bytes)].concat()
            }
            Entry::Psd(bytes) => {
                let first = PSD << 30 | bytes.len() as u32;
                [vec![first], data_words(bytes)].concat()
            }
            Entry::Note(note) => vec![NOTE << 30 | note.cause() << 16 | note.piece() as u32],
        }
    }
}

/// Data words: how many bytes in bits 25 and 24, the first byte in bits 23 to
/// 16, unused ones zero. All but the last are full.
fn data_words(bytes: &[u8]) -> Vec<u32> {
    bytes
        .chunks(DATA_BYTES)
        .map(|some| {
            let mut word = DATA << 30 | (some.len() as u32) << 24;
            for (place, &byte) in some.iter().enumerate() {
                word |= u32::from(byte) << (16 - 8 * place);
            }
            word
        })
        .collect()
}

/// The words of the entries, one after another.
pub fn words(entries: &[Entry]) -> Vec<u32> {
    entries.iter().flat_map(Entry::words).collect()
}

/// The entries that have these words; none if there are no such entries.
pub fn entries(words: &[u32]) -> Option<Vec<Entry>> {
    let mut entries = Vec::new();
    let mut left = words;
    while let Some(&first) = left.first() {
        let low = (first & 0xFFFF) as usize;
        let entry = match first >> 30 {
            PACKET => Entry::Packet((first >> 16 & 63) as u8, data_bytes(&left[1..], low)?),
            PSD => Entry::Psd(data_bytes(&left[1..], low)?),
            NOTE => Entry::Note(Note::of(first >> 16 & 0x3FFF, low)?),
            _ => return None,
        };
        // Bits that say nothing are zero, data words are full.
        let its_words = entry.words();
        if left[..its_words.len()] != its_words {
            return None;
        }
        left = &left[its_words.len()..];
        entries.push(entry);
    }
    Some(entries)
}

/// So many bytes out of full data words; none if there are too few words.
fn data_bytes(words: &[u32], count: usize) -> Option<Vec<u8>> {
    let words = words.get(..count.div_ceil(DATA_BYTES))?;
    let mut bytes: Vec<u8> = words
        .iter()
        .flat_map(|word| [16, 8, 0].map(|shift| (word >> shift) as u8))
        .collect();
    bytes.truncate(count);
    Some(bytes)
}

#[cfg(test)]
mod tests {
    use super::*;
    use crate::rng::Rng;

    #[test]
    fn example_n() {
        let packet = Entry::Packet(5, vec![0x11, 0x22, 0x33, 0x44]);
        let wanted = [0x0005_0004, 0x4311_2233, 0x4144_0000];
        assert_eq!(packet.words(), wanted);
        assert_eq!(entries(&wanted), Some(vec![packet]));
    }

    #[test]
    fn every_kind() {
        let all = [
            Entry::Note(Note::NotTheNext),
            Entry::Psd(vec![0xAB]),
            Entry::Note(Note::WrongCrc(40)),
            Entry::Note(Note::NothingHeld(0)),
            Entry::Note(Note::NotContinued),
            Entry::Note(Note::TooLong(53)),
            Entry::Note(Note::Lost),
            Entry::Note(Note::Differing(62)),
            Entry::Packet(63, vec![1, 2, 3, 4, 5]),
            Entry::Packet(0, vec![9, 8, 7]),
        ];
        let wanted = [
            0xC001_0000,
            0x8000_0001,
            0x41AB_0000,
            0xC002_0028,
            0xC003_0000,
            0xC004_0000,
            0xC005_0035,
            0xC006_0000,
            0xC007_003E,
            0x003F_0005,
            0x4301_0203,
            0x4204_0500,
            0x0000_0003,
            0x4309_0807,
        ];
        assert_eq!(words(&all), wanted);
        assert_eq!(entries(&wanted).as_deref(), Some(&all[..]));
    }

    #[test]
    fn there_and_back() {
        let mut rng = Rng::new(0x106);
        for length in (1..=600).chain(4_090..=4_096) {
            let mut bytes = vec![0; length];
            rng.fill(&mut bytes);
            let number = rng.below(64) as u8;
            let packet = Entry::Packet(number, bytes.clone());
            let words = packet.words();
            assert_eq!(words.len(), 1 + length.div_ceil(3));
            let whole = [words.clone(), Entry::Psd(bytes).words(), words.clone()].concat();
            let back = entries(&whole).unwrap();
            assert_eq!((&back[0], &back[2]), (&packet, &packet));
            assert_eq!(super::words(&back), whole);
            // Cut or with a bit that says nothing.
            assert_eq!(entries(&whole[..whole.len() - 1]), None);
            assert_eq!(entries(&whole[1..]), None);
            for bit in 22..30 {
                let mut wrong = words.clone();
                wrong[0] |= 1 << bit;
                assert_eq!(entries(&wrong), None);
            }
        }
        for wrong in [
            0xC000_0000,
            0xC009_0000,
            0xC006_0001,
            0xC008_0001,
            0x4100_0000,
        ] {
            assert_eq!(entries(&[wrong]), None);
        }
    }
}
