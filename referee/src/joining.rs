//! Core and enhanced side by side (document 02, Ask 11): two logs of one frame
//! joined by packet number, with the refusals 23, 24 and 13.

use crate::refusal;

/// The longest packet that a log may have.
pub const LONGEST_PACKET: usize = 4_096;

/// Set in the first word of a joined enhanced packet.
pub const ENHANCED: u32 = 1 << 29;

/// Each single cause for which words are no log: number 23.
#[derive(Clone, Copy, Debug, PartialEq, Eq, PartialOrd, Ord)]
pub enum Defect {
    /// A data word is missing.
    Missing,
    /// A data word is left over.
    LeftOver,
    /// A data word has another count of bytes than are to come.
    Counted,
    /// A data word before the last has fewer than three bytes.
    NotByThrees,
    /// A bit is set that has no meaning.
    Bit,
    LengthZero,
    PacketOver4096,
}

/// A packet of a log with all its words.
#[derive(Clone, Debug, PartialEq, Eq)]
pub struct Packet {
    pub number: u32,
    pub words: Vec<u32>,
}

/// The bits from `low` to `high` of a word.
fn bits(word: u32, high: u32, low: u32) -> u32 {
    word >> low & ((1u64 << (high - low + 1)) - 1) as u32
}

/// The packets of a log, or why these words are none.
pub fn packets(words: &[u32]) -> Result<Vec<Packet>, Defect> {
    let mut packets = Vec::new();
    let mut place = 0;
    while place < words.len() {
        let first = words[place];
        let length = bits(first, 15, 0) as usize;
        let begin = place;
        place += 1;
        match bits(first, 31, 30) {
            0 if bits(first, 29, 22) != 0 => return Err(Defect::Bit),
            0 if length > LONGEST_PACKET => return Err(Defect::PacketOver4096),
            0 => {
                place += data(&words[place..], length)?;
                packets.push(Packet {
                    number: bits(first, 21, 16),
                    words: words[begin..place].to_vec(),
                });
            }
            1 => return Err(Defect::LeftOver),
            2 if bits(first, 29, 16) != 0 => return Err(Defect::Bit),
            2 => place += data(&words[place..], length)?,
            _ => (),
        }
    }
    Ok(packets)
}

/// How many of these words are the data words of so many bytes.
fn data(words: &[u32], length: usize) -> Result<usize, Defect> {
    if length == 0 {
        return Err(Defect::LengthZero);
    }
    let count = length.div_ceil(3);
    for place in 0..count {
        let Some(&word) = words.get(place).filter(|&&word| bits(word, 31, 30) == 1) else {
            return Err(Defect::Missing);
        };
        let wanted = (length - 3 * place).min(3);
        let bytes = bits(word, 25, 24) as usize;
        if bits(word, 29, 26) != 0 {
            return Err(Defect::Bit);
        }
        if bytes != wanted {
            let last = place + 1 == count;
            return Err(if last {
                Defect::Counted
            } else {
                Defect::NotByThrees
            });
        }
        if (bytes..3).any(|unused| bits(word, 23 - 8 * unused as u32, 16 - 8 * unused as u32) != 0)
        {
            return Err(Defect::Bit);
        }
    }
    Ok(count)
}

/// Whether the numbers, counted from the first, modulo 64, rise strictly.
fn rise(packets: &[Packet]) -> bool {
    let Some(first) = packets.first() else {
        return true;
    };
    let counted = |packet: &Packet| (packet.number + 64 - first.number) % 64;
    packets
        .windows(2)
        .all(|two| counted(&two[0]) < counted(&two[1]))
}

/// The words of the result, for a buffer of so many words; or the refusal's
/// number: 23, 24, then 13.
pub fn join(core: &[u32], enhanced: &[u32], room: usize) -> Result<Vec<u32>, u32> {
    let (Ok(core), Ok(enhanced)) = (packets(core), packets(enhanced)) else {
        return Err(refusal::LOG_WORDS);
    };
    if !core.is_empty() && !(rise(&core) && rise(&enhanced)) {
        return Err(refusal::NUMBERS);
    }
    let mut result = Vec::new();
    for packet in &core {
        result.extend(&packet.words);
        let partner = enhanced.iter().find(|other| other.number == packet.number);
        if let Some(partner) = partner {
            result.push(partner.words[0] | ENHANCED);
            result.extend(&partner.words[1..]);
        }
    }
    if room < result.len() {
        return Err(refusal::LOG);
    }
    Ok(result)
}

#[cfg(test)]
mod tests {
    use super::*;

    /// A packet of one byte with each of these numbers.
    fn log(numbers: &[u32]) -> Vec<u32> {
        numbers
            .iter()
            .flat_map(|number| [number << 16 | 1, 0x4107_0000])
            .collect()
    }

    #[test]
    fn over_the_turn() {
        let result = join(&log(&[62, 63, 0]), &log(&[63, 0]), 10).unwrap();
        let firsts: Vec<u32> = result.into_iter().step_by(2).collect();
        let wanted = [
            0x003E_0001,
            0x003F_0001,
            0x203F_0001,
            0x0000_0001,
            0x2000_0001,
        ];
        assert_eq!(firsts, wanted);
        assert_eq!(join(&log(&[62, 63, 0]), &log(&[63, 0]), 9), Err(13));
    }

    #[test]
    fn order_of_refusals() {
        let result = join(&log(&[5]), &log(&[5]), 4).unwrap();
        assert_eq!(join(&result, &log(&[3, 3]), 0), Err(23));
        assert_eq!(join(&log(&[3, 3]), &result, 0), Err(23));
        assert_eq!(join(&log(&[3, 3]), &log(&[1]), 0), Err(24));
        assert_eq!(join(&log(&[1]), &log(&[3, 5, 4]), 0), Err(24));
        assert_eq!(join(&[], &log(&[3, 5, 4]), 0), Ok(vec![]));
        assert_eq!(join(&[0xC006_0000], &log(&[3, 5, 4]), 0), Ok(vec![]));
    }
}
