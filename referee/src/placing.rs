//! Which pieces of the offered packets a PDU takes (document 01, "Writer"; the
//! count limit, document 02, Ask 9).

use crate::control::MOST_PIECES;
use crate::locators;

/// The largest La that its byte can say.
const LARGEST_LA: usize = 255;

/// A piece of an offered packet.
#[derive(Clone, Copy, Debug, PartialEq, Eq)]
pub struct Piece {
    /// Which of the offered packets, from 0.
    pub packet: usize,
    /// Which of its bytes is the first, from 0.
    pub first: usize,
    /// How many bytes.
    pub length: usize,
    /// Whether the packet ends with it.
    pub ends: bool,
}

/// What the pieces have to fit into.
#[derive(Clone, Copy, Debug, PartialEq, Eq)]
pub struct Room {
    /// R, the PDU length.
    pub length: usize,
    pub locator_bits: usize,
    /// How many bytes expansion and PSD have together.
    pub expansion_and_psd: usize,
}

impl Room {
    /// The overhead with k pieces: 14, plus locator bytes rounded up, plus
    /// expansion and PSD.
    pub fn overhead(&self, k: usize) -> usize {
        14 + locators::bytes(self.locator_bits, k) + self.expansion_and_psd
    }

    /// La with k pieces: the place of the last byte of the overhead.
    pub fn la(&self, k: usize) -> usize {
        self.overhead(k) - 1
    }

    /// The count limit: the largest k up to 63 for which La is at most 255
    /// (document 02, Ask 9). There is none where expansion and PSD alone go past
    /// that, which no mode's column allows.
    pub fn count_limit(&self) -> Option<usize> {
        (0..=MOST_PIECES).rev().find(|&k| self.la(k) <= LARGEST_LA)
    }

    /// Whether k may be so large.
    fn allows(&self, k: usize) -> bool {
        self.count_limit().is_some_and(|limit| k <= limit)
    }

    /// How many bytes the pieces take, each with its CRC, with the overhead
    /// for k pieces.
    fn taken(&self, k: usize, pieces: &[Piece]) -> usize {
        let with_crc: usize = pieces.iter().map(|piece| piece.length + 1).sum();
        self.overhead(k) + with_crc
    }
}

/// The pieces that are placed, when packets of these lengths are offered and
/// so many bytes of the first one are already sent, fewer than it has.
pub fn place(room: &Room, sent: usize, lengths: &[usize]) -> Vec<Piece> {
    let mut pieces = Vec::new();
    // Whole remainders, while overhead and pieces with CRC fit R and k is
    // within the limit.
    for (packet, &length) in lengths.iter().enumerate() {
        let first = first_byte(packet, sent);
        pieces.push(Piece {
            packet,
            first,
            length: length - first,
            ends: true,
        });
        let k = pieces.len();
        if !room.allows(k) || room.taken(k, &pieces) > room.length {
            pieces.pop();
            break;
        }
    }
    // Then, if there is a next one, k may grow and one byte with CRC fits, a
    // part of it, as long as fits.
    let next = pieces.len();
    let k = next + 1;
    if next < lengths.len() && room.allows(k) {
        let taken = room.taken(k, &pieces);
        if taken + 2 <= room.length {
            pieces.push(Piece {
                packet: next,
                first: first_byte(next, sent),
                length: room.length - taken - 1,
                ends: false,
            });
        }
    }
    pieces
}

/// The first byte of an offered packet that isn't sent yet.
fn first_byte(packet: usize, sent: usize) -> usize {
    if packet == 0 {
        sent
    } else {
        0
    }
}

#[cfg(test)]
mod tests {
    use super::*;
    use crate::rng::Rng;

    /// Mode 0 in 96 bytes.
    const SHORT: Room = Room {
        length: 96,
        locator_bits: 16,
        expansion_and_psd: 0,
    };

    fn whole(packet: usize, first: usize, length: usize) -> Piece {
        Piece {
            packet,
            first,
            length,
            ends: true,
        }
    }

    fn part(packet: usize, first: usize, length: usize) -> Piece {
        Piece {
            ends: false,
            ..whole(packet, first, length)
        }
    }

    #[test]
    fn examples_j_k_l() {
        assert_eq!(place(&SHORT, 0, &[100]), [part(0, 0, 79)]);
        let k = place(&SHORT, 79, &[100, 50]);
        assert_eq!(k, [whole(0, 79, 21), whole(1, 0, 50)]);
        let l = place(&SHORT, 79, &[100, 56]);
        assert_eq!(l, [whole(0, 79, 21), part(1, 0, 55)]);
    }

    #[test]
    fn nothing_offered() {
        assert_eq!(place(&SHORT, 0, &[]), []);
        assert_eq!(SHORT.overhead(0), 14);
    }

    /// The first remainder that doesn't fit whole ends the whole ones, and
    /// the overhead counts the grown k.
    #[test]
    fn edges() {
        // 18 with two pieces; 75 bytes and a CRC leave two, which one byte
        // with its CRC takes.
        assert_eq!(
            place(&SHORT, 0, &[75, 1]),
            [whole(0, 0, 75), whole(1, 0, 1)]
        );
        assert_eq!(place(&SHORT, 0, &[75, 2]), [whole(0, 0, 75), part(1, 0, 1)]);
        assert_eq!(place(&SHORT, 0, &[76, 1]), [whole(0, 0, 76)]);
        assert_eq!(place(&SHORT, 0, &[79, 1]), [whole(0, 0, 79)]);
        assert_eq!(place(&SHORT, 0, &[80, 1]), [part(0, 0, 79)]);
        assert_eq!(
            place(&SHORT, 0, &[10, 100, 1]),
            [whole(0, 0, 10), part(1, 0, 66)]
        );
    }

    /// The limit for each size of expansion and PSD, by another way: in 16 bits
    /// each piece takes two of the 242 bytes that La can tell from 14 on, in 12
    /// bits a pair of them takes three, and an odd last one two.
    #[test]
    fn count_limits() {
        for bits in [16, 12] {
            for expansion_and_psd in 0..=242 {
                let room = Room {
                    length: 4_096,
                    locator_bits: bits,
                    expansion_and_psd,
                };
                let left = 242 - expansion_and_psd;
                let fit = match bits {
                    16 => left / 2,
                    _ => left / 3 * 2 + usize::from(left % 3 == 2),
                };
                assert_eq!(room.count_limit(), Some(fit.min(63)));
            }
        }
        let limit = |bits, expansion_and_psd| {
            let room = Room {
                length: 4_096,
                locator_bits: bits,
                expansion_and_psd,
            };
            room.count_limit()
        };
        let wide = [0, 116, 117, 118, 119, 127, 128, 242, 243].map(|both| limit(16, both));
        let wanted = [63, 63, 62, 62, 61, 57, 57, 0].map(Some);
        assert_eq!(wide[..8], wanted);
        assert_eq!((wide[8], limit(12, 128)), (None, Some(63)));
    }

    /// At the limit of pieces no part is placed either.
    #[test]
    fn limits_of_pieces() {
        for (bits, expansion_and_psd, limit) in [
            (16, 0, 63),
            (16, 116, 63),
            (16, 117, 62),
            (16, 128, 57),
            (12, 0, 63),
            (12, 128, 63),
        ] {
            for packet in [1, 5] {
                let room = Room {
                    length: 4_096,
                    locator_bits: bits,
                    expansion_and_psd,
                };
                let pieces = place(&room, 0, &vec![packet; limit + 1]);
                assert_eq!(pieces.len(), limit);
                assert!(pieces.iter().all(|piece| piece.ends));
                // With the last one cut, no more than the limit either.
                let mut lengths = vec![packet; limit + 1];
                lengths[limit - 1] = 4_096;
                let pieces = place(&room, 0, &lengths);
                assert_eq!(pieces.len(), limit);
                assert!(!pieces[limit - 1].ends);
            }
        }
    }

    /// How many bytes are sent, by another way: the most, from the first
    /// unsent byte on, of which the pieces fit R with overhead and CRCs.
    fn most_bytes(room: &Room, sent: usize, lengths: &[usize]) -> usize {
        let total = lengths.iter().sum::<usize>() - sent;
        let fits = |bytes: usize| {
            let mut pieces = 0;
            let mut begin = 0;
            for (packet, length) in lengths.iter().enumerate() {
                if begin < bytes {
                    pieces += 1;
                }
                begin += length - first_byte(packet, sent);
            }
            let locator_bytes = match room.locator_bits {
                16 => 2 * pieces,
                _ => 3 * (pieces / 2) + 2 * (pieces % 2),
            };
            let before = 14 + locator_bytes + room.expansion_and_psd;
            let taken = before + bytes + pieces;
            pieces <= 63 && before <= 256 && taken <= room.length
        };
        (0..=total)
            .rev()
            .find(|&bytes| fits(bytes))
            .expect("no byte always fits")
    }

    #[test]
    fn both_ways_of_placing_agree() {
        let seed = 0x0001_91AC;
        println!("seed {seed:#x}");
        let mut rng = Rng::new(seed);
        for case in 0..20_000 {
            let (shortest, expansion_and_psd) =
                [(96, rng.below(79)), (150, rng.within(100, 128))][rng.below(2)];
            let room = Room {
                length: shortest + rng.below([2, 40, 300, 900][case % 4]),
                locator_bits: [12, 16][rng.below(2)],
                expansion_and_psd,
            };
            let longest = [1, 3, 20, 60, 300][rng.below(5)];
            let lengths: Vec<usize> = (0..rng.within(1, 80))
                .map(|_| rng.within(1, longest))
                .collect();
            let sent = rng.below(lengths[0]);
            let pieces = place(&room, sent, &lengths);
            let placed: usize = pieces.iter().map(|piece| piece.length).sum();
            assert_eq!(placed, most_bytes(&room, sent, &lengths));
            for (index, piece) in pieces.iter().enumerate() {
                assert_eq!(piece.packet, index);
                assert_eq!(piece.first, first_byte(index, sent));
                assert!(piece.length > 0);
                let end = piece.first + piece.length;
                assert_eq!(piece.ends, end == lengths[index]);
                assert!(piece.ends || index + 1 == pieces.len());
            }
        }
    }
}
