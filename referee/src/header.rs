//! The header code: the first 96 bytes of a PDU are a code word when their
//! eight sums S1 to S8 are zero. Byte i is the coefficient of X^i, bytes 0 to
//! 7 are parity, and up to four altered bytes can be mended.

use crate::erasures;
use crate::field::{inverse, power_of_a, product};
use crate::linear::bytes_with_sums;
use crate::refusal;

/// How many bytes of a PDU the header code covers.
pub const PLACES: usize = 96;

/// How many of them are parity, and how many sums there are.
pub const SUMS: usize = 8;

/// How many altered bytes can be mended.
pub const MENDABLE: usize = 4;

/// The longest PDU.
pub const LONGEST: usize = 20_480;

/// The first 96 bytes of a PDU.
pub type Header = [u8; PLACES];

/// The generator polynomial's coefficients as exponents of a, constant first.
pub const GENERATOR_EXPONENTS: [usize; 9] = [36, 203, 3, 220, 253, 211, 240, 176, 0];

/// The generator polynomial's coefficients, constant first.
pub fn generator() -> [u8; 9] {
    GENERATOR_EXPONENTS.map(power_of_a)
}

/// The sums S1 to S8: Sj is the sum of byte i times a^(i times j).
pub fn syndromes(header: &Header) -> [u8; SUMS] {
    let mut sums = [0; SUMS];
    for j in 1..=SUMS {
        let factors: Header = std::array::from_fn(|i| power_of_a(i * j));
        for (&byte, &factor) in header.iter().zip(&factors) {
            sums[j - 1] ^= product(byte, factor);
        }
    }
    sums
}

/// Whether the sums of the header are all zero.
pub fn is_code_word(header: &Header) -> bool {
    syndromes(header) == [0; SUMS]
}

/// The parity for bytes 8 to 95: the eight bytes which at places 0 to 7 make
/// every sum zero. Found by solving the eight equations.
pub fn parity(header: &Header) -> [u8; SUMS] {
    let mut bare = *header;
    bare[..SUMS].fill(0);
    parity_with_sums(&syndromes(&bare))
}

/// The eight bytes which, alone at places 0 to 7, have the given sums.
pub fn parity_with_sums(sums: &[u8; SUMS]) -> [u8; SUMS] {
    let places: Vec<usize> = (0..SUMS).collect();
    bytes_with_sums(&places, sums)
        .try_into()
        .expect("eight bytes")
}

/// The parity again, from the generator polynomial: what is left of bytes 8
/// to 95 when multiples of the generator are taken away from the top down.
pub fn parity_by_division(header: &Header) -> [u8; SUMS] {
    let generator = generator();
    let mut rest = *header;
    rest[..SUMS].fill(0);
    for top in (SUMS..PLACES).rev() {
        let factor = rest[top];
        for (k, &coefficient) in generator.iter().enumerate() {
            rest[top - SUMS + k] ^= product(coefficient, factor);
        }
    }
    rest[..SUMS].try_into().expect("eight bytes")
}

/// The code word that differs from the header in at most four of its 96
/// bytes, and in how many it differs; none if there is no such code word. It
/// is what correcting finds where no place is marked.
pub fn correct(header: &Header) -> Option<(Header, u32)> {
    erasures::correct(header, &[])
}

/// In how many bytes two headers differ.
pub fn differing(one: &Header, other: &Header) -> usize {
    one.iter().zip(other).filter(|(x, y)| x != y).count()
}

/// The shortest recurrence behind the sums (Berlekamp and Massey): with its
/// length L and coefficients c0 = 1, c1 to cL, each sum from the L-th on
/// fulfils Sn + c1 S(n-1) + ... + cL S(n-L) = 0. If the sums come from w
/// altered bytes, w at most half as many as there are sums, then L is w and
/// the polynomial with these coefficients is zero exactly at a^-i for the
/// altered places i.
pub fn shortest_recurrence(sums: &[u8]) -> (Vec<u8>, usize) {
    let mut current = vec![0u8; sums.len() + 2];
    current[0] = 1;
    let mut length = 0;
    // The recurrence before the last lengthening, by how much it failed
    // there, and how many steps ago that was.
    let mut earlier = current.clone();
    let mut earlier_miss = 1;
    let mut steps = 1;
    for n in 0..sums.len() {
        let mut miss = 0;
        for k in 0..=length {
            miss ^= product(current[k], sums[n - k]);
        }
        if miss == 0 {
            steps += 1;
            continue;
        }
        let before = current.clone();
        let scale = product(miss, inverse(earlier_miss));
        for k in steps..current.len() {
            current[k] ^= product(scale, earlier[k - steps]);
        }
        if 2 * length <= n {
            length = n + 1 - length;
            earlier = before;
            earlier_miss = miss;
            steps = 1;
        } else {
            steps += 1;
        }
    }
    current.truncate(length + 1);
    (current, length)
}

/// The value of a polynomial, constant first, at a point.
pub fn value_at(coefficients: &[u8], point: u8) -> u8 {
    coefficients
        .iter()
        .rev()
        .fold(0, |value, &coefficient| product(value, point) ^ coefficient)
}

/// Refuses a PDU length that isn't 96 to 20,480.
pub fn check_length(pdu: &[u8]) -> Result<(), u32> {
    if (PLACES..=LONGEST).contains(&pdu.len()) {
        Ok(())
    } else {
        Err(refusal::LENGTH)
    }
}

/// The first 96 bytes of a PDU that is long enough.
pub fn header_of(pdu: &[u8]) -> Header {
    pdu[..PLACES].try_into().expect("96 bytes")
}

/// Mends the header of a lent PDU and answers how many bytes differed, or the
/// number of the refusal; then the PDU is left as it was.
pub fn mend_pdu(pdu: &mut [u8]) -> Result<u32, u32> {
    erasures::correct_pdu(pdu, &[])
}

/// Writes the parity into bytes 0 to 7 of a lent PDU, or answers the number
/// of the refusal; then the PDU is left as it was.
pub fn write_parity(pdu: &mut [u8]) -> Result<(), u32> {
    check_length(pdu)?;
    let parity = parity(&header_of(pdu));
    pdu[..SUMS].copy_from_slice(&parity);
    Ok(())
}

#[cfg(test)]
mod tests {
    use super::*;
    use crate::rng::Rng;
    use crate::search::Search;

    /// The generator's coefficients in bytes 0 to 8, the rest zero.
    fn generator_header() -> Header {
        let mut header = [0; PLACES];
        header[..9].copy_from_slice(&generator());
        header
    }

    /// All ways to zero so many of the nine bytes.
    fn zeroed(count: u32) -> Vec<Header> {
        (0..1u32 << 9)
            .filter(|choice| choice.count_ones() == count)
            .map(|choice| {
                let mut header = generator_header();
                for (place, byte) in header[..9].iter_mut().enumerate() {
                    if (choice >> place) & 1 != 0 {
                        *byte = 0;
                    }
                }
                header
            })
            .collect()
    }

    fn random_code_word(rng: &mut Rng) -> Header {
        let mut header = [0; PLACES];
        rng.fill(&mut header);
        let parity = parity(&header);
        header[..SUMS].copy_from_slice(&parity);
        header
    }

    #[test]
    fn example_g() {
        assert!(generator().iter().all(|&byte| byte != 0));
        assert!(is_code_word(&generator_header()));
        assert_eq!(correct(&generator_header()), Some((generator_header(), 0)));
    }

    #[test]
    fn example_h() {
        let choices = zeroed(4);
        assert_eq!(choices.len(), 126);
        for header in choices {
            assert_eq!(correct(&header), Some((generator_header(), 4)));
        }
    }

    #[test]
    fn example_i() {
        let choices = zeroed(5);
        assert_eq!(choices.len(), 126);
        for header in choices {
            assert_eq!(correct(&header), Some(([0; PLACES], 4)));
        }
    }

    #[test]
    fn length_95_is_refused_with_3() {
        let mut rng = Rng::new(95);
        for length in [0, 1, 94, 95, 20_481, 20_500] {
            let mut pdu = vec![0; length];
            rng.fill(&mut pdu);
            let before = pdu.clone();
            assert_eq!(mend_pdu(&mut pdu), Err(3));
            assert_eq!(pdu, before);
            assert_eq!(write_parity(&mut pdu), Err(3));
            assert_eq!(pdu, before);
        }
        for length in [96, 97, 20_479, 20_480] {
            let mut pdu = vec![0; length];
            rng.fill(&mut pdu);
            let before = pdu.clone();
            assert_eq!(write_parity(&mut pdu), Ok(()));
            assert_eq!(pdu[SUMS..], before[SUMS..]);
            let written = pdu.clone();
            assert_eq!(mend_pdu(&mut pdu), Ok(0));
            assert_eq!(pdu, written);
            pdu[95] ^= 1;
            pdu[0] ^= 255;
            assert_eq!(mend_pdu(&mut pdu), Ok(2));
            assert_eq!(pdu, written);
        }
    }

    #[test]
    fn generator_is_zero_at_a_to_a8() {
        let mut multiplied = vec![1u8];
        for j in 1..=SUMS {
            // Times (X + a^j).
            let root = power_of_a(j);
            let mut longer = vec![0; multiplied.len() + 1];
            for (k, &coefficient) in multiplied.iter().enumerate() {
                longer[k] ^= product(coefficient, root);
                longer[k + 1] ^= coefficient;
            }
            multiplied = longer;
        }
        assert_eq!(multiplied, generator());
    }

    /// The sums as values of the polynomial: Sj is its value at a^j.
    #[test]
    fn sums_are_values_at_the_powers_of_a() {
        let mut rng = Rng::new(0x5005);
        for _ in 0..1000 {
            let mut header = [0; PLACES];
            rng.fill(&mut header);
            let sums = syndromes(&header);
            for j in 1..=8 {
                assert_eq!(sums[j - 1], value_at(&header, power_of_a(j)));
            }
        }
    }

    #[test]
    fn both_ways_to_the_parity_agree() {
        let mut rng = Rng::new(0x9A17);
        for _ in 0..3000 {
            let mut header = [0; PLACES];
            rng.fill(&mut header);
            let parity = parity(&header);
            assert_eq!(parity, parity_by_division(&header));
            header[..SUMS].copy_from_slice(&parity);
            assert!(is_code_word(&header));
        }
    }

    #[test]
    fn parity_with_given_sums() {
        let mut rng = Rng::new(0x9A18);
        for _ in 0..1000 {
            let sums = rng.bits().to_le_bytes();
            let mut header = [0; PLACES];
            header[..SUMS].copy_from_slice(&parity_with_sums(&sums));
            assert_eq!(syndromes(&header), sums);
        }
    }

    /// Every header that differs in at most one byte, by the definition.
    #[test]
    fn mending_one_byte_agrees_with_trying_all() {
        let mut rng = Rng::new(0x0001_B17E);
        for altered in 0..4 {
            let word = random_code_word(&mut rng);
            let mut header = word;
            for place in rng.places(altered, 0, 95) {
                header[place] ^= rng.nonzero_byte();
            }
            let mut near = Vec::new();
            if is_code_word(&header) {
                near.push((header, 0));
            }
            for place in 0..PLACES {
                for change in 1..=255 {
                    let mut tried = header;
                    tried[place] ^= change;
                    if is_code_word(&tried) {
                        near.push((tried, 1));
                    }
                }
            }
            let answer = correct(&header).filter(|&(_, changed)| changed <= 1);
            assert_eq!(near, answer.into_iter().collect::<Vec<_>>());
            assert_eq!(near.len(), usize::from(altered <= 1));
        }
    }

    /// Mending against the search through all sets of at most four places.
    #[test]
    fn mending_agrees_with_searching() {
        let seed = 0x5EA2_C4ED;
        println!("seed {seed:#x}");
        let mut rng = Rng::new(seed);
        let search = Search::new();
        let mut none = 0;
        for case in 0..120 {
            let word = random_code_word(&mut rng);
            let altered = case % 12;
            let mut header = word;
            for place in rng.places(altered, 0, 95) {
                header[place] ^= rng.nonzero_byte();
            }
            let answer = correct(&header);
            if altered <= MENDABLE {
                assert_eq!(answer, Some((word, altered as u32)));
            }
            none += u32::from(answer.is_none());
            let found = search.near_code_words(&header);
            assert_eq!(found, answer.into_iter().collect::<Vec<_>>());
        }
        assert!(none > 0);
    }
}
