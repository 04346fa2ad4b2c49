//! Parity as bytes arrive (document 02, Ask 8): each byte of 8 to 95 has its
//! share in the parity, and the shares added to eight zero bytes, in any order,
//! each once, are the parity that division gives.

use crate::header::{parity_by_division, Header, PLACES, SUMS};
use crate::refusal;

/// The share of a byte at a place: the parity, by division, of the header that
/// has this byte and zeros elsewhere.
pub fn share(place: usize, byte: u8) -> [u8; SUMS] {
    let mut header: Header = [0; PLACES];
    header[place] = byte;
    parity_by_division(&header)
}

/// The sum of two times eight bytes.
pub fn sum(one: [u8; SUMS], other: [u8; SUMS]) -> [u8; SUMS] {
    std::array::from_fn(|k| one[k] ^ other[k])
}

/// Whether a place is one of 8 to 95, or the number of its refusal.
pub fn check_place(place: usize) -> Result<(), u32> {
    if (SUMS..PLACES).contains(&place) {
        Ok(())
    } else {
        Err(refusal::PLACE)
    }
}

/// The parity with the share of a byte added, or the number of the refusal.
pub fn add(parity: [u8; SUMS], place: usize, byte: u8) -> Result<[u8; SUMS], u32> {
    check_place(place)?;
    Ok(sum(parity, share(place, byte)))
}

#[cfg(test)]
mod tests {
    use super::*;
    use crate::header::{generator, parity};
    use crate::rng::Rng;

    /// The share of a byte 1 at place 8 is X^8 less the generator.
    #[test]
    fn first_share() {
        assert_eq!(share(8, 1), generator()[..SUMS]);
    }

    #[test]
    fn rising_order_gives_the_parity() {
        let mut rng = Rng::new(0x5A_0001);
        for _ in 0..100 {
            let mut header = [0; PLACES];
            rng.fill(&mut header);
            let mut sum = [0; SUMS];
            for (place, &byte) in header.iter().enumerate().skip(SUMS) {
                sum = add(sum, place, byte).expect("a place of 8 to 95");
            }
            assert_eq!(sum, parity(&header));
        }
    }

    #[test]
    fn places_refused() {
        for place in [0, 7, 96, 255, 264, usize::MAX] {
            assert_eq!(add([1; SUMS], place, 1), Err(14));
        }
        assert!(add([1; SUMS], 8, 1).is_ok() && add([1; SUMS], 95, 1).is_ok());
    }
}
