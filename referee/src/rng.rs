//! Repeatable random numbers for the tests (splitmix64). The same seed always
//! gives the same numbers.

/// A generator of random numbers.
#[derive(Clone, Debug)]
pub struct Rng {
    state: u64,
}

impl Rng {
    /// A generator that begins at the seed.
    pub fn new(seed: u64) -> Rng {
        Rng { state: seed }
    }

    /// The next 64 bits.
    pub fn bits(&mut self) -> u64 {
        self.state = self.state.wrapping_add(0x9E37_79B9_7F4A_7C15);
        let mut z = self.state;
        z = (z ^ (z >> 30)).wrapping_mul(0xBF58_476D_1CE4_E5B9);
        z = (z ^ (z >> 27)).wrapping_mul(0x94D0_49BB_1331_11EB);
        z ^ (z >> 31)
    }

    /// A number from 0 to `end` minus 1.
    pub fn below(&mut self, end: usize) -> usize {
        assert!(end > 0);
        ((u128::from(self.bits()) * end as u128) >> 64) as usize
    }

    /// A number from `first` to `last`.
    pub fn within(&mut self, first: usize, last: usize) -> usize {
        first + self.below(last - first + 1)
    }

    /// Any byte.
    pub fn byte(&mut self) -> u8 {
        self.bits() as u8
    }

    /// A byte other than 0.
    pub fn nonzero_byte(&mut self) -> u8 {
        self.within(1, 255) as u8
    }

    /// Fills the bytes.
    pub fn fill(&mut self, bytes: &mut [u8]) {
        for chunk in bytes.chunks_mut(8) {
            let value = self.bits().to_le_bytes();
            chunk.copy_from_slice(&value[..chunk.len()]);
        }
    }

    /// So many different places from `first` to `last`, in any order.
    pub fn places(&mut self, count: usize, first: usize, last: usize) -> Vec<usize> {
        assert!(count <= last - first + 1);
        let mut places = Vec::with_capacity(count);
        while places.len() < count {
            let place = self.within(first, last);
            if !places.contains(&place) {
                places.push(place);
            }
        }
        places
    }
}

#[cfg(test)]
mod tests {
    use super::*;

    #[test]
    fn repeats_and_stays_within() {
        let mut one = Rng::new(7);
        let mut two = Rng::new(7);
        let mut low = false;
        let mut high = false;
        for _ in 0..1000 {
            let value = one.within(3, 9);
            assert_eq!(value, two.within(3, 9));
            assert!((3..=9).contains(&value));
            low |= value == 3;
            high |= value == 9;
        }
        assert!(low && high);
        let mut places = one.places(8, 88, 95);
        places.sort_unstable();
        assert_eq!(places, (88..=95).collect::<Vec<_>>());
    }
}
