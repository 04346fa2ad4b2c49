//! What comes between a PDU sent and a PDU received: bytes of its header are
//! altered, and places of it may be marked (document 02, Ask 3), whether their
//! bytes are wrong or not.

#![allow(dead_code)]

use referee::erasures::{BOUND, MOST_MARKS};
use referee::header::PLACES;
use referee::refusal::MarksCause;
use referee::rng::Rng;

/// Marked places, and how many bytes are altered.
#[derive(Clone, Debug, Default)]
pub struct Noise {
    /// The list of marked places; none for a call that takes no list.
    pub marks: Option<Vec<u8>>,
    /// How many of the marked bytes are altered, from the list's first on.
    pub wrong: usize,
    /// How many other bytes are altered.
    pub altered: usize,
}

impl Noise {
    /// So many bytes altered, for a call that takes no list.
    pub fn unmarked(altered: usize) -> Noise {
        Noise {
            altered,
            ..Noise::default()
        }
    }

    /// So many places marked, some of them wrong, and so many other bytes
    /// altered.
    pub fn marked(rng: &mut Rng, marks: usize, altered: usize) -> Noise {
        let places = rng.places(marks, 0, PLACES - 1);
        Noise {
            marks: Some(places.iter().map(|&place| place as u8).collect()),
            wrong: [0, marks, rng.within(0, marks)][rng.below(3)],
            altered,
        }
    }

    /// Any that can be corrected: twice the other altered bytes plus the marks
    /// is at most eight, often just eight or seven.
    pub fn within_bound(rng: &mut Rng) -> Noise {
        let marks = match rng.below(8) {
            0 => 0,
            1 => MOST_MARKS,
            _ => rng.within(0, MOST_MARKS),
        };
        let most = (BOUND - marks) / 2;
        let altered = [most, rng.within(0, most)][rng.below(2)];
        Noise::marked(rng, marks, altered)
    }

    /// Any that can't be corrected: twice the other altered bytes plus the
    /// marks is nine. No code word is within eight then, because code words
    /// differ in nine bytes or more.
    pub fn beyond(rng: &mut Rng) -> Noise {
        let marks = [1, 3, 5, 7][rng.below(4)];
        Noise::marked(rng, marks, (BOUND + 1 - marks) / 2)
    }

    /// The places that are marked.
    pub fn list(&self) -> &[u8] {
        self.marks.as_deref().unwrap_or(&[])
    }

    /// How many bytes are altered in all.
    pub fn in_all(&self) -> usize {
        self.wrong + self.altered
    }

    /// Alters a header.
    pub fn alter(&self, rng: &mut Rng, header: &mut [u8]) {
        let marks = self.list();
        let enough = (self.altered + marks.len()).min(PLACES);
        let mut places = rng.places(enough, 0, PLACES - 1);
        places.retain(|&place| !marks.contains(&(place as u8)));
        for &place in places.iter().take(self.altered) {
            header[place] ^= rng.nonzero_byte();
        }
        for &mark in marks.iter().take(self.wrong) {
            header[usize::from(mark)] ^= rng.nonzero_byte();
        }
    }

    /// Makes the list wrong for this cause alone. No marked byte is altered
    /// then.
    pub fn spoil(&mut self, rng: &mut Rng, cause: MarksCause) {
        let count = match cause {
            MarksCause::MoreThanEight => [9, 9, 10, rng.within(9, PLACES)][rng.below(4)],
            MarksCause::Over95 => rng.within(1, MOST_MARKS),
            MarksCause::Repeated => rng.within(2, MOST_MARKS),
        };
        let mut list = Noise::marked(rng, count, 0).list().to_vec();
        match cause {
            MarksCause::MoreThanEight => {}
            MarksCause::Over95 => {
                let place = [96, 97, 128, 255, rng.within(96, 255)][rng.below(5)];
                list[rng.below(count)] = place as u8;
            }
            MarksCause::Repeated => {
                let pair = [vec![0, count - 1], rng.places(2, 0, count - 1)];
                let [first, second] = pair[rng.below(2)][..] else {
                    unreachable!("two places")
                };
                list[second] = list[first];
            }
        }
        self.marks = Some(list);
        self.wrong = 0;
    }
}

/// Any cause for turning a list down.
pub fn some_cause(rng: &mut Rng) -> MarksCause {
    [
        MarksCause::MoreThanEight,
        MarksCause::Over95,
        MarksCause::Repeated,
    ][rng.below(3)]
}
