//! Mending by trying everything: all code words that differ from a header in
//! at most four of its 96 bytes, found by going through all sets of at most
//! four places; with marked places, all code words for which twice the
//! differing unmarked bytes plus the marks is at most eight. Slow with few
//! marks, and then meant for a sample of the cases only.
//!
//! What a set of places can explain is told by striking places out. A byte at
//! place i adds b, b p, b p^2, ... to consecutive sums, where p = a^i.
//! Replacing the sums by S2 + p S1, S3 + p S2, ... removes any byte at place
//! i, only scales what stems from other places, and leaves one sum fewer. Some
//! bytes at w places, w at most 8, have the given eight sums exactly when
//! striking out the w places leaves only zeros.

use crate::erasures::{differing_unmarked, strike_out, with_bytes_changed, BOUND};
use crate::field::{power_of_a, product};
use crate::header::{differing, is_code_word, syndromes, Header, PLACES, SUMS};

/// No place.
const NONE: u8 = 255;

/// What the search needs again and again, worked out beforehand.
pub struct Search {
    /// Each byte times a^i for each place i.
    times: Vec<[u8; PLACES]>,
    /// For each byte other than 0 and each product: the place i for which the
    /// byte times a^i is the product.
    place_for: Vec<[u8; 256]>,
}

impl Default for Search {
    fn default() -> Search {
        Search::new()
    }
}

impl Search {
    /// Works out the products.
    pub fn new() -> Search {
        let mut times = vec![[0; PLACES]; 256];
        let mut place_for = vec![[NONE; 256]; 256];
        for value in 0..=255 {
            let index = usize::from(value);
            for (place, entry) in times[index].iter_mut().enumerate() {
                *entry = product(value, power_of_a(place));
                if value != 0 {
                    place_for[index][usize::from(*entry)] = place as u8;
                }
            }
        }
        Search { times, place_for }
    }

    /// Every code word that differs from the header in at most four bytes,
    /// with the number of differing bytes, those with fewer first.
    pub fn near_code_words(&self, header: &Header) -> Vec<(Header, u32)> {
        self.within_bound(header, &[])
    }

    /// Every code word for which twice the differing unmarked bytes plus the
    /// count of marks is at most eight, with the number of all differing
    /// bytes, those with fewer unmarked ones first. The marks are at most
    /// eight different places.
    pub fn within_bound(&self, header: &Header, marks: &[u8]) -> Vec<(Header, u32)> {
        let sums = syndromes(header);
        let mut found = Found {
            header,
            marks,
            sums,
            sets: Vec::new(),
            words: Vec::new(),
        };
        let left = strike_out(&sums, marks);
        for size in 0..=(BOUND - marks.len()) / 2 {
            self.visit(size, 0, &left, &mut Vec::new(), &mut found);
        }
        found.words
    }

    /// Goes through all sets that have `more` unmarked places from `first` on
    /// besides the chosen ones; `left` is what striking out these and the
    /// marked ones leaves.
    fn visit(
        &self,
        more: usize,
        first: usize,
        left: &[u8],
        chosen: &mut Vec<usize>,
        found: &mut Found,
    ) {
        if left.iter().all(|&sum| sum == 0) {
            // With places still to come, this set was added as a smaller one.
            if more == 0 {
                found.add(chosen);
            }
            return;
        }
        if more == 0 {
            return;
        }
        if more == 1 {
            if let Some(place) = self.only_place(left) {
                if place >= first && !found.is_marked(place) {
                    chosen.push(place);
                    found.add(chosen);
                    chosen.pop();
                }
            }
            return;
        }
        for place in first..PLACES {
            if found.is_marked(place) {
                continue;
            }
            let mut struck = [0; SUMS];
            let fewer = left.len() - 1;
            for k in 0..fewer {
                struck[k] = left[k + 1] ^ self.times[usize::from(left[k])][place];
            }
            chosen.push(place);
            self.visit(more - 1, place + 1, &struck[..fewer], chosen, found);
            chosen.pop();
        }
    }

    /// The place of the one byte that sums come from which aren't all zero, if
    /// they come from one: each is the one before it times a^i.
    fn only_place(&self, left: &[u8]) -> Option<usize> {
        let place = self.place_for[usize::from(left[0])][usize::from(left[1])];
        if place == NONE {
            return None;
        }
        let place = usize::from(place);
        let follows = |pair: &[u8]| self.times[usize::from(pair[0])][place] == pair[1];
        left.windows(2).all(follows).then_some(place)
    }
}

/// The sets of places and code words found so far.
struct Found<'a> {
    header: &'a Header,
    marks: &'a [u8],
    sums: [u8; SUMS],
    sets: Vec<Vec<usize>>,
    words: Vec<(Header, u32)>,
}

impl Found<'_> {
    fn is_marked(&self, place: usize) -> bool {
        self.marks.contains(&(place as u8))
    }

    /// Adds the code word reached by changing bytes at these places and the
    /// marked ones. The bytes to add are determined by the places, so a set
    /// that contains an earlier one leads to the same code word and is passed
    /// over.
    fn add(&mut self, places: &[usize]) {
        let known = |set: &Vec<usize>| set.iter().all(|place| places.contains(place));
        if self.sets.iter().any(known) {
            return;
        }
        let marked = self.marks.iter().map(|&mark| usize::from(mark));
        let changed: Vec<usize> = marked.chain(places.iter().copied()).collect();
        let word = with_bytes_changed(self.header, &changed, &self.sums);
        assert!(is_code_word(&word));
        // A smaller set would have been found before.
        let unmarked = differing_unmarked(self.header, &word, self.marks);
        assert_eq!(unmarked, places.len());
        self.sets.push(places.to_vec());
        let changed = differing(self.header, &word) as u32;
        self.words.push((word, changed));
    }
}

#[cfg(test)]
mod tests {
    use super::*;

    #[test]
    fn finds_what_was_altered() {
        let search = Search::new();
        let word = [0; PLACES];
        assert_eq!(search.near_code_words(&word), vec![(word, 0)]);
        let mut header = word;
        for (count, place) in [95, 0, 8, 41].into_iter().enumerate() {
            header[place] = 0x80 + place as u8;
            let changed = count as u32 + 1;
            assert_eq!(search.near_code_words(&header), vec![(word, changed)]);
        }
        header[7] = 1;
        let near = search.near_code_words(&header);
        assert!(near.iter().all(|&(near, _)| near != word));
    }
}
