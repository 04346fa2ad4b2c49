//! Correcting a header of which some places are marked (document 02, Ask 3).
//! With s marked places it becomes the code word for which twice the differing
//! unmarked bytes plus s is at most eight. Marked bytes may hold anything. With
//! no marks that is the code word at most four bytes away.
//!
//! The marked places are struck out of the sums first (`strike_out`); what is
//! left are the sums of the unmarked alterations, each scaled by a factor of
//! its place. Their places are found from these as they are without marks,
//! from fewer sums. All the bytes, marked ones too, come from the eight sums.

use crate::field::{power_of_a, product};
use crate::header::{
    check_length, differing, header_of, is_code_word, shortest_recurrence, syndromes, value_at,
    Header, PLACES, SUMS,
};
use crate::linear::bytes_with_sums;
use crate::refusal::{self, MarksCause};

/// The most places that can be marked.
pub const MOST_MARKS: usize = 8;

/// The most that twice the differing unmarked bytes plus the marks may be.
pub const BOUND: usize = 8;

/// Why a list of marks is turned down: all reasons that apply.
pub fn marks_causes(marks: &[u8]) -> Vec<MarksCause> {
    let repeated = |index: usize| marks[..index].contains(&marks[index]);
    let mut causes = Vec::new();
    if marks.len() > MOST_MARKS {
        causes.push(MarksCause::MoreThanEight);
    }
    if marks.iter().any(|&mark| usize::from(mark) >= PLACES) {
        causes.push(MarksCause::Over95);
    }
    if (0..marks.len()).any(repeated) {
        causes.push(MarksCause::Repeated);
    }
    causes
}

/// In how many unmarked bytes two headers differ.
pub fn differing_unmarked(one: &Header, other: &Header, marks: &[u8]) -> usize {
    (0..PLACES)
        .filter(|&place| one[place] != other[place])
        .filter(|&place| !marks.contains(&(place as u8)))
        .count()
}

/// Whether the word is within the bound: twice the differing unmarked bytes
/// plus the count of marks is at most eight.
pub fn within_bound(header: &Header, word: &Header, marks: &[u8]) -> bool {
    2 * differing_unmarked(header, word, marks) + marks.len() <= BOUND
}

/// The sums without what stems from these places. A byte b at place i adds b p,
/// b p^2, ... to consecutive sums, where p = a^i. Replacing the sums by S2 + p
/// S1, S3 + p S2, ... removes any byte at place i, only scales what stems from
/// other places, and leaves one sum fewer.
pub fn strike_out(sums: &[u8], places: &[u8]) -> Vec<u8> {
    let mut left = sums.to_vec();
    for &place in places {
        let point = power_of_a(usize::from(place));
        left = left
            .windows(2)
            .map(|pair| pair[1] ^ product(pair[0], point))
            .collect();
    }
    left
}

/// The code word within the bound, and in how many bytes, marked or not, the
/// header differs from it; none if there is no such code word. The marks are at
/// most eight different places.
pub fn correct(header: &Header, marks: &[u8]) -> Option<(Header, u32)> {
    assert_eq!(marks_causes(marks), []);
    let sums = syndromes(header);
    let left = strike_out(&sums, marks);
    let (locator, length) = shortest_recurrence(&left);
    if 2 * length > left.len() {
        return None;
    }
    let altered: Vec<usize> = (0..PLACES)
        .filter(|&place| !marks.contains(&(place as u8)))
        .filter(|&place| value_at(&locator, power_of_a(255 - place)) == 0)
        .collect();
    if altered.len() != length {
        return None;
    }
    let marked = marks.iter().map(|&mark| usize::from(mark));
    let places: Vec<usize> = marked.chain(altered).collect();
    let word = with_bytes_changed(header, &places, &sums);
    let right = is_code_word(&word) && within_bound(header, &word, marks);
    right.then(|| (word, differing(header, &word) as u32))
}

/// The header with bytes at these places changed so that as many of its sums
/// are zero; the given ones are those it has.
pub fn with_bytes_changed(header: &Header, places: &[usize], sums: &[u8; SUMS]) -> Header {
    let mut word = *header;
    for (&place, byte) in places.iter().zip(bytes_with_sums(places, sums)) {
        word[place] ^= byte;
    }
    word
}

/// Corrects the header of a lent PDU and answers how many bytes differed,
/// marked or not, or the number of the refusal: 3, 19 or 4, in this order; then
/// the PDU is left as it was.
pub fn correct_pdu(pdu: &mut [u8], marks: &[u8]) -> Result<u32, u32> {
    check_length(pdu)?;
    if !marks_causes(marks).is_empty() {
        return Err(refusal::MARKS);
    }
    let corrected = correct(&header_of(pdu), marks);
    let (word, changed) = corrected.ok_or(refusal::BEYOND_MENDING)?;
    pdu[..PLACES].copy_from_slice(&word);
    Ok(changed)
}

#[cfg(test)]
mod tests {
    use super::*;
    use crate::header::{self, generator, MENDABLE};
    use crate::rng::Rng;
    use crate::search::Search;

    /// The generator's coefficients in bytes 0 to 8, the rest zero.
    fn generator_header() -> Header {
        let mut header = [0; PLACES];
        header[..9].copy_from_slice(&generator());
        header
    }

    fn random_code_word(rng: &mut Rng) -> Header {
        let mut header = [0; PLACES];
        rng.fill(&mut header);
        let parity = header::parity(&header);
        header[..SUMS].copy_from_slice(&parity);
        header
    }

    /// A code word with bytes altered: so many marked ones of so many marks,
    /// and so many others. The marks come with it.
    fn altered(rng: &mut Rng, word: &Header, counts: [usize; 3]) -> (Header, Vec<u8>) {
        let [marks, marked, unmarked] = counts;
        let places = rng.places(marks + unmarked, 0, PLACES - 1);
        let (marks, others) = places.split_at(marks);
        let mut header = *word;
        for &place in marks[..marked].iter().chain(others) {
            header[place] ^= rng.nonzero_byte();
        }
        (header, marks.iter().map(|&place| place as u8).collect())
    }

    /// Every code word within the bound by linear equations alone: for each set
    /// of unmarked places, as many as the bound allows, the bytes at these and
    /// the marked places that make as many sums zero; a code word if they make
    /// all eight zero.
    fn by_solving(header: &Header, marks: &[u8]) -> Vec<(Header, u32)> {
        let unmarked: Vec<usize> = (0..PLACES)
            .filter(|&place| !marks.contains(&(place as u8)))
            .collect();
        let marked: Vec<usize> = marks.iter().map(|&mark| usize::from(mark)).collect();
        let mut words = Vec::new();
        let sums = syndromes(header);
        for chosen in sets(&unmarked, (BOUND - marks.len()) / 2) {
            let places = [&marked[..], &chosen].concat();
            let word = with_bytes_changed(header, &places, &sums);
            let found = (word, differing(header, &word) as u32);
            if is_code_word(&word) && !words.contains(&found) {
                words.push(found);
            }
        }
        words
    }

    /// All sets of so many of these places.
    fn sets(places: &[usize], size: usize) -> Vec<Vec<usize>> {
        if size == 0 {
            return vec![Vec::new()];
        }
        let mut all = Vec::new();
        for (index, &place) in places.iter().enumerate() {
            for rest in sets(&places[index + 1..], size - 1) {
                all.push([vec![place], rest].concat());
            }
        }
        all
    }

    /// The three ways on headers with every count of marks and alterations:
    /// linear equations alone where few sets have to be tried.
    #[test]
    fn all_ways_agree() {
        let mut rng = Rng::new(0xE5A5);
        let search = Search::new();
        let mut none = [0; MOST_MARKS + 1];
        for marks in 0..=MOST_MARKS {
            for unmarked in 0..=6 {
                for round in 0..6 {
                    let word = random_code_word(&mut rng);
                    let marked = rng.within(0, marks);
                    let (header, marks) = altered(&mut rng, &word, [marks, marked, unmarked]);
                    let answer: Vec<(Header, u32)> = correct(&header, &marks).into_iter().collect();
                    if 2 * unmarked + marks.len() <= BOUND {
                        assert_eq!(answer, [(word, (marked + unmarked) as u32)]);
                    }
                    none[marks.len()] += u32::from(answer.is_empty());
                    if !marks.is_empty() || round == 0 {
                        assert_eq!(search.within_bound(&header, &marks), answer);
                    }
                    if marks.len() > 4 || marks.len() > 2 && round == 0 {
                        assert_eq!(by_solving(&header, &marks), answer);
                    }
                }
            }
        }
        assert!(none[..MOST_MARKS].iter().all(|&none| none > 0));
        assert_eq!(none[MOST_MARKS], 0);
    }

    /// One and two marks, each once by linear equations alone.
    #[test]
    fn few_marks_by_solving() {
        let mut rng = Rng::new(0xE5A6);
        for (marks, unmarked) in [(1, 3), (2, 4)] {
            let word = random_code_word(&mut rng);
            let (header, marks) = altered(&mut rng, &word, [marks, 1, unmarked]);
            let answer: Vec<(Header, u32)> = correct(&header, &marks).into_iter().collect();
            assert_eq!(by_solving(&header, &marks), answer);
        }
    }

    /// Every header that differs in marked bytes and at most one other, by the
    /// definition: one mark with every byte there, two marks with every two.
    #[test]
    fn agrees_with_trying_all_bytes() {
        let mut rng = Rng::new(0xE5A7);
        for (marks, unmarked) in [(1, 0), (1, 1), (1, 2), (2, 0), (2, 1)] {
            let word = random_code_word(&mut rng);
            let (header, marks) = altered(&mut rng, &word, [marks, 1, unmarked]);
            let others: Vec<usize> = match marks.len() {
                1 => (0..PLACES).collect(),
                _ => vec![usize::from(marks[0])],
            };
            let mut near = Vec::new();
            let last = usize::from(*marks.last().expect("a mark"));
            for at_mark in 0..=255u8 {
                let mut marked = header;
                marked[last] = at_mark;
                let sums = syndromes(&marked);
                for &place in &others {
                    for change in 0..=255u8 {
                        let makes = |j: usize| product(change, power_of_a(place * j));
                        if (1..=SUMS).any(|j| sums[j - 1] != makes(j)) {
                            continue;
                        }
                        let mut tried = marked;
                        tried[place] ^= change;
                        let found = (tried, differing(&header, &tried) as u32);
                        if !near.contains(&found) {
                            near.push(found);
                        }
                    }
                }
            }
            let most = 2 - marks.len();
            let answer = correct(&header, &marks)
                .filter(|(word, _)| differing_unmarked(&header, word, &marks) <= most);
            assert_eq!(near, answer.into_iter().collect::<Vec<_>>());
            assert_eq!(near.len(), usize::from(unmarked <= most));
        }
    }

    /// The generator with bytes zeroed: with all the zeroed ones marked it is
    /// corrected to itself, up to eight of them; five not marked are corrected
    /// to all zero (example (i) of document 01).
    #[test]
    fn zeroed_generator() {
        for choice in 0..1u32 << 9 {
            let zeroed: Vec<u8> = (0..9).filter(|place| (choice >> place) & 1 != 0).collect();
            let mut header = generator_header();
            for &place in &zeroed {
                header[usize::from(place)] = 0;
            }
            if zeroed.len() <= MOST_MARKS {
                let count = zeroed.len() as u32;
                assert_eq!(correct(&header, &zeroed), Some((generator_header(), count)));
            }
            if zeroed.len() == 5 {
                assert_eq!(correct(&header, &[]), Some(([0; PLACES], 4)));
                // One mark leaves three unmarked, and both words need four.
                assert_eq!(correct(&header, &zeroed[..1]), None);
            }
        }
    }

    /// Marks cost whether their bytes are wrong or not: four altered bytes and
    /// one mark on a right one are too much, three are not.
    #[test]
    fn marks_on_right_bytes() {
        let mut rng = Rng::new(0xE5A8);
        for marks in 0..=MOST_MARKS {
            for _ in 0..50 {
                let word = random_code_word(&mut rng);
                let most = (BOUND - marks) / 2;
                let (header, places) = altered(&mut rng, &word, [marks, 0, most]);
                assert_eq!(correct(&header, &places), Some((word, most as u32)));
                if marks % 2 == 1 {
                    // Nine is too much, and no other word can be within eight.
                    let (header, places) = altered(&mut rng, &word, [marks, 0, most + 1]);
                    assert_eq!(correct(&header, &places), None);
                }
            }
        }
    }

    /// Eight marks: there is always a code word, with the other bytes as they
    /// came. Its bytes at the marks are those that eight equations give.
    #[test]
    fn eight_marks_are_never_refused() {
        let mut rng = Rng::new(0xE5A9);
        for _ in 0..500 {
            let mut header = [0; PLACES];
            rng.fill(&mut header);
            let places = rng.places(MOST_MARKS, 0, PLACES - 1);
            let marks: Vec<u8> = places.iter().map(|&place| place as u8).collect();
            let (word, count) = correct(&header, &marks).expect("a code word");
            assert!(is_code_word(&word));
            assert_eq!(differing_unmarked(&header, &word, &marks), 0);
            assert!(count <= 8);
        }
    }

    /// With no mark it is the code word at most four bytes away.
    #[test]
    fn no_marks() {
        let mut rng = Rng::new(0xE5AA);
        for count in 0..=MENDABLE {
            let word = random_code_word(&mut rng);
            let (header, _) = altered(&mut rng, &word, [0, 0, count]);
            assert_eq!(correct(&header, &[]), Some((word, count as u32)));
            assert_eq!(header::correct(&header), Some((word, count as u32)));
        }
    }

    #[test]
    fn causes_of_19() {
        use MarksCause::{MoreThanEight, Over95, Repeated};
        let eight: Vec<u8> = (88..96).collect();
        let nine: Vec<u8> = (0..9).collect();
        for (marks, wanted) in [
            (&[][..], &[][..]),
            (&[0], &[]),
            (&[95], &[]),
            (&[95, 0], &[]),
            (&eight, &[]),
            (&[96], &[Over95]),
            (&[255], &[Over95]),
            (&[0, 1, 96], &[Over95]),
            (&[7, 7], &[Repeated]),
            (&[0, 1, 2, 0], &[Repeated]),
            (&[96, 96], &[Over95, Repeated]),
            (&nine, &[MoreThanEight]),
            (&[5; 9], &[MoreThanEight, Repeated]),
            (&[200; 9], &[MoreThanEight, Over95, Repeated]),
        ] {
            assert_eq!(marks_causes(marks), wanted, "{marks:?}");
        }
    }

    /// 3, then 19, then 4; what is refused is left as it was.
    #[test]
    fn order_of_refusals() {
        let mut rng = Rng::new(0xE5AB);
        let word = random_code_word(&mut rng);
        let nine: Vec<u8> = (0..9).collect();
        let mut short = word[..95].to_vec();
        assert_eq!(correct_pdu(&mut short, &nine), Err(3));
        assert_eq!(short, word[..95]);
        // A code word is refused for its marks too.
        for marks in [&nine[..], &[3, 4, 3], &[96]] {
            let mut pdu = word.to_vec();
            assert_eq!(correct_pdu(&mut pdu, marks), Err(19));
            assert_eq!(pdu, word);
        }
        let (beyond, marks) = altered(&mut rng, &word, [1, 0, 4]);
        let mut pdu = beyond.to_vec();
        assert_eq!(correct_pdu(&mut pdu, &nine), Err(19));
        assert_eq!(correct_pdu(&mut pdu, &marks), Err(4));
        assert_eq!(pdu, beyond);
        assert_eq!(correct_pdu(&mut pdu, &[]), Ok(4));
        assert_eq!(pdu, word);
    }
}
