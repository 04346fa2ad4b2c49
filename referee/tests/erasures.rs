//! Compares the product's correction of headers with marked places with the
//! reference (document 02, Ask 3): every count of marks with every count of
//! altered bytes, marks on right and on wrong bytes, and the refusals 3, 19 and
//! 4 in their order. The reference's answers are compared with a search through
//! all sets of unmarked places, and with what is known from how a case was
//! made. Every byte of the lent PDU and of the lent marks is compared after
//! each call, and the guards around them.

mod lent;
mod product;

use lent::Lent;
use referee::erasures::{self, BOUND, MOST_MARKS};
use referee::field::{power_of_a, product as times};
use referee::header::{self, Header, LONGEST, PLACES, SUMS};
use referee::linear::bytes_with_sums;
use referee::refusal::{self, MarksCause};
use referee::rng::Rng;
use referee::search::Search;
use std::collections::BTreeMap;

/// The most unmarked bytes that are altered.
const MOST_ALTERED: usize = 6;

/// What is known about a case from how it was made, besides what the
/// reference answers.
#[derive(Clone, Copy)]
enum Known {
    Nothing,
    /// Is corrected to this code word with this count.
    Corrects(Header, usize),
    /// Is refused with this number.
    Refused(u32),
}

/// A class of cases with its seed, and what came out so far.
struct Class {
    name: &'static str,
    seed: u64,
    rng: Rng,
    search: Search,
    /// With no marks, one case of so many is searched; with marks, each.
    every: u64,
    searched: u64,
    cases: u64,
    /// Corrected, by count.
    corrected: [u64; MOST_MARKS + 1],
    /// By number.
    refused: BTreeMap<u32, u64>,
    /// Refused with 19 for one reason alone, by reason.
    alone: BTreeMap<MarksCause, u64>,
}

impl Class {
    fn new(name: &'static str, seed: u64, every: u64) -> Class {
        Class {
            name,
            seed,
            rng: Rng::new(seed),
            search: Search::new(),
            every,
            searched: 0,
            cases: 0,
            corrected: [0; MOST_MARKS + 1],
            refused: BTreeMap::new(),
            alone: BTreeMap::new(),
        }
    }

    /// A random code word.
    fn code_word(&mut self) -> Header {
        let mut header = [0; PLACES];
        self.rng.fill(&mut header);
        let parity = header::parity(&header);
        header[..SUMS].copy_from_slice(&parity);
        header
    }

    /// Alters the bytes at these places.
    fn alter(&mut self, header: &mut Header, places: &[usize]) {
        for &place in places {
            header[place] ^= self.rng.nonzero_byte();
        }
    }

    /// How many of so many marked bytes are wrong: none, all or some.
    fn some_wrong(&mut self, marks: usize) -> usize {
        [0, marks, self.rng.within(0, marks)][self.rng.below(3)]
    }

    /// Compares on a PDU with this header: mostly 96 bytes, also longer.
    /// Answers the corrected header; none if it is refused.
    fn check(&mut self, header: &Header, marks: &[u8], known: Known) -> Option<Header> {
        let length = match self.rng.below(64) {
            0 => self.rng.within(97, LONGEST),
            1..=7 => self.rng.within(97, 300),
            _ => PLACES,
        };
        self.check_with_length(header, length, marks, known)
    }

    /// Compares on a PDU with this header and length.
    fn check_with_length(
        &mut self,
        header: &Header,
        length: usize,
        marks: &[u8],
        known: Known,
    ) -> Option<Header> {
        let mut before = Lent::random(&mut self.rng, length);
        before.put_header(header);
        let mut wanted = before.clone();
        let reference = erasures::correct_pdu(wanted.bytes_mut(), marks);
        self.check_reference(header, &before, &wanted, marks, reference, known);
        let lent_marks = Lent::of(&mut self.rng, marks);
        self.check_product(&before, &wanted, &lent_marks, reference);
        self.count(marks, reference);
        reference.ok().map(|_| header::header_of(wanted.bytes()))
    }

    /// The reference's answer against what is known, the definition and the
    /// search.
    fn check_reference(
        &mut self,
        header: &Header,
        before: &Lent,
        after: &Lent,
        marks: &[u8],
        reference: Result<u32, u32>,
        known: Known,
    ) {
        let told = || format!("the reference; {}", self.case(header, marks));
        match known {
            Known::Nothing => {}
            Known::Corrects(word, count) => {
                assert_eq!(reference, Ok(count as u32), "{}", told());
                assert!(header::header_of(after.bytes()) == word, "{}", told());
            }
            Known::Refused(number) => assert_eq!(reference, Err(number), "{}", told()),
        }
        let found = match reference {
            Ok(count) => {
                assert_eq!(after.bytes()[PLACES..], before.bytes()[PLACES..]);
                vec![(header::header_of(after.bytes()), count)]
            }
            Err(_) => {
                assert!(after == before, "{}", told());
                Vec::new()
            }
        };
        let looked_at = !matches!(reference, Err(refusal::LENGTH | refusal::MARKS));
        if looked_at && (!marks.is_empty() || self.cases.is_multiple_of(self.every)) {
            let searched = self.search.within_bound(header, marks);
            assert!(searched == found, "the search; {}", told());
            self.searched += 1;
        }
    }

    /// The product's answer against the reference's, and what is lent; with no
    /// marks also that of the call without a list.
    fn check_product(
        &self,
        before: &Lent,
        wanted: &Lent,
        lent_marks: &Lent,
        reference: Result<u32, u32>,
    ) {
        let right = reference.map_or_else(|number| (number, 0), |count| (0, count));
        let case = || self.case(&header_in(before), lent_marks.bytes());
        let mut lent = before.clone();
        let marks = lent_marks.clone();
        let answer = product::correct_header_marked(lent.bytes_mut(), marks.bytes());
        assert_eq!(answer, right, "refusal and count; {}", case());
        assert!(
            lent == *wanted,
            "PDU, answer {answer:?}: {}; {}",
            lent.differences(wanted),
            case()
        );
        assert!(marks == *lent_marks, "marks; {}", case());
        if marks.bytes().is_empty() {
            let mut lent = before.clone();
            let answer = product::correct_header(lent.bytes_mut());
            assert_eq!(answer, right, "without a list; {}", case());
            assert!(lent == *wanted, "PDU without a list; {}", case());
        }
    }

    fn count(&mut self, marks: &[u8], reference: Result<u32, u32>) {
        self.cases += 1;
        match reference {
            Ok(count) => self.corrected[count as usize] += 1,
            Err(number) => *self.refused.entry(number).or_default() += 1,
        }
        if reference == Err(refusal::MARKS) {
            if let [cause] = erasures::marks_causes(marks)[..] {
                *self.alone.entry(cause).or_default() += 1;
            }
        }
    }

    /// Which case this is, for messages.
    fn case(&self, header: &Header, marks: &[u8]) -> String {
        let hex: String = header.iter().map(|byte| format!("{byte:02x}")).collect();
        format!(
            "{}: seed {:#x}, case {}, marks {marks:?}, header {hex}",
            self.name, self.seed, self.cases
        )
    }

    /// Prints what came out.
    fn report(&self) {
        println!(
            "{}: seed {:#x}, {} cases: corrected with count 0 to 8 {:?}, refused by number {:?}; {} searched",
            self.name, self.seed, self.cases, self.corrected, self.refused, self.searched
        );
        let outcomes = self.corrected.iter().sum::<u64>() + self.refused.values().sum::<u64>();
        assert_eq!(outcomes, self.cases);
    }
}

/// The header of a lent PDU, zeros behind a shorter one.
fn header_in(lent: &Lent) -> Header {
    let bytes = lent.bytes();
    std::array::from_fn(|place| bytes.get(place).copied().unwrap_or(0))
}

/// Places as marks.
fn as_marks(places: &[usize]) -> Vec<u8> {
    places.iter().map(|&place| place as u8).collect()
}

/// What is known of so many marks and so many other bytes altered: up to eight
/// it is corrected. Nine is beyond correction for certain: code words differ in
/// nine bytes or more, and one within eight would be less away.
fn known_of(marks: usize, unmarked: usize, word: Header, count: usize) -> Known {
    match 2 * unmarked + marks {
        0..=BOUND => Known::Corrects(word, count),
        9 => Known::Refused(refusal::BEYOND_MENDING),
        _ => Known::Nothing,
    }
}

/// So many marks with none to six other bytes altered, so often each: how many
/// were corrected, and how many refused with 4.
fn each_count(class: &mut Class, marks: usize, rounds: usize) -> [[u64; 2]; MOST_ALTERED + 1] {
    let mut outcomes = [[0; 2]; MOST_ALTERED + 1];
    for (unmarked, [corrected, refused]) in outcomes.iter_mut().enumerate() {
        for round in 0..rounds {
            // Anywhere, among the parity or at the end.
            let (first, last) = [(0, 95), (0, 95), (0, 15), (80, 95)][round % 4];
            let word = class.code_word();
            let places = class.rng.places(marks + unmarked, first, last);
            let (marked, others) = places.split_at(marks);
            let wrong = class.some_wrong(marks);
            let mut header = word;
            class.alter(&mut header, &marked[..wrong]);
            class.alter(&mut header, others);
            let known = known_of(marks, unmarked, word, wrong + unmarked);
            match class.check(&header, &as_marks(marked), known) {
                Some(_) => *corrected += 1,
                None => *refused += 1,
            }
        }
    }
    outcomes
}

/// Every count of marks with every count of other bytes altered.
fn every_count(name: &'static str, seed: u64, marks: &[usize], rounds: usize) -> Class {
    let mut class = Class::new(name, seed, 1);
    for &marks in marks {
        let outcomes = each_count(&mut class, marks, rounds);
        println!(
            "{marks} marks, 0 to {MOST_ALTERED} other bytes altered: corrected {:?}, refused with 4 {:?}",
            outcomes.map(|[corrected, _]| corrected),
            outcomes.map(|[_, refused]| refused)
        );
        for (unmarked, [corrected, refused]) in outcomes.into_iter().enumerate() {
            match 2 * unmarked + marks {
                0..=BOUND => assert_eq!(refused, 0),
                9 => assert_eq!(corrected, 0),
                _ if marks == MOST_MARKS => assert_eq!(refused, 0),
                _ => assert!(refused > 0),
            }
            // Near another code word by chance.
            if matches!(marks, 4 | 6) && 2 * unmarked + marks > 9 {
                assert!(corrected > 0);
            }
        }
    }
    class.report();
    assert_eq!(class.searched, class.cases);
    class
}

#[test]
fn no_marks() {
    let class = every_count("0 marks", 0x3A_0000, &[0], 250);
    assert!(class.corrected[..=4].iter().all(|&cases| cases >= 250));
}

#[test]
fn one_or_two_marks() {
    let class = every_count("1 and 2 marks", 0x3A_0001, &[1, 2], 3_000);
    assert!(class.corrected[..=5].iter().all(|&cases| cases >= 1_000));
}

#[test]
fn three_to_five_marks() {
    let class = every_count("3 to 5 marks", 0x3A_0002, &[3, 4, 5], 6_200);
    assert!(class.corrected[..=6].iter().all(|&cases| cases >= 1_000));
}

#[test]
fn six_to_eight_marks() {
    let class = every_count("6 to 8 marks", 0x3A_0003, &[6, 7, 8], 6_200);
    assert!(class.corrected.iter().all(|&cases| cases >= 1_000));
}

/// A code word that is zero except at these places, all of which are used.
/// There are at least nine.
fn code_word_on(class: &mut Class, places: &[usize]) -> Header {
    loop {
        let mut word = [0; PLACES];
        let (free, bound) = places.split_at(places.len() - SUMS);
        for &place in free {
            word[place] = class.rng.nonzero_byte();
        }
        let sums = header::syndromes(&word);
        for (&place, byte) in bound.iter().zip(bytes_with_sums(bound, &sums)) {
            word[place] = byte;
        }
        assert!(header::is_code_word(&word));
        if places.iter().all(|&place| word[place] != 0) {
            return word;
        }
    }
}

/// Between two code words that differ in 9 to 11 bytes, some of them marked.
/// The header has the other's bytes in all unmarked ones of these but a few.
/// Where the bound allows these few, the other is what it is corrected to,
/// although the one may be as near in bytes.
#[test]
fn between_two_code_words() {
    let mut class = Class::new("between two code words", 0x3A_0004, 20);
    for marks in 0..=MOST_MARKS {
        for few in 0..=(BOUND + 1 - marks) / 2 {
            for among in 0..=marks {
                for _ in 0..160 {
                    between(&mut class, marks, few, among);
                }
            }
        }
    }
    class.report();
    assert!(class.corrected.iter().all(|&cases| cases >= 10));
    assert!(class.refused[&refusal::BEYOND_MENDING] >= 1_000);
}

/// With so many marks, `among` of them where the two words differ, and so few
/// unmarked bytes of the one.
fn between(class: &mut Class, marks: usize, few: usize, among: usize) {
    let distance = class.rng.within(9, 11);
    let places = class.rng.places(distance + marks - among, 0, 95);
    let difference = code_word_on(class, &places[..distance]);
    let one = class.code_word();
    let other: Header = std::array::from_fn(|place| one[place] ^ difference[place]);
    let mut header = other;
    for &place in &places[among..among + few] {
        header[place] = one[place];
    }
    // The marked places are the first and the last ones.
    let marked = [&places[..among], &places[distance..]].concat();
    let mut wrong = 0;
    for &place in &marked {
        header[place] = [one[place], other[place], class.rng.byte()][class.rng.below(3)];
        wrong += usize::from(header[place] != other[place]);
    }
    assert_eq!(header::differing(&header, &other), few + wrong);
    let known = known_of(marks, few, other, few + wrong);
    class.check(&header, &as_marks(&marked), known);
}

/// The parity that has the same sums as these bytes at these places of the
/// long word, places 96 to 254.
fn parity_like(places: &[usize], bytes: &[u8]) -> [u8; SUMS] {
    let mut sums = [0; SUMS];
    for (index, sum) in sums.iter_mut().enumerate() {
        for (&i, &byte) in places.iter().zip(bytes) {
            *sum ^= times(byte, power_of_a(i * (index + 1)));
        }
    }
    header::parity_with_sums(&sums)
}

/// Only in the long word of 255 bytes is a code word within the bound, with at
/// least one altered byte at place 96 or above. Code words of the long word
/// differ in at least nine bytes, so none with zeros from place 96 on is within
/// the bound, and the header is beyond correction.
#[test]
fn within_the_bound_only_outside() {
    let mut class = Class::new("within the bound only outside", 0x3A_0005, 20);
    for marks in 0..=6 {
        let most = (BOUND - marks) / 2;
        for outside in 1..=most {
            for inside in 0..=most - outside {
                for round in 0..400 {
                    // In some rounds only the places nearest to the border.
                    let (first, last) = [(0, 254), (0, 254), (80, 103)][round % 3];
                    only_outside(&mut class, [marks, inside, outside], first, last);
                }
            }
        }
    }
    class.report();
    assert_eq!(class.refused[&refusal::BEYOND_MENDING], class.cases);
}

/// So many marks, other bytes altered inside, and bytes altered outside.
fn only_outside(class: &mut Class, counts: [usize; 3], first: usize, last: usize) {
    let [marks, inside, outside] = counts;
    let mut header = class.code_word();
    let places = class.rng.places(marks + inside, first, PLACES - 1);
    let wrong = class.some_wrong(marks);
    class.alter(&mut header, &places[..wrong]);
    class.alter(&mut header, &places[marks..]);
    let beyond = class.rng.places(outside, PLACES, last);
    let bytes: Vec<u8> = beyond.iter().map(|_| class.rng.nonzero_byte()).collect();
    for (byte, add) in header.iter_mut().zip(parity_like(&beyond, &bytes)) {
        *byte ^= add;
    }
    let known = Known::Refused(refusal::BEYOND_MENDING);
    class.check(&header, &as_marks(&places[..marks]), known);
}

/// Headers made for what striking out the marks leaves of their sums: each of
/// these follows from the ones before it by a fixed rule, as it would after
/// alterations, but at any places: inside, marked ones, outside, twice the
/// same; or the rule breaks somewhere, or it is any rule.
#[test]
fn left_sums_by_a_rule() {
    let mut class = Class::new("left sums by a rule", 0x3A_0006, 40);
    for marks in 0..MOST_MARKS {
        let left = SUMS - marks;
        for length in 1..=left.div_ceil(2) {
            for round in 0..900 {
                let marked = class.rng.places(marks, 0, PLACES - 1);
                let rule = some_rule(&mut class, &marked, length, round);
                let mut sums = vec![0; left];
                for n in 0..left {
                    sums[n] = if n < length {
                        class.rng.byte()
                    } else {
                        (0..length).fold(0, |sum, k| sum ^ times(rule[k], sums[n - 1 - k]))
                    };
                }
                if round % 5 == 0 {
                    sums[left - 1] ^= class.rng.nonzero_byte();
                }
                check_left_sums(&mut class, &marked, &sums);
            }
        }
    }
    class.report();
    assert!(class.corrected[1..=7].iter().all(|&cases| cases >= 100));
    assert!(class.refused[&refusal::BEYOND_MENDING] >= 1_000);
}

/// The rule by which a sum follows from those before it when bytes at so many
/// places made them: the product of the factors (1 + a^i z); or any rule.
fn some_rule(class: &mut Class, marked: &[usize], length: usize, round: usize) -> Vec<u8> {
    if round % 6 == 5 {
        return (0..length).map(|_| class.rng.byte()).collect();
    }
    let last = [95, 95, 95, 254, 254][round % 5];
    let mut places = class.rng.places(length, 0, last);
    if round % 6 == 1 && !marked.is_empty() {
        places[0] = marked[0];
    }
    if round % 6 == 2 && length > 1 {
        places[1] = places[0];
    }
    let mut polynomial = vec![0; length + 1];
    polynomial[0] = 1;
    for place in places {
        for k in (1..=length).rev() {
            polynomial[k] ^= times(polynomial[k - 1], power_of_a(place));
        }
    }
    polynomial[1..].to_vec()
}

/// Compares on a header of whose sums these are left when the marked places are
/// struck out. Its first sums are any, as many as there are marks; each later
/// one makes the next left sum.
fn check_left_sums(class: &mut Class, marked: &[usize], left: &[u8]) {
    let marks = as_marks(marked);
    let mut sums = [0; SUMS];
    class.rng.fill(&mut sums[..marks.len()]);
    for (index, &wanted) in left.iter().enumerate() {
        let reach = index + marks.len();
        let made = erasures::strike_out(&sums[index..=reach], &marks);
        sums[reach] ^= made[0] ^ wanted;
    }
    assert_eq!(erasures::strike_out(&sums, &marks), left);
    let mut header = class.code_word();
    for (byte, add) in header.iter_mut().zip(header::parity_with_sums(&sums)) {
        *byte ^= add;
    }
    assert_eq!(header::syndromes(&header), sums);
    class.check(&header, &marks, Known::Nothing);
}

/// Every place marked alone and every two, on right and on wrong bytes, with
/// three other bytes altered.
#[test]
fn every_place_and_every_pair() {
    let mut class = Class::new("every place and every pair marked", 0x3A_0007, 1);
    for first in 0..PLACES {
        for second in 0..=first {
            let mut marked = vec![first];
            if second < first {
                marked.insert(class.rng.below(2), second);
            }
            let word = class.code_word();
            let mut header = word;
            let wrong = class.some_wrong(marked.len());
            class.alter(&mut header, &marked[..wrong]);
            let mut others = class.rng.places(5, 0, PLACES - 1);
            others.retain(|place| !marked.contains(place));
            class.alter(&mut header, &others[..3]);
            let known = Known::Corrects(word, wrong + 3);
            class.check(&header, &as_marks(&marked), known);
        }
    }
    class.report();
    assert_eq!(class.cases, 96 * 97 / 2);
}

/// In whatever order the marks stand, the answer is the same.
#[test]
fn order_of_the_marks() {
    let mut class = Class::new("order of the marks", 0x3A_0008, 1);
    for case in 0..1_500 {
        let marks = 2 + case % 7;
        let word = class.code_word();
        let unmarked = class.rng.within(0, (BOUND - marks) / 2 + 1);
        let places = class.rng.places(marks + unmarked, 0, PLACES - 1);
        let mut header = word;
        let wrong = class.some_wrong(marks);
        class.alter(&mut header, &places[..wrong]);
        class.alter(&mut header, &places[marks..]);
        let mut list = as_marks(&places[..marks]);
        let known = known_of(marks, unmarked, word, wrong + unmarked);
        let answer = class.check(&header, &list, known);
        list.sort_unstable();
        assert_eq!(class.check(&header, &list, known), answer);
        list.reverse();
        assert_eq!(class.check(&header, &list, known), answer);
        list.rotate_left(1);
        assert_eq!(class.check(&header, &list, known), answer);
    }
    class.report();
}

/// Random bytes with any marks: with eight always corrected, with the other
/// bytes as they came.
#[test]
fn random_words() {
    let mut class = Class::new("random words", 0x3A_0009, 20);
    for case in 0..18_000 {
        let marks = case % 9;
        let mut header = [0; PLACES];
        class.rng.fill(&mut header);
        let list = as_marks(&class.rng.places(marks, 0, PLACES - 1));
        let answer = class.check(&header, &list, Known::Nothing);
        if marks == MOST_MARKS {
            let word = answer.expect("a code word");
            assert_eq!(erasures::differing_unmarked(&header, &word, &list), 0);
        }
    }
    class.report();
    assert!(class.refused[&refusal::BEYOND_MENDING] > 0);
}

/// A header for each way to be refused or not, whatever the marks: a code
/// word, one that can be corrected, and one that is beyond correction.
fn three_headers(class: &mut Class) -> [Header; 3] {
    let word = class.code_word();
    let mut near = word;
    let places = class.rng.places(2, 0, PLACES - 1);
    class.alter(&mut near, &places);
    let mut beyond = [0; PLACES];
    class.rng.fill(&mut beyond);
    [word, near, beyond]
}

/// Compares with this list of marks, which is refused with 19 whatever the
/// header; and with 3 where the length is wrong too.
fn refused_marks(class: &mut Class, marks: &[u8]) {
    for header in three_headers(class) {
        class.check(&header, marks, Known::Refused(refusal::MARKS));
    }
    let [word, ..] = three_headers(class);
    for length in [95, [0, 1, 94, LONGEST + 1][class.rng.below(4)]] {
        let known = Known::Refused(refusal::LENGTH);
        class.check_with_length(&word, length, marks, known);
    }
}

/// Different places for a list of this length, at most 96, in any order.
fn some_marks(class: &mut Class, count: usize) -> Vec<u8> {
    as_marks(&class.rng.places(count, 0, PLACES - 1))
}

/// Refusal 19: nine marks and more, also so many that eight bits or sixteen
/// would count eight or fewer.
fn too_many(class: &mut Class) {
    for count in (9..=PLACES).chain([9; 100]) {
        let marks = some_marks(class, count);
        refused_marks(class, &marks);
    }
    // Those over 96 are repeated as well.
    for count in [
        97, 255, 256, 257, 263, 264, 265, 511, 512, 520, 65_535, 65_536, 65_537, 65_544,
    ] {
        let marks: Vec<u8> = (0..count).map(|index| (index % PLACES) as u8).collect();
        refused_marks(class, &marks);
    }
}

/// Refusal 19: a place over 95, at each place of a list of each length.
fn over_95(class: &mut Class) {
    for count in 1..=MOST_MARKS {
        for at in 0..count {
            for place in [96, 97, 103, 127, 128, 129, 191, 192, 223, 224, 254, 255] {
                let mut marks = some_marks(class, count);
                marks[at] = place;
                refused_marks(class, &marks);
                // The place that it would be in seven bits, or modulo 96.
                for same in [place & 0x7F, place % 96] {
                    let mut marks = some_marks(class, count);
                    if same < 96 && !marks.contains(&same) {
                        marks[at] = same;
                        class.check(&[0; PLACES], &marks, Known::Corrects([0; PLACES], 0));
                    }
                }
            }
        }
    }
}

/// Refusal 19: a place twice, at each two places of a list of each length, and
/// more than twice; the smallest and the largest place among them.
fn repeated(class: &mut Class) {
    for count in 2..=MOST_MARKS {
        for second in 1..count {
            for first in 0..second {
                for round in 0..3 {
                    let mut marks = some_marks(class, count);
                    if round > 0 && !marks.contains(&[0, 95][round - 1]) {
                        marks[first] = [0, 95][round - 1];
                    }
                    marks[second] = marks[first];
                    refused_marks(class, &marks);
                }
            }
        }
        let place = class.rng.below(PLACES) as u8;
        refused_marks(class, &vec![place; count]);
    }
}

/// Lists that are just right: one to eight marks, with 0 and 95 among them, on
/// a code word and on headers that can be corrected.
fn just_right(class: &mut Class) {
    for count in 1..=MOST_MARKS {
        for _ in 0..60 {
            let mut marks = some_marks(class, count);
            let edges: Vec<u8> = [0, 95]
                .into_iter()
                .filter(|edge| !marks.contains(edge))
                .collect();
            for (mark, edge) in marks.iter_mut().zip(edges) {
                *mark = edge;
            }
            let word = class.code_word();
            class.check(&word, &marks, Known::Corrects(word, 0));
            let mut header = word;
            let places: Vec<usize> = marks.iter().map(|&mark| usize::from(mark)).collect();
            class.alter(&mut header, &places);
            class.check(&header, &marks, Known::Corrects(word, count));
        }
    }
}

/// Number 19 in each of its reasons, after 3 and before 4.
#[test]
fn refused_lists() {
    let mut class = Class::new("lists of marks", 0x3A_000A, 1);
    too_many(&mut class);
    over_95(&mut class);
    repeated(&mut class);
    just_right(&mut class);
    class.report();
    println!("refused with 19 for one reason alone: {:?}", class.alone);
    assert_eq!(class.alone.len(), 3);
    assert!(class.alone.values().all(|&cases| cases >= 500));
    assert!(class.refused[&refusal::LENGTH] >= 1_000);
}

/// Every allowed length around its edges, and lengths that are refused, with
/// marks.
#[test]
fn lengths() {
    let mut class = Class::new("lengths", 0x3A_000B, 1);
    let right = (PLACES..300).chain(LONGEST - 50..=LONGEST);
    for length in right {
        let word = class.code_word();
        let mut header = word;
        let places = class.rng.places(5, 0, PLACES - 1);
        class.alter(&mut header, &places);
        let known = Known::Corrects(word, 5);
        class.check_with_length(&header, length, &as_marks(&places[..4]), known);
    }
    for length in (0..PLACES).chain([LONGEST + 1, LONGEST + 2, 32_768, 65_536 + 96]) {
        let word = class.code_word();
        let marks = some_marks(&mut class, length % 9);
        let known = Known::Refused(refusal::LENGTH);
        class.check_with_length(&word, length, &marks, known);
    }
    class.report();
}
