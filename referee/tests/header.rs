//! Compares the product's header code with the reference: products, sums,
//! parity, writing parity and mending, with the refusals 3 and 4. Every byte
//! of each lent PDU is compared after each call, and the guards around it.

mod lent;
mod product;

use lent::Lent;
use referee::field;
use referee::header::{self, Header, LONGEST, MENDABLE, PLACES, SUMS};
use referee::linear::bytes_with_sums;
use referee::refusal;
use referee::rng::Rng;
use referee::search::Search;

/// What is known about a case from how it was made, besides what the
/// reference answers.
enum Known {
    Nothing,
    /// Mends to this code word with this count.
    Mends(Header, usize),
    /// Is beyond mending.
    BeyondMending,
}

/// A class of cases with its seed, and what came out so far.
struct Class {
    name: &'static str,
    seed: u64,
    rng: Rng,
    /// One case of so many is also mended by trying all sets of places.
    every: u64,
    search: Search,
    searched: u64,
    cases: u64,
    mended: [u64; MENDABLE + 1],
    wrong_length: u64,
    beyond_mending: u64,
}

impl Class {
    fn new(name: &'static str, seed: u64, every: u64) -> Class {
        Class {
            name,
            seed,
            rng: Rng::new(seed),
            every,
            search: Search::new(),
            searched: 0,
            cases: 0,
            mended: [0; MENDABLE + 1],
            wrong_length: 0,
            beyond_mending: 0,
        }
    }

    /// A random code word.
    fn code_word(&mut self) -> Header {
        let mut header = [0; PLACES];
        self.rng.fill(&mut header);
        let parity = header::parity(&header);
        header[..SUMS].copy_from_slice(&parity);
        header
    }

    /// The word with its bytes at these places altered.
    fn altered(&mut self, word: &Header, places: &[usize]) -> Header {
        let mut header = *word;
        for &place in places {
            header[place] ^= self.rng.nonzero_byte();
        }
        header
    }

    /// The header with the pattern added to its first bytes.
    fn plus_parity(header: &Header, pattern: &[u8; SUMS]) -> Header {
        let mut sum = *header;
        for (byte, add) in sum.iter_mut().zip(pattern) {
            *byte ^= add;
        }
        sum
    }

    /// Compares on a PDU with this header: mostly 96 bytes, also longer.
    fn check(&mut self, header: &Header, known: Known) {
        let length = match self.rng.below(64) {
            0 => LONGEST,
            1..=3 => self.rng.within(97, LONGEST),
            4..=11 => self.rng.within(97, 300),
            _ => PLACES,
        };
        self.check_with_length(header, length, known);
    }

    /// Compares on a PDU with this header and length.
    fn check_with_length(&mut self, header: &Header, length: usize, known: Known) {
        let mut lent = Lent::random(&mut self.rng, length);
        lent.put_header(header);
        self.check_sums_and_parity(header);
        self.check_writing_parity(&lent);
        let answer = self.check_mending(&lent);
        if answer != Err(refusal::LENGTH) {
            self.check_reference(header, answer.ok(), known);
        }
        self.cases += 1;
    }

    /// Compares the reference's answer with what is known about the header,
    /// and for some cases with the search through all sets of places.
    fn check_reference(&mut self, header: &Header, answer: Option<(Header, u32)>, known: Known) {
        match known {
            Known::Nothing => {}
            Known::Mends(word, count) => {
                assert_eq!(answer, Some((word, count as u32)), "{}", self.case())
            }
            Known::BeyondMending => assert_eq!(answer, None, "{}", self.case()),
        }
        if self.cases.is_multiple_of(self.every) {
            let found = self.search.near_code_words(header);
            assert_eq!(
                found,
                answer.into_iter().collect::<Vec<_>>(),
                "the search through all sets of places; {}",
                self.case()
            );
            self.searched += 1;
        }
    }

    fn check_sums_and_parity(&self, header: &Header) {
        let lent = *header;
        let sums = product::syndromes(&lent);
        assert_eq!(sums, header::syndromes(header), "sums; {}", self.case());
        let parity = product::parity(&lent);
        assert_eq!(parity, header::parity(header), "parity; {}", self.case());
        assert_eq!(lent, *header, "header only read; {}", self.case());
    }

    fn check_writing_parity(&self, before: &Lent) {
        let mut wanted = before.clone();
        let wanted_answer = match header::write_parity(wanted.bytes_mut()) {
            Ok(()) => {
                assert!(header::is_code_word(&header::header_of(wanted.bytes())));
                assert_eq!(wanted.bytes()[SUMS..], before.bytes()[SUMS..]);
                0
            }
            Err(number) => {
                assert!(wanted == *before);
                number
            }
        };
        let mut lent = before.clone();
        let answer = product::write_parity(lent.bytes_mut());
        assert_eq!(answer, wanted_answer, "writing parity; {}", self.case());
        assert!(
            lent == wanted,
            "PDU after writing parity: {}; {}",
            lent.differences(&wanted),
            self.case()
        );
    }

    /// Answers what the reference makes of it: the mended header and the
    /// count, or the number of the refusal.
    fn check_mending(&mut self, before: &Lent) -> Result<(Header, u32), u32> {
        let mut wanted = before.clone();
        let reference = header::mend_pdu(wanted.bytes_mut());
        let wanted_answer = match reference {
            Ok(count) => {
                self.mended[count as usize] += 1;
                assert_eq!(wanted.bytes()[PLACES..], before.bytes()[PLACES..]);
                (0, count)
            }
            Err(number) => {
                match number {
                    refusal::LENGTH => self.wrong_length += 1,
                    refusal::BEYOND_MENDING => self.beyond_mending += 1,
                    _ => panic!("refusal {number} can't come from mending"),
                }
                assert!(wanted == *before);
                (number, 0)
            }
        };
        let mut lent = before.clone();
        let answer = product::correct_header(lent.bytes_mut());
        assert_eq!(
            answer,
            wanted_answer,
            "refusal and count of mending; {}",
            self.case()
        );
        assert!(
            lent == wanted,
            "PDU after mending, answer {answer:?}: {}; {}",
            lent.differences(&wanted),
            self.case()
        );
        reference.map(|count| (header::header_of(wanted.bytes()), count))
    }

    /// Which case this is, for messages.
    fn case(&self) -> String {
        format!("{}: seed {:#x}, case {}", self.name, self.seed, self.cases)
    }

    /// Prints what came out, and checks that nothing was forgotten.
    fn report(&self) {
        println!(
            "{}: seed {:#x}, {} cases: mended with count 0 to 4 {:?}, refused with 3 {}, with 4 {}; {} searched",
            self.name,
            self.seed,
            self.cases,
            self.mended,
            self.wrong_length,
            self.beyond_mending,
            self.searched
        );
        let outcomes = self.mended.iter().sum::<u64>() + self.wrong_length + self.beyond_mending;
        assert_eq!(outcomes, self.cases);
    }
}

#[test]
fn products() {
    for x in 0..=255 {
        for y in 0..=255 {
            assert_eq!(
                product::product(x, y),
                field::product(x, y),
                "{x} times {y}"
            );
        }
    }
    println!("products: {} cases", 256 * 256);
}

/// Examples (g), (h) and (i), and the refused length, as the paper has them.
#[test]
fn examples() {
    let mut class = Class::new("examples (g), (h), (i)", 0x4E_0001, 5);
    let mut word = [0; PLACES];
    word[..9].copy_from_slice(&header::generator());
    for zeroed in 0..1u32 << 9 {
        let mut header = word;
        for (place, byte) in header[..9].iter_mut().enumerate() {
            if (zeroed >> place) & 1 != 0 {
                *byte = 0;
            }
        }
        let count = zeroed.count_ones() as usize;
        let known = if count <= 4 {
            Known::Mends(word, count)
        } else {
            Known::Mends([0; PLACES], 9 - count)
        };
        class.check_with_length(&header, PLACES, known);
    }
    class.report();

    let mut pdu = [0x5A; 95];
    assert_eq!(product::correct_header(&mut pdu), (3, 0));
    assert_eq!(product::write_parity(&mut pdu), 3);
    assert_eq!(pdu, [0x5A; 95]);
    println!("length 95: 2 cases");
}

#[test]
fn altered_anywhere() {
    let mut class = Class::new("0 to 12 bytes altered anywhere", 0x4E_0002, 2_999);
    for count in 0..=12 {
        for _ in 0..15_400 {
            let word = class.code_word();
            let places = class.rng.places(count, 0, 95);
            let header = class.altered(&word, &places);
            let known = if count <= MENDABLE {
                Known::Mends(word, count)
            } else {
                Known::Nothing
            };
            class.check(&header, known);
        }
    }
    class.report();
    assert!(class.mended.iter().all(|&cases| cases >= 5_000));
    assert!(class.beyond_mending > 0);
}

fn altered_between(name: &'static str, seed: u64, first: usize, last: usize) {
    let mut class = Class::new(name, seed, 199);
    for count in 0..=last - first + 1 {
        for _ in 0..1_500 {
            let word = class.code_word();
            let places = class.rng.places(count, first, last);
            let header = class.altered(&word, &places);
            let known = if count <= MENDABLE {
                Known::Mends(word, count)
            } else {
                Known::Nothing
            };
            class.check(&header, known);
        }
    }
    class.report();
    assert!(class.mended.iter().all(|&cases| cases >= 1_500));
    assert!(class.beyond_mending > 0);
}

#[test]
fn altered_in_the_parity() {
    altered_between("altered in the parity only", 0x4E_0003, 0, 7);
}

#[test]
fn altered_at_the_end() {
    altered_between("altered at the end only", 0x4E_0004, 88, 95);
}

#[test]
fn every_single_byte() {
    let mut class = Class::new("every place with every change", 0x4E_0005, 499);
    for place in 0..PLACES {
        let word = class.code_word();
        for change in 1..=255 {
            let mut header = word;
            header[place] ^= change;
            class.check(&header, Known::Mends(word, 1));
        }
    }
    class.report();
}

#[test]
fn every_pair_of_places() {
    let mut class = Class::new("every pair of places", 0x4E_0006, 499);
    for first in 0..PLACES {
        for second in 0..first {
            for _ in 0..2 {
                let word = class.code_word();
                let header = class.altered(&word, &[first, second]);
                class.check(&header, Known::Mends(word, 2));
            }
        }
    }
    class.report();
}

#[test]
fn five_to_eight_from_a_code_word() {
    let mut class = Class::new("5 to 8 bytes from a code word", 0x4E_0007, 499);
    for distance in 5..=8 {
        for _ in 0..5_000 {
            let word = class.code_word();
            let places = class.rng.places(distance, 0, 95);
            let header = class.altered(&word, &places);
            class.check(&header, Known::Nothing);
        }
    }
    class.report();
    assert!(class.beyond_mending > 0);
}

/// A code word that is zero except at these places, all of which are used.
/// There are at least nine.
fn code_word_on(class: &mut Class, places: &[usize]) -> Header {
    loop {
        let mut word = [0; PLACES];
        let (free, bound) = places.split_at(places.len() - SUMS);
        for &place in free {
            word[place] = class.rng.nonzero_byte();
        }
        let sums = header::syndromes(&word);
        for (&place, byte) in bound.iter().zip(bytes_with_sums(bound, &sums)) {
            word[place] = byte;
        }
        assert!(header::is_code_word(&word));
        if places.iter().all(|&place| word[place] != 0) {
            return word;
        }
    }
}

/// Between two code words: so far from the one, so far from the other. With
/// the second distance at most four, the other is what it mends to.
#[test]
fn between_two_code_words() {
    let mut class = Class::new("between two code words", 0x4E_0008, 499);
    for from_one in 5..=8 {
        for from_other in 9 - from_one..=6 {
            for _ in 0..1_000 {
                let distance = from_one + from_other;
                let places = class.rng.places(distance, 0, 95);
                let difference = code_word_on(&mut class, &places);
                let one = class.code_word();
                let mut other = one;
                for &place in &places {
                    other[place] ^= difference[place];
                }
                assert!(header::is_code_word(&other));
                let mut header = one;
                for &place in &places[..from_one] {
                    header[place] = other[place];
                }
                assert_eq!(header::differing(&header, &one), from_one);
                assert_eq!(header::differing(&header, &other), from_other);
                let known = if from_other <= MENDABLE {
                    Known::Mends(other, from_other)
                } else {
                    Known::Nothing
                };
                class.check(&header, known);
            }
        }
    }
    class.report();
    assert!(class.mended[1..].iter().all(|&cases| cases >= 1_000));
    assert!(class.beyond_mending > 0);
}

/// The parity that has the same sums as these bytes at these places of the
/// long word, places 96 to 254.
fn parity_like(places: &[usize], bytes: &[u8]) -> [u8; SUMS] {
    let mut sums = [0; SUMS];
    for (index, sum) in sums.iter_mut().enumerate() {
        for (&i, &byte) in places.iter().zip(bytes) {
            *sum ^= field::product(byte, field::power_of_a(i * (index + 1)));
        }
    }
    header::parity_with_sums(&sums)
}

/// Only in the long word of 255 bytes is a code word near: at most four bytes
/// away, with at least one of them at place 96 or above. Code words of the
/// long word differ in at least nine bytes, so none with zeros from place 96
/// on is near, and the header is beyond mending.
#[test]
fn near_only_outside() {
    let mut class = Class::new("near only outside of the 96 places", 0x4E_0009, 997);
    for outside in PLACES..255 {
        for byte in 1..=255 {
            let word = class.code_word();
            let header = Class::plus_parity(&word, &parity_like(&[outside], &[byte]));
            class.check(&header, Known::BeyondMending);
        }
    }
    for outside in 1..=MENDABLE {
        for inside in 0..=MENDABLE - outside {
            for round in 0..3_000 {
                let word = class.code_word();
                // In some rounds only the places nearest to the border.
                let (first, last) = if round % 4 == 0 {
                    (PLACES - 5, PLACES + 4)
                } else {
                    (0, 254)
                };
                let places = class.rng.places(inside, first, PLACES - 1);
                let damaged = class.altered(&word, &places);
                let places = class.rng.places(outside, PLACES, last);
                let bytes: Vec<u8> = places.iter().map(|_| class.rng.nonzero_byte()).collect();
                let header = Class::plus_parity(&damaged, &parity_like(&places, &bytes));
                class.check(&header, Known::BeyondMending);
            }
        }
    }
    class.report();
    assert_eq!(class.beyond_mending, class.cases);
}

/// Headers made for their sums: some sums zero in every possible way.
#[test]
fn sums_with_zeros() {
    let mut class = Class::new("sums with zeros", 0x4E_000A, 199);
    for zeros in 0..=255u8 {
        for _ in 0..40 {
            let mut sums = [0; SUMS];
            for (index, sum) in sums.iter_mut().enumerate() {
                if (zeros >> index) & 1 == 0 {
                    *sum = class.rng.nonzero_byte();
                }
            }
            check_sums(&mut class, &sums);
        }
    }
    class.report();
}

/// Headers made for their sums: each sum follows from the one to four before
/// it by a fixed rule, as it would after alterations, but the rule is any
/// one. Its polynomial may have zeros twice, at places outside, or none.
#[test]
fn sums_by_a_rule() {
    let mut class = Class::new("sums by a rule", 0x4E_000B, 499);
    for length in 1..=MENDABLE {
        for round in 0..6_000 {
            let mut rule = [0; MENDABLE];
            match round % 3 {
                // Any rule, with zeros among its coefficients at times.
                0 => {
                    for coefficient in &mut rule[..length] {
                        *coefficient = class.rng.byte() & class.rng.byte();
                    }
                    if class.rng.below(3) == 0 {
                        rule[length - 1] = 0;
                    }
                }
                // The rule of the factors (X + root), roots inside, at times
                // twice the same.
                1 => {
                    let mut places: Vec<usize> =
                        (0..length).map(|_| class.rng.within(0, 95)).collect();
                    if length > 1 && class.rng.below(2) == 0 {
                        places[1] = places[0];
                    }
                    rule_of(&places, &mut rule);
                }
                // The same with roots anywhere.
                _ => {
                    let places: Vec<usize> =
                        (0..length).map(|_| class.rng.within(0, 254)).collect();
                    rule_of(&places, &mut rule);
                }
            }
            let mut sums = [0; SUMS];
            for n in 0..SUMS {
                sums[n] = if n < length {
                    class.rng.byte()
                } else {
                    (0..length).fold(0, |sum, k| sum ^ field::product(rule[k], sums[n - 1 - k]))
                };
            }
            // At times the rule breaks somewhere, mostly near the end.
            if class.rng.below(4) == 0 {
                let place = class.rng.within(length, SUMS - 1);
                sums[place] ^= class.rng.nonzero_byte();
            }
            check_sums(&mut class, &sums);
        }
    }
    class.report();
    assert!(class.mended[1..].iter().all(|&cases| cases > 0));
    assert!(class.beyond_mending > 0);
}

/// The rule by which a sum follows from those before it when bytes at these
/// places made them: the product of the factors (1 + a^i z).
fn rule_of(places: &[usize], rule: &mut [u8; MENDABLE]) {
    let mut polynomial = [0; MENDABLE + 1];
    polynomial[0] = 1;
    for &place in places {
        for k in (1..=MENDABLE).rev() {
            polynomial[k] ^= field::product(polynomial[k - 1], field::power_of_a(place));
        }
    }
    rule.copy_from_slice(&polynomial[1..]);
}

/// Compares on a header that has these sums.
fn check_sums(class: &mut Class, sums: &[u8; SUMS]) {
    let word = class.code_word();
    let header = Class::plus_parity(&word, &header::parity_with_sums(sums));
    assert_eq!(header::syndromes(&header), *sums);
    class.check(&header, Known::Nothing);
}

#[test]
fn random_words() {
    let mut class = Class::new("random words", 0x4E_000C, 199);
    for _ in 0..20_000 {
        let mut header = [0; PLACES];
        class.rng.fill(&mut header);
        class.check(&header, Known::Nothing);
    }
    class.report();
    assert!(class.beyond_mending > 0);
}

#[test]
fn plain_words() {
    let mut class = Class::new("headers of one repeated byte", 0x4E_000D, 51);
    for byte in 0..=255 {
        class.check(&[byte; PLACES], Known::Nothing);
    }
    class.report();
}

/// Every allowed length, with something to mend or beyond mending.
#[test]
fn every_allowed_length() {
    let mut class = Class::new("every length from 96 to 20,480", 0x4E_000E, 997);
    for length in PLACES..=LONGEST {
        let word = class.code_word();
        let count = class.rng.within(0, 6);
        let places = class.rng.places(count, 0, 95);
        let header = class.altered(&word, &places);
        let known = if count <= MENDABLE {
            Known::Mends(word, count)
        } else {
            Known::Nothing
        };
        class.check_with_length(&header, length, known);
    }
    class.report();
}

/// Lengths that are refused, whatever the bytes are: code words, headers that
/// could be mended, and headers beyond mending as well.
#[test]
fn other_lengths() {
    let mut class = Class::new("lengths not 96 to 20,480", 0x4E_000F, 997);
    let mut lengths: Vec<usize> = (0..PLACES).collect();
    lengths.extend(LONGEST + 1..=LONGEST + 150);
    lengths.extend([24_576, 32_767, 32_768, 40_960, 65_535, 65_536]);
    // Within the bounds again if only 16 bits are looked at.
    lengths.extend([65_536 + 96, 65_536 + 20_480, 131_072 + 200]);
    for _ in 0..100 {
        lengths.push(class.rng.within(LONGEST + 1, 66_000));
    }
    assert!(lengths.contains(&20_500));
    for &length in &lengths {
        for count in [0, 1, 4, 5, 12] {
            let word = class.code_word();
            let places = class.rng.places(count, 0, 95);
            let header = class.altered(&word, &places);
            class.check_with_length(&header, length, Known::Nothing);
        }
    }
    class.report();
    assert_eq!(class.wrong_length, class.cases);
}
