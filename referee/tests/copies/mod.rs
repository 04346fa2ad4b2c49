//! Two copies of a PDU (document 02, Ask 5): how they are made, what a pair of them
//! has to answer and to leave, told from how it was made, and both of the product's
//! calls compared with the reference's.

use crate::attempt::against_product::receiver_for;
use crate::lent::{Lent, LentLog};
use crate::noise::Noise;
use crate::product;
use crate::receptions::Reception;
use crate::told;
use referee::encode::Piece;
use referee::header::{self, LONGEST, PLACES};
use referee::log::{self, Entry};
use referee::pairs;
use referee::receiver::{Answer, Receiver};
use referee::refusal;
use referee::rng::Rng;
use std::collections::BTreeMap;

/// A copy as it is lent, and as an accepted call leaves it.
#[derive(Clone)]
pub struct Copy {
    pub lent: Vec<u8>,
    pub left: Vec<u8>,
    /// How many bytes of the header are altered; none where it is beyond mending.
    pub altered: Option<usize>,
}

impl Copy {
    /// One that can be mended, with up to four bytes of the header altered.
    pub fn mendable(rng: &mut Rng, sent: &[u8]) -> Copy {
        let altered = [0, 4, rng.below(5)][rng.below(3)];
        Copy::altered(rng, sent, altered)
    }

    /// One with so many bytes of the header altered, at most four.
    pub fn altered(rng: &mut Rng, sent: &[u8], altered: usize) -> Copy {
        let mut lent = sent.to_vec();
        Noise::unmarked(altered).alter(rng, &mut lent);
        Copy {
            lent,
            left: sent.to_vec(),
            altered: Some(altered),
        }
    }

    /// One that can't be mended: by its header, or by its length, whatever its
    /// header is.
    pub fn beyond(rng: &mut Rng, sent: &[u8]) -> Copy {
        let mut lent = sent.to_vec();
        match rng.below(32) {
            0 => lent.resize(LONGEST + 1 + rng.below(3), 0),
            1..=8 => lent.truncate([0, 1, 95, rng.below(PLACES)][rng.below(4)]),
            _ => loop {
                lent.copy_from_slice(sent);
                Noise::unmarked(rng.within(5, 60)).alter(rng, &mut lent);
                if header::correct(&header::header_of(&lent)).is_none() {
                    break;
                }
            },
        }
        Copy {
            left: lent.clone(),
            lent,
            altered: None,
        }
    }

    /// Whether it can be mended.
    pub fn mends(&self) -> bool {
        self.altered.is_some()
    }
}

/// How a piece stands in its two copies.
#[derive(Clone, Copy, Debug, PartialEq, Eq, PartialOrd, Ord)]
pub enum Fate {
    RightAndEqual,
    FirstRight,
    SecondRight,
    WrongAndEqual,
    WrongAndNot,
    RightAndNot,
}

pub const FATES: [Fate; 6] = [
    Fate::RightAndEqual,
    Fate::FirstRight,
    Fate::SecondRight,
    Fate::WrongAndEqual,
    Fate::WrongAndNot,
    Fate::RightAndNot,
];

/// Other bytes of the same length.
fn other_bytes(rng: &mut Rng, bytes: &mut [u8]) {
    let count = [1, rng.within(1, bytes.len())][rng.below(2)];
    for place in rng.places(count, 0, bytes.len() - 1) {
        bytes[place] ^= rng.nonzero_byte();
    }
}

/// Makes a piece of both copies, which are equal and right, one of this fate. A
/// wrong one has another CRC, other bytes, or both.
fn make_fate(rng: &mut Rng, first: &mut Piece, second: &mut Piece, fate: Fate) {
    let spoil = |rng: &mut Rng, piece: &mut Piece| {
        piece.crc_error = rng.nonzero_byte();
        if rng.below(2) == 0 {
            other_bytes(rng, &mut piece.bytes);
        }
    };
    match fate {
        Fate::RightAndEqual => {}
        Fate::FirstRight => spoil(rng, second),
        Fate::SecondRight => spoil(rng, first),
        Fate::WrongAndEqual => {
            spoil(rng, first);
            second.clone_from(first);
        }
        Fate::WrongAndNot => {
            spoil(rng, first);
            while first == second || second.crc_error == 0 {
                spoil(rng, second);
            }
        }
        Fate::RightAndNot => other_bytes(rng, &mut second.bytes),
    }
}

/// Two copies of one PDU for a receiver: the first stands with receiver, carry and
/// all else, of the second only the PDU.
#[derive(Clone)]
pub struct Double {
    pub first: Reception,
    pub second: Reception,
}

impl Double {
    /// Two of this PDU, whose pieces have any fate, or all the same. Bytes that
    /// belong to no part may differ.
    pub fn of(rng: &mut Rng, reception: Reception) -> Double {
        let mut first = reception;
        for piece in &mut first.sample.parts.pieces {
            piece.crc_error = 0;
        }
        let mut second = first.clone();
        second.background = [first.background, rng.byte()][rng.below(2)];
        let all = FATES[rng.below(FATES.len())];
        let any = rng.below(4) > 0;
        let pieces = first.sample.parts.pieces.iter_mut();
        for (one, other) in pieces.zip(&mut second.sample.parts.pieces) {
            let fate = if any {
                FATES[rng.below(FATES.len())]
            } else {
                all
            };
            make_fate(rng, one, other, fate);
        }
        Double { first, second }
    }

    /// The PDU with each piece as it has to be taken, and the pieces that are right
    /// in both and differ. Those, and the ones that are wrong in both, have a wrong
    /// CRC in it.
    fn merged(&self) -> (Reception, Vec<usize>) {
        let mut merged = self.first.clone();
        let mut differing = Vec::new();
        for (k, piece) in merged.sample.parts.pieces.iter_mut().enumerate() {
            let other = &self.second.sample.parts.pieces[k];
            match (self.first.is_right(piece), self.first.is_right(other)) {
                (false, true) => piece.clone_from(other),
                (true, true) if piece.bytes != other.bytes => {
                    piece.crc_error ^= 1;
                    differing.push(k);
                }
                _ => {}
            }
        }
        (merged, differing)
    }

    /// What has to come of a pair of these copies, if nothing is wrong.
    pub fn told(&self, copies: &[Copy; 2]) -> Told {
        let [one, other] = copies;
        let (reception, differing) = match (one.mends(), other.mends()) {
            (true, true) => self.merged(),
            (true, false) => (self.first.clone(), Vec::new()),
            _ => (self.second_alone(), Vec::new()),
        };
        let wanted = reception.wanted();
        let noted = |word: u32| match differing.iter().find(|&&k| word == told::note(2, k)) {
            Some(&k) => told::note(7, k),
            None => word,
        };
        Told {
            refusal: 0,
            words: wanted.words.into_iter().map(noted).collect(),
            receiver: wanted.receiver,
            carry: wanted.carry,
            copies: [one.left.clone(), other.left.clone()],
        }
    }

    /// The second copy with the first's receiver and carry.
    fn second_alone(&self) -> Reception {
        let mut second = self.second.clone();
        second.receiver = self.first.receiver;
        second.carry.clone_from(&self.first.carry);
        second
    }

    /// What has to come of a pair of these copies where it is refused.
    pub fn refused(&self, copies: &[Copy; 2], number: u32) -> Told {
        Told {
            refusal: number,
            words: Vec::new(),
            receiver: self.first.receiver,
            carry: self.first.carry.clone(),
            copies: copies.clone().map(|copy| copy.lent),
        }
    }
}

/// What a pair has to answer and to leave. Words of the log behind these stay as
/// they are.
pub struct Told {
    pub refusal: u32,
    pub words: Vec<u32>,
    pub receiver: Receiver,
    pub carry: Vec<u8>,
    pub copies: [Vec<u8>; 2],
}

/// What is lent to a pair's call.
#[derive(Clone, PartialEq, Eq)]
pub struct Loan {
    pub carry: Lent,
    pub first: Lent,
    pub second: Lent,
    pub log: LentLog,
}

impl Loan {
    /// These copies and this carry, with a log of so many words.
    pub fn new(rng: &mut Rng, carry: &[u8], copies: &[Copy; 2], log: usize) -> Loan {
        Loan {
            carry: Lent::of(rng, carry),
            first: Lent::of(rng, &copies[0].lent),
            second: Lent::of(rng, &copies[1].lent),
            log: LentLog::random(rng, log),
        }
    }
}

/// How often each outcome came.
#[derive(Default)]
pub struct Tally {
    pub pairs: u64,
    pub accepted: u64,
    pub words: u64,
    /// By number.
    pub refused: BTreeMap<u32, u64>,
    /// By how many bytes of each copy are altered; 5 is beyond mending.
    pub choices: BTreeMap<(usize, usize), u64>,
    /// Notes, by cause.
    pub notes: BTreeMap<u32, u64>,
    /// Notes that follow each other in one log, by their causes; none before the
    /// first is 0.
    pub orders: BTreeMap<(u32, u32), u64>,
    /// Accepted, by mode and stream.
    pub lines: BTreeMap<(u8, u8), u64>,
}

impl Tally {
    pub fn count(&mut self, copies: &[Copy; 2], answer: &Answer, log: &LentLog) {
        self.pairs += 1;
        let [one, other] = [0, 1].map(|copy: usize| copies[copy].altered.unwrap_or(5));
        *self.choices.entry((one, other)).or_default() += 1;
        if answer.refusal != 0 {
            *self.refused.entry(answer.refusal).or_default() += 1;
            return;
        }
        self.accepted += 1;
        self.words += answer.words as u64;
        let line = (answer.receiver.mode, answer.receiver.stream);
        *self.lines.entry(line).or_default() += 1;
        let entries = log::entries(&log.words()[..answer.words]).expect("entries");
        let mut before = 0;
        for entry in entries {
            if let Entry::Note(note) = entry {
                *self.notes.entry(note.cause()).or_default() += 1;
                *self.orders.entry((before, note.cause())).or_default() += 1;
                before = note.cause();
            }
        }
    }

    pub fn report(&self, class: &str) {
        println!(
            "{class}: {} pairs compared, {} accepted, {} words, refused by number {:?}, notes {:?}",
            self.pairs, self.accepted, self.words, self.refused, self.notes
        );
    }

    pub fn refused_with(&self, number: u32) -> u64 {
        self.refused.get(&number).copied().unwrap_or(0)
    }
}

/// Makes both calls and compares; the answer, and what is lent afterwards.
pub fn compare(
    tally: &mut Tally,
    receiver: Receiver,
    copies: &[Copy; 2],
    before: &Loan,
    told: &Told,
) -> (Answer, Loan) {
    check_choice(copies, before);
    let mut loan = before.clone();
    let answer = pairs::receive(
        receiver,
        loan.carry.bytes_mut(),
        loan.first.bytes_mut(),
        loan.second.bytes_mut(),
        loan.log.words_mut(),
    );
    check_told(before, told, &answer, &loan);
    check_product(receiver, before, &answer, &loan);
    tally.count(copies, &answer, &loan.log);
    (answer, loan)
}

/// The product's pair against the reference's.
pub fn check_product(receiver: Receiver, before: &Loan, answer: &Answer, right: &Loan) {
    let mut loan = before.clone();
    let is_so = product::pairs::receive(
        receiver_for(&receiver),
        &mut loan.carry,
        &mut loan.first,
        &mut loan.second,
        &mut loan.log,
    );
    let wanted = product::receiver::Received {
        refusal: answer.refusal,
        wrong_locator: answer.k() as u32,
        words: answer.words as u32,
        receiver: receiver_for(&answer.receiver),
    };
    assert_eq!(is_so, wanted, "{answer:?}");
    for (what, is_so, right) in [
        ("carry", &loan.carry, &right.carry),
        ("first copy", &loan.first, &right.first),
        ("second copy", &loan.second, &right.second),
    ] {
        assert!(is_so == right, "{what}: {}", is_so.differences(right));
    }
    assert!(
        loan.log == right.log,
        "log: {}",
        loan.log.differences(&right.log)
    );
}

/// The reference's answer and buffers against what is told.
fn check_told(before: &Loan, told: &Told, answer: &Answer, loan: &Loan) {
    assert_eq!(answer.refusal, told.refusal, "{answer:?}");
    let (words, rest) = loan.log.words().split_at(answer.words);
    assert!(words == told.words, "words, {answer:?}");
    assert!(rest == &before.log.words()[answer.words..], "log behind");
    assert_eq!(answer.receiver, told.receiver);
    assert!(loan.carry.bytes() == told.carry, "carry, {answer:?}");
    let copies = [&loan.first, &loan.second];
    for (copy, told) in copies.into_iter().zip(&told.copies) {
        assert!(copy.bytes() == told, "a copy, {answer:?}");
    }
    assert!(answer.refusal == refusal::LOCATOR || answer.k() == 0);
}

/// The chosen copy: told from how many bytes are altered, by the reference, and by
/// the product, which changes nothing.
pub fn check_choice(copies: &[Copy; 2], before: &Loan) {
    let told = match (copies[0].altered, copies[1].altered) {
        (None, None) => 0,
        (None, Some(_)) => 2,
        (Some(one), Some(other)) if other < one => 2,
        _ => 1,
    };
    let (first, second) = (before.first.bytes(), before.second.bytes());
    let chosen = pairs::choose(first, second);
    let wanted = [&first[..0], first, second][told];
    assert_eq!(
        chosen.as_ptr_range(),
        wanted.as_ptr_range(),
        "chosen {told}"
    );
    let after = before.clone();
    let number = product::pairs::choose(&after.first, &after.second);
    assert_eq!(number as usize, told, "by the product");
    assert!(after == *before, "changed by choosing");
}
