//! Compares the product's batches of PDUs (document 02, Ask 1) with the
//! reference: batches of none to twenty PDUs in every mode and stream, each
//! refusal at each place, logs one word short at each place, what is judged
//! before the first PDU, and whole drives in which batches stand among single
//! calls and lost PDUs (demand 3). What a batch has to answer and to leave is
//! told from how its PDUs were made; each is also received by the product one
//! call after another.

#[allow(dead_code)]
mod attempt;
#[allow(dead_code)]
mod calls;
#[allow(dead_code)]
mod drives;
mod lent;
mod noise;
mod product;
#[allow(dead_code)]
mod receptions;
#[allow(dead_code)]
mod samples;
#[allow(dead_code)]
mod spoiling;
#[allow(dead_code)]
mod told;

use attempt::against_product::receiver_for;
use drives::{List, Seen, STYLES};
use lent::{Lent, LentLog, LentSizes};
use noise::Noise;
use product::batches::Batch;
use receptions::{right_crcs, some_carry, some_held, spoil, spoil_state, spoilable, Reception};
use referee::batches::{self, Answer};
use referee::header::{self, LONGEST};
use referee::modes::{Line, TABLE};
use referee::receiver::{self, Receiver, LOG_WORDS};
use referee::refusal;
use referee::rng::Rng;
use samples::Wish;
use std::collections::BTreeMap;
use std::ops::Range;

/// The most PDUs of a batch here.
const MOST: usize = 20;

/// What is lent to a batch.
#[derive(Clone)]
struct Loan {
    carry: Lent,
    pdus: Lent,
    lengths: LentSizes,
    log: LentLog,
}

/// What a batch has to answer and to leave, told from how it was made. Words of
/// the log behind these stay as they are.
struct Told {
    refusal: u32,
    taken: usize,
    words: Vec<u32>,
    receiver: Receiver,
    carry: Vec<u8>,
    pdus: Vec<u8>,
}

/// How often each outcome came.
#[derive(Default)]
struct Tally {
    batches: u64,
    /// PDUs of all batches, and those that were taken.
    pdus: u64,
    taken: u64,
    words: u64,
    /// Accepted batches, by how many PDUs they have.
    accepted: BTreeMap<usize, u64>,
    /// Refused batches, by number, and by how many PDUs were taken.
    refused: BTreeMap<u32, BTreeMap<usize, u64>>,
}

impl Tally {
    fn count(&mut self, answer: &Answer, pdus: usize) {
        self.batches += 1;
        self.pdus += pdus as u64;
        self.taken += answer.taken as u64;
        self.words += answer.words as u64;
        let places = match answer.refusal {
            0 => &mut self.accepted,
            number => self.refused.entry(number).or_default(),
        };
        *places.entry(answer.taken).or_default() += 1;
    }

    fn report(&self, class: &str) {
        println!(
            "{class}: {} batches of {} PDUs compared, {} PDUs taken, {} words",
            self.batches, self.pdus, self.taken, self.words
        );
        println!("{class}: accepted by count of PDUs {:?}", self.accepted);
        for (number, places) in &self.refused {
            println!("{class}: refused with {number} by place {places:?}");
        }
    }

    /// Batches refused with this number at this place.
    fn refused_at(&self, number: u32, place: usize) -> u64 {
        let places = self.refused.get(&number);
        places
            .and_then(|places| places.get(&place))
            .copied()
            .unwrap_or(0)
    }
}

/// The random numbers for a class of cases; its seed is printed.
fn seeded(class: &str, seed: u64) -> Rng {
    println!("{class}: seed {seed:#x}");
    Rng::new(seed)
}

/// Makes the batch's call and compares; what is lent afterwards, and the answer.
fn compare(tally: &mut Tally, receiver: Receiver, before: &Loan, told: &Told) -> (Answer, Loan) {
    let mut loan = before.clone();
    let answer = batches::receive(
        receiver,
        loan.carry.bytes_mut(),
        loan.pdus.bytes_mut(),
        before.lengths.sizes(),
        loan.log.words_mut(),
    );
    check_told(before, told, &answer, &loan);
    let right = batch_for(&answer);
    let (is_so, after) = by_product(receiver, before);
    assert_eq!(is_so, right, "{answer:?}");
    check_loans("in one call", &after, &loan);
    if !matches!(
        answer.refusal,
        refusal::STATE | refusal::CARRY | refusal::LENGTHS
    ) {
        let (is_so, after) = one_by_one(receiver, before);
        assert_eq!(is_so, right, "one by one, {answer:?}");
        check_loans("one by one", &after, &loan);
    }
    tally.count(&answer, before.lengths.sizes().len());
    (answer, loan)
}

/// The reference's answer and buffers against what is told.
fn check_told(before: &Loan, told: &Told, answer: &Answer, loan: &Loan) {
    assert_eq!(
        (answer.refusal, answer.taken),
        (told.refusal, told.taken),
        "{answer:?}"
    );
    let (words, rest) = loan.log.words().split_at(answer.words);
    assert!(words == told.words, "words, {answer:?}");
    assert!(
        rest == &before.log.words()[answer.words..],
        "log behind the words"
    );
    assert_eq!(answer.receiver, told.receiver);
    assert!(loan.carry.bytes() == told.carry, "carry, {answer:?}");
    assert!(loan.pdus.bytes() == told.pdus, "PDUs, {answer:?}");
    assert!(answer.refusal == refusal::LOCATOR || answer.k == 0);
}

/// The product's answer that says what the reference's says.
fn batch_for(answer: &Answer) -> Batch {
    Batch {
        refusal: answer.refusal,
        wrong_locator: answer.k as u32,
        taken: answer.taken,
        words: answer.words,
        receiver: receiver_for(&answer.receiver),
    }
}

/// The product's batch.
fn by_product(receiver: Receiver, before: &Loan) -> (Batch, Loan) {
    let mut loan = before.clone();
    let batch = product::batches::receive(
        receiver_for(&receiver),
        &mut loan.carry,
        &mut loan.pdus,
        &loan.lengths,
        &mut loan.log,
    );
    (batch, loan)
}

/// The product's single calls, one after another.
fn one_by_one(receiver: Receiver, before: &Loan) -> (Batch, Loan) {
    let mut loan = before.clone();
    let mut batch = Batch {
        refusal: 0,
        wrong_locator: 0,
        taken: 0,
        words: 0,
        receiver: receiver_for(&receiver),
    };
    let carry = loan.carry.bytes_mut();
    let mut rest = loan.pdus.bytes_mut();
    let log = loan.log.words_mut();
    for &length in before.lengths.sizes() {
        let (pdu, after) = rest.split_at_mut(length);
        let left = &mut log[batch.words..];
        let answer = product::receiver::receive_part(batch.receiver, carry, pdu, left);
        batch.receiver = answer.receiver;
        if answer.refusal != 0 {
            batch.refusal = answer.refusal;
            batch.wrong_locator = answer.wrong_locator;
            break;
        }
        batch.taken += 1;
        batch.words += answer.words as usize;
        rest = after;
    }
    (batch, loan)
}

/// Every lent byte and word, with all guards.
fn check_loans(how: &str, loan: &Loan, right: &Loan) {
    assert!(
        loan.carry == right.carry,
        "carry {how}: {}",
        loan.carry.differences(&right.carry)
    );
    assert!(
        loan.pdus == right.pdus,
        "PDUs {how}: {}",
        loan.pdus.differences(&right.pdus)
    );
    assert!(loan.lengths == right.lengths, "lengths {how}");
    assert!(
        loan.log == right.log,
        "log {how}: {}",
        loan.log.differences(&right.log)
    );
}

/// A batch that is put together, with what comes of its PDUs so far.
struct Frame {
    line: Line,
    /// Before the first PDU.
    receiver: Receiver,
    carry: Vec<u8>,
    /// The PDUs as they are lent.
    lent: Vec<Vec<u8>>,
    /// The PDUs as they are left, if they are taken.
    left: Vec<Vec<u8>>,
    /// After the PDUs so far.
    next: Receiver,
    next_carry: Vec<u8>,
    /// The log of each.
    words: Vec<Vec<u32>>,
}

impl Frame {
    /// No PDU yet, for a receiver in any state.
    fn new(rng: &mut Rng, line: Line) -> Frame {
        let wish = Wish {
            line: Some(line),
            length: Some(96),
            ..Wish::default()
        };
        let mut reception = Reception::new(rng, &wish);
        let held = some_held(rng, &reception.sample);
        reception.hold(rng, held);
        let receiver = Receiver {
            register: [0, 255, rng.byte()][rng.below(3)],
            ..reception.receiver
        };
        Frame::after(line, receiver, some_carry(rng))
    }

    /// No PDU yet, for this receiver and carry.
    fn after(line: Line, receiver: Receiver, carry: Vec<u8>) -> Frame {
        Frame {
            line,
            receiver,
            carry: carry.clone(),
            lent: Vec::new(),
            left: Vec::new(),
            next: receiver,
            next_carry: carry,
            words: Vec::new(),
        }
    }

    /// A PDU for the receiver, most often one that goes on where it stands.
    fn following(&self, rng: &mut Rng) -> Reception {
        let wish = Wish {
            line: Some(self.line),
            nop: Some([rng.below(3), rng.below(3), rng.below(12)][rng.below(3)]),
            length: Some(rng.within(96, 130)),
            ..Wish::default()
        };
        let mut reception = Reception::new(rng, &wish);
        if rng.below(4) > 0 {
            right_crcs(&mut reception.sample);
        }
        reception.sample.parts.register = self.next.register;
        let word = &mut reception.sample.parts.control;
        if rng.below(8) > 0 {
            word.sequence = (self.next.sequence + 1) % self.line.sequences;
        }
        if self.next.held > 0 && rng.below(8) > 0 {
            word.start = (self.next.number + 1) % 64;
            word.pfirst = word.nop > 0;
        }
        reception.receiver = self.next;
        reception.carry.clone_from(&self.next_carry);
        reception
    }

    /// Another PDU that is taken, with up to four bytes of its header altered.
    fn push(&mut self, rng: &mut Rng) {
        let reception = self.following(rng);
        let wanted = reception.wanted();
        let mut lent = wanted.pdu.clone();
        reception.noise.alter(rng, &mut lent);
        self.lent.push(lent);
        self.left.push(wanted.pdu);
        self.words.push(wanted.words);
        self.next = wanted.receiver;
        self.next_carry = wanted.carry;
    }

    /// Another PDU that is refused with this number, 3 to 12.
    fn push_refused(&mut self, rng: &mut Rng, number: u32) {
        self.lent.push(refused_pdu(rng, self.line, number));
    }

    /// Others behind a refused one: their bytes can be any.
    fn push_any(&mut self, rng: &mut Rng, count: usize) {
        for _ in 0..count {
            let mut bytes = vec![0; [0, 95, 96, rng.below(200)][rng.below(4)]];
            rng.fill(&mut bytes);
            self.lent.push(bytes);
        }
    }

    fn lengths(&self) -> Vec<usize> {
        self.lent.iter().map(Vec::len).collect()
    }

    /// How many words the first PDUs write.
    fn words_of(&self, taken: usize) -> usize {
        self.words[..taken].iter().map(Vec::len).sum()
    }

    /// What is lent, with a log of so many words.
    fn loan(&self, rng: &mut Rng, log: usize) -> Loan {
        Loan {
            carry: Lent::of(rng, &self.carry),
            pdus: Lent::of(rng, &self.lent.concat()),
            lengths: LentSizes::of(rng, &self.lengths()),
            log: LentLog::random(rng, log),
        }
    }

    /// What has to come of it, where all that can be taken are, up to one that is
    /// refused with this number.
    fn told(&self, number: u32) -> Told {
        let taken = self.left.len();
        Told {
            refusal: number,
            taken,
            words: self.words.concat(),
            receiver: self.next,
            carry: self.next_carry.clone(),
            pdus: [self.left.concat(), self.lent[taken..].concat()].concat(),
        }
    }

    /// What has to come of it where it is refused as a whole.
    fn untouched(&self, number: u32) -> Told {
        Told {
            refusal: number,
            taken: 0,
            words: Vec::new(),
            receiver: self.receiver,
            carry: self.carry.clone(),
            pdus: self.lent.concat(),
        }
    }
}

/// A PDU that a receiver of this line refuses with this number, 3 to 12.
fn refused_pdu(rng: &mut Rng, line: Line, number: u32) -> Vec<u8> {
    let sent = match number {
        refusal::NOT_THOSE_OPENED => another(rng, line),
        _ => line,
    };
    let mut reception = spoilable(rng, sent);
    let mut altered = rng.below(5);
    match number {
        refusal::NOT_THOSE_OPENED => {}
        refusal::LENGTH => {
            let long = rng.below(64) == 0;
            let length = if long { LONGEST + 1 } else { rng.below(96) };
            let mut bytes = vec![0; length];
            rng.fill(&mut bytes);
            return bytes;
        }
        refusal::BEYOND_MENDING => altered = rng.within(5, 60),
        refusal::PIECES => {
            let word = &mut reception.sample.parts.control;
            word.nop = 0;
            word.pfirst = rng.below(2) == 0;
            word.plast = !word.pfirst || rng.below(2) == 0;
        }
        number => spoil(rng, &mut reception, number),
    }
    let sent = reception.pdu();
    loop {
        let mut pdu = sent.clone();
        Noise::unmarked(altered).alter(rng, &mut pdu);
        let mended = header::correct(&header::header_of(&pdu));
        if mended.is_none() == (number == refusal::BEYOND_MENDING) {
            return pdu;
        }
    }
}

/// Another line of the table.
fn another(rng: &mut Rng, line: Line) -> Line {
    loop {
        let other = TABLE[rng.below(TABLE.len())];
        if other != line {
            return other;
        }
    }
}

/// A line whose PDUs can be refused with this number.
fn some_line(rng: &mut Rng, number: u32) -> Line {
    receptions::some_line(rng, &[number])
}

/// A log that is long enough: just so, or with some words more.
fn enough(rng: &mut Rng, words: usize) -> usize {
    words + [0, 0, 1, rng.below(40)][rng.below(4)]
}

/// None to twenty PDUs, all taken.
#[test]
fn taken() {
    let mut rng = seeded("batches taken", 0xBA_0001);
    let mut tally = Tally::default();
    for case in 0..84_000 {
        let mut frame = Frame::new(&mut rng, TABLE[case % TABLE.len()]);
        for _ in 0..case / TABLE.len() % (MOST + 1) {
            frame.push(&mut rng);
        }
        let told = frame.told(0);
        let log = enough(&mut rng, told.words.len());
        let loan = frame.loan(&mut rng, log);
        compare(&mut tally, frame.receiver, &loan, &told);
    }
    tally.report("batches taken");
    assert!((0..=MOST).all(|count| tally.accepted[&count] >= 1_000));
}

/// Each number, 3 to 12, at each place.
#[test]
fn refused_at_each_place() {
    let mut rng = seeded("batches refused", 0xBA_0002);
    let mut tally = Tally::default();
    for number in 3..=12 {
        for case in 0..400 * MOST {
            let place = case % MOST;
            let line = some_line(&mut rng, number);
            let mut frame = Frame::new(&mut rng, line);
            for _ in 0..place {
                frame.push(&mut rng);
            }
            frame.push_refused(&mut rng, number);
            let behind = rng.below(MOST - place);
            frame.push_any(&mut rng, behind);
            let told = frame.told(number);
            let log = enough(&mut rng, told.words.len());
            let loan = frame.loan(&mut rng, log);
            compare(&mut tally, frame.receiver, &loan, &told);
        }
    }
    tally.report("batches refused");
    let each = (3..=12).flat_map(|number| (0..MOST).map(move |place| (number, place)));
    assert!(each
        .into_iter()
        .all(|(number, place)| tally.refused_at(number, place) >= 400));
}

/// Logs one word short at each place, and of any length between.
#[test]
fn logs() {
    let mut rng = seeded("logs of batches", 0xBA_0003);
    let mut tally = Tally::default();
    let mut short_by_one = 0;
    for case in 0..1_600 * MOST {
        let place = case % MOST;
        let mut frame = Frame::new(&mut rng, TABLE[case / MOST % TABLE.len()]);
        for _ in 0..place {
            frame.push(&mut rng);
        }
        // A PDU that writes some words is refused, and others stand behind it.
        let one = loop {
            let reception = frame.following(&mut rng);
            if !reception.wanted().words.is_empty() {
                break reception;
            }
        };
        let needed = one.wanted().words.len();
        let mut pdu = one.pdu();
        one.noise.alter(&mut rng, &mut pdu);
        frame.lent.push(pdu);
        let behind = rng.below(MOST - place);
        frame.push_any(&mut rng, behind);
        let short = if case % 4 == 0 {
            rng.within(1, needed)
        } else {
            1
        };
        short_by_one += u64::from(short == 1);
        let told = frame.told(refusal::LOG);
        let log = frame.words_of(place) + needed - short;
        let loan = frame.loan(&mut rng, log);
        compare(&mut tally, frame.receiver, &loan, &told);
    }
    tally.report("logs of batches");
    println!("logs of batches: {short_by_one} of them one word short");
    assert!((0..MOST).all(|place| tally.refused_at(refusal::LOG, place) >= 1_600));
}

/// Lengths that do not sum to so many bytes.
fn wrong_lengths(rng: &mut Rng, lengths: &[usize]) -> Vec<usize> {
    let mut wrong = lengths.to_vec();
    let more = [1, 2, 96, rng.within(1, 500)][rng.below(4)];
    let any = rng.below(wrong.len().max(1));
    match rng.below(6) {
        // Right once more, if the sum wrapped.
        0 => {
            wrong.insert(any, usize::MAX);
            wrong.push(1);
        }
        1 => wrong.extend([1 << 63, 1 << 63]),
        2 if wrong.iter().any(|&length| length > 0) => {
            let place = wrong.iter().position(|&length| length > 0);
            wrong[place.expect("a length over 0")] -= 1;
        }
        3 if !wrong.is_empty() => wrong[any] += more,
        4 if wrong.last() > Some(&0) => {
            wrong.pop();
        }
        _ => wrong.push(more),
    }
    wrong
}

/// What is wrong with a batch as a whole, besides anything that is wrong with its
/// PDUs: 1, 2 and 18, each alone and each two or three together.
#[test]
fn before_the_first() {
    let mut rng = seeded("batches as a whole", 0xBA_0004);
    let mut tally = Tally::default();
    for case in 0..28_000 {
        let set = case % 7 + 1;
        let mut frame = Frame::new(&mut rng, TABLE[case / 7 % TABLE.len()]);
        let count = [0, 1, rng.below(6)][rng.below(3)];
        for _ in 0..count {
            frame.push(&mut rng);
        }
        let behind = [0, 0, 1, rng.below(4)][rng.below(4)];
        frame.push_any(&mut rng, behind);
        if set & 1 != 0 {
            spoil_state(&mut rng, &mut frame.receiver);
        }
        if set & 2 != 0 {
            let short = [0, 1, 4_095, rng.below(4_096)][rng.below(4)];
            frame.carry.truncate(short);
        }
        let number = [1, 2, 18][set.trailing_zeros() as usize];
        let log = [0, rng.below(60)][rng.below(2)];
        let mut loan = frame.loan(&mut rng, log);
        if set & 4 != 0 {
            let wrong = wrong_lengths(&mut rng, &frame.lengths());
            loan.lengths = LentSizes::of(&mut rng, &wrong);
        }
        compare(&mut tally, frame.receiver, &loan, &frame.untouched(number));
    }
    tally.report("batches as a whole");
    for number in [1, 2, 18] {
        assert!(tally.refused_at(number, 0) >= 4_000);
    }
}

/// A batch with these lengths and bytes, told by its number.
fn edge(
    tally: &mut Tally,
    receiver: Receiver,
    carry: usize,
    bytes: &[u8],
    lengths: &[usize],
) -> u32 {
    let mut rng = Rng::new(0xBA_0005);
    let loan = Loan {
        carry: Lent::random(&mut rng, carry),
        pdus: Lent::of(&mut rng, bytes),
        lengths: LentSizes::of(&mut rng, lengths),
        log: LentLog::random(&mut rng, 50),
    };
    let (batch, _) = by_product(receiver, &loan);
    let told = Told {
        refusal: batch.refusal,
        taken: 0,
        words: Vec::new(),
        receiver,
        carry: loan.carry.bytes().to_vec(),
        pdus: bytes.to_vec(),
    };
    compare(tally, receiver, &loan, &told).0.refusal
}

/// The edges of 18, and what comes before it.
#[test]
fn edges() {
    let mut tally = Tally::default();
    let fresh = receiver::open(0, 0).expect("a line of the table");
    let wrong = Receiver { number: 1, ..fresh };
    let mut of = |receiver, carry, bytes: &[u8], lengths: &[usize]| {
        edge(&mut tally, receiver, carry, bytes, lengths)
    };
    assert_eq!(of(fresh, 4_096, &[], &[]), 0);
    assert_eq!(of(fresh, 4_096, &[], &[0]), 3);
    assert_eq!(of(fresh, 4_096, &[], &[0, 0]), 3);
    assert_eq!(of(fresh, 4_096, &[7], &[]), 18);
    assert_eq!(of(fresh, 4_096, &[7; 191], &[95, 96]), 3);
    assert_eq!(of(fresh, 4_096, &[7; 192], &[95, 96]), 18);
    assert_eq!(of(fresh, 4_096, &[7; 96], &[96]), 4);
    assert_eq!(of(fresh, 4_096, &[7; 96], &[usize::MAX, 97]), 18);
    assert_eq!(of(fresh, 4_096, &[7; 96], &[1 << 63, 1 << 63, 96]), 18);
    assert_eq!(of(fresh, 4_096, &[], &[1 << 63, 1 << 63]), 18);
    for (bytes, lengths) in [
        (&[][..], &[][..]),
        (&[], &[0]),
        (&[7], &[]),
        (&[7; 192], &[95, 96]),
    ] {
        for carry in [0, 4_095, 4_096] {
            assert_eq!(of(wrong, carry, bytes, lengths), 1);
        }
        assert_eq!(of(fresh, 4_095, bytes, lengths), 2);
    }
    tally.report("edges of 18");
}

/// What drives in batches had.
#[derive(Default)]
struct Roads {
    batches: Tally,
    /// Single calls, and PDUs marked lost.
    single: u64,
    lost: u64,
    /// Batches of the run that stopped at a refused PDU, by how many PDUs were
    /// received before it.
    stopped: BTreeMap<usize, u64>,
    /// Batches of which nothing was received.
    refused: u64,
}

/// A receiver on its drive.
struct Road<'a> {
    rng: &'a mut Rng,
    roads: &'a mut Roads,
    line: Line,
    receiver: Receiver,
    carry: Vec<u8>,
    /// The logs, each as far as its answer counts.
    joined: Vec<u32>,
}

impl Road<'_> {
    /// A log of 8,400 words for each PDU.
    fn log(&mut self, pdus: usize) -> LentLog {
        LentLog::of(self.rng, &vec![0x5A5A_5A5A; LOG_WORDS * pdus])
    }

    fn altered(&mut self, pdu: &[u8]) -> Vec<u8> {
        let mut pdu = pdu.to_vec();
        let count = [0, 4, self.rng.below(5)][self.rng.below(3)];
        Noise::unmarked(count).alter(self.rng, &mut pdu);
        pdu
    }

    /// Makes the batch's call, of whose PDUs so many have to be taken.
    fn call(&mut self, pdus: &[Vec<u8>], lengths: &[usize], taken: usize) -> (Answer, Loan) {
        let before = Loan {
            carry: Lent::of(self.rng, &self.carry),
            pdus: Lent::of(self.rng, &pdus.concat()),
            lengths: LentSizes::of(self.rng, lengths),
            log: self.log(pdus.len()),
        };
        let mut loan = before.clone();
        let answer = batches::receive(
            self.receiver,
            loan.carry.bytes_mut(),
            loan.pdus.bytes_mut(),
            lengths,
            loan.log.words_mut(),
        );
        assert_eq!(answer.taken, taken);
        let (is_so, after) = by_product(self.receiver, &before);
        assert_eq!(is_so, batch_for(&answer));
        check_loans("in one call", &after, &loan);
        self.roads.batches.count(&answer, lengths.len());
        (answer, loan)
    }

    /// Receives PDUs of the run in one call. Others may stand behind them, of
    /// which the first is refused.
    fn batch(&mut self, sent: &[&[u8]]) {
        let mut pdus: Vec<Vec<u8>> = sent.iter().map(|pdu| self.altered(pdu)).collect();
        if self.rng.below(3) == 0 {
            let number = self.some_number();
            pdus.push(refused_pdu(self.rng, self.line, number));
            let behind = self.rng.below(3);
            pdus.extend(vec![vec![0x33; 96]; behind]);
            *self.roads.stopped.entry(sent.len()).or_default() += 1;
        }
        let lengths: Vec<usize> = pdus.iter().map(Vec::len).collect();
        let (answer, loan) = self.call(&pdus, &lengths, sent.len());
        let received = sent.concat();
        assert!(loan.pdus.bytes()[..received.len()] == received, "as sent");
        self.receiver = answer.receiver;
        self.carry = loan.carry.bytes().to_vec();
        self.joined.extend(&loan.log.words()[..answer.words]);
    }

    /// A number, 3 to 12, with which a PDU can be refused here.
    fn some_number(&mut self) -> u32 {
        match self.rng.within(3, 12) as u32 {
            refusal::SEQUENCE if self.line.sequences == 8 => refusal::LA,
            number => number,
        }
    }

    /// A batch of which nothing is received: 18, or its first PDU is refused. It
    /// changes nothing.
    fn refused(&mut self, next: &[u8]) {
        let mut pdus = vec![next.to_vec()];
        let mut lengths = vec![next.len()];
        if self.rng.below(2) == 0 {
            lengths = wrong_lengths(self.rng, &lengths);
        } else {
            let number = self.some_number();
            let first = refused_pdu(self.rng, self.line, number);
            lengths.insert(0, first.len());
            pdus.insert(0, first);
        }
        let (answer, loan) = self.call(&pdus, &lengths, 0);
        assert_ne!(answer.refusal, 0);
        assert_eq!(answer.receiver, self.receiver);
        assert!(loan.carry.bytes() == self.carry && loan.pdus.bytes() == pdus.concat());
        self.roads.refused += 1;
    }

    /// Receives a PDU by a call of its own.
    fn single(&mut self, pdu: &[u8]) {
        let mut lent = self.altered(pdu);
        let mut log = vec![0; LOG_WORDS];
        let answer = product::receiver::receive_part(
            receiver_for(&self.receiver),
            &mut self.carry.clone(),
            &mut lent.clone(),
            &mut log,
        );
        let right = receiver::receive(self.receiver, &mut self.carry, &mut lent, &mut log);
        assert_eq!(right.causes, []);
        assert_eq!(
            (answer.words as usize, answer.receiver),
            (right.words, receiver_for(&right.receiver))
        );
        self.receiver = right.receiver;
        self.joined.extend(&log[..right.words]);
        self.roads.single += 1;
    }

    /// Marks a PDU lost.
    fn lose(&mut self) {
        let mut log = self.log(1);
        let answer = product::receiver::mark_lost(receiver_for(&self.receiver), &mut log);
        let right = receiver::mark_lost(self.receiver, &mut [0]);
        assert_eq!(answer.receiver, receiver_for(&right.receiver));
        self.receiver = right.receiver;
        self.joined.extend(&log.words()[..answer.words as usize]);
        self.roads.lost += 1;
    }
}

/// Goes through a run of a list's PDUs: the lost ones are marked, the others come
/// singly or in batches. The joined log.
fn drive(
    rng: &mut Rng,
    roads: &mut Roads,
    list: &List,
    run: &Range<usize>,
    lost: &[bool],
) -> (Vec<u32>, Receiver) {
    let line = list.line;
    let carry = some_carry(rng);
    let receiver =
        receiver::open_with(line.mode, line.stream, list.register()).expect("a line of the table");
    let mut road = Road {
        rng,
        roads,
        line,
        receiver,
        carry,
        joined: Vec::new(),
    };
    let mut index = run.start;
    while index < run.end {
        let pdus = &list.pdus[index..run.end];
        let here = &lost[index - run.start..];
        if road.rng.below(6) == 0 {
            road.refused(&pdus[0].pdu);
        }
        let in_a_row = here.iter().take_while(|&&lost| !lost).count();
        if in_a_row == 0 {
            road.lose();
            index += 1;
        } else if road.rng.below(4) == 0 {
            road.single(&pdus[0].pdu);
            index += 1;
        } else {
            let most = in_a_row.min(MOST);
            let count = [most, road.rng.within(0, most)][road.rng.below(2)];
            let sent: Vec<&[u8]> = pdus[..count].iter().map(|sent| &sent.pdu[..]).collect();
            road.batch(&sent);
            index += count;
        }
    }
    (road.joined, road.receiver)
}

/// Whole drives over all modes and streams, with any register.
#[test]
fn driving() {
    let mut rng = seeded("drives in batches", 0xBA_0006);
    let mut roads = Roads::default();
    let mut seen = Seen::default();
    for case in 0..6_000 {
        let line = TABLE[case % TABLE.len()];
        let style = STYLES[case / TABLE.len() % STYLES.len()];
        let register = [0, 255, rng.byte()][rng.below(3)];
        let list = List::random(&mut rng, line, style, register);
        let run = drives::some_run(&mut rng, list.pdus.len());
        let range = usize::from(line.sequences);
        let lost = drives::some_lost(&mut rng, run.len(), range);
        let (joined, left) = drive(&mut rng, &mut roads, &list, &run, &lost);
        let (drives, sums) = (seen.drives, &mut seen.sums);
        let left = drives::counts(&left);
        drives::check(drives, sums, &list, &run, &lost, true, &joined, left);
        drives::count(&mut seen, &list, &run, &lost, true);
    }
    roads.batches.report("drives in batches");
    println!(
        "drives in batches: {} drives, {} PDUs received, {} of them by single calls, {} lost, {} \
         batches of which nothing is received, {} of {} packets logged",
        seen.drives,
        seen.received,
        roads.single,
        roads.lost,
        roads.refused,
        seen.logged,
        seen.packets
    );
    println!(
        "drives in batches: stopped at a refused PDU, by how many were received {:?}",
        roads.stopped
    );
    seen.sums.report("drives in batches");
    assert!(seen.sums.with_missing >= 1_000);
    assert_eq!(roads.lost, seen.lost);
    assert_eq!(roads.batches.taken + roads.single, seen.received);
    assert!(roads.stopped[&2] >= 100 && roads.refused >= 1_000);
    assert_eq!(seen.lines.len(), TABLE.len());
}
