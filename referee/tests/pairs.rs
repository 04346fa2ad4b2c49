//! Compares the product's calls over two copies of a PDU (document 02, Ask 5) with
//! the reference: pairs in every mode and stream whose pieces are right, wrong or
//! differing; pairs of which only one copy can be mended, or none; each number on
//! each copy; copies that differ before the pieces; logs one word short; and whole
//! drives of pairs, single calls with marks and without, batches, lost PDUs and
//! refused calls of each of these kinds, with damage in the pieces. What a pair has
//! to answer and to leave is told from how it was made. Both copies of every pair go
//! through the chooser too.

#[allow(dead_code)]
mod attempt;
#[allow(dead_code)]
mod calls;
mod copies;
#[allow(dead_code)]
mod drives;
mod lent;
mod noise;
mod product;
#[allow(dead_code)]
mod receptions;
#[allow(dead_code)]
mod samples;
#[allow(dead_code)]
mod spoiling;
#[allow(dead_code)]
mod told;

use attempt::against_product::receiver_for;
use copies::{compare, Copy, Double, Loan, Tally, Told};
use drives::{Came, List, Sums, STYLES};
use lent::{Lent, LentLog, LentSizes};
use noise::Noise;
use receptions::{some_carry, some_line, spoil_state, spoiled_pdu, Reception};
use referee::crc;
use referee::encode::Field;
use referee::header::{LONGEST, PLACES};
use referee::modes::{Line, TABLE};
use referee::reading;
use referee::receiver::{self, Answer, Receiver, LOG_WORDS};
use referee::refusal;
use referee::rng::Rng;
use referee::{batches, pairs};
use samples::Wish;
use std::collections::BTreeMap;
use std::ops::Range;

/// The numbers of a PDU that can be mended.
const NUMBERS: Range<u32> = 5..13;

/// The random numbers for a class of cases; its seed is printed.
fn seeded(class: &str, seed: u64) -> Rng {
    println!("{class}: seed {seed:#x}");
    Rng::new(seed)
}

/// Two copies of a right PDU of this line, for a receiver in any state, most often
/// with the sender's register.
fn some_double(rng: &mut Rng, line: Line) -> Double {
    let wish = Wish {
        line: Some(line),
        nop: match rng.below(4) {
            0 => None,
            _ => Some(rng.within(1, 8)),
        },
        length: match rng.below(16) {
            0 => None,
            _ => Some(rng.within(96, 260)),
        },
        ..Wish::default()
    };
    let mut reception = Reception::new(rng, &wish);
    let register = [0, 255, rng.byte()][rng.below(3)];
    reception.sample.parts.register = register;
    reception.receiver.register = match rng.below(16) {
        0 => rng.byte(),
        _ => register,
    };
    Double::of(rng, reception)
}

/// Both copies, each one that can be mended.
fn mendable(rng: &mut Rng, double: &Double) -> [Copy; 2] {
    [&double.first, &double.second].map(|copy| Copy::mendable(rng, &copy.pdu()))
}

/// A log that is long enough: just so, or with some words more.
fn enough(rng: &mut Rng, words: usize) -> usize {
    words + [0, 0, 1, rng.below(40)][rng.below(4)]
}

/// Lends these copies with a log of so many words, and compares.
fn lend(
    rng: &mut Rng,
    tally: &mut Tally,
    double: &Double,
    copies: &[Copy; 2],
    log: usize,
    told: &Told,
) {
    let loan = Loan::new(rng, &double.first.carry, copies, log);
    compare(tally, double.first.receiver, copies, &loan, told);
}

/// Both copies can be mended, and nothing is wrong: every fate of a piece.
#[test]
fn taken() {
    let mut rng = seeded("pairs taken", 0x5A_0001);
    let mut tally = Tally::default();
    for case in 0..100_000 {
        let double = some_double(&mut rng, TABLE[case % TABLE.len()]);
        let copies = mendable(&mut rng, &double);
        let told = double.told(&copies);
        let log = enough(&mut rng, told.words.len());
        lend(&mut rng, &mut tally, &double, &copies, log, &told);
    }
    tally.report("pairs taken");
    println!(
        "pairs taken: notes one after another {:?}, by mode and stream {:?}",
        tally.orders, tally.lines
    );
    assert_eq!(tally.accepted, tally.pairs);
    assert_eq!(tally.lines.len(), TABLE.len());
    assert!((1..=5).chain([7]).all(|cause| tally.notes[&cause] >= 1_000));
    // With nothing held before, and behind note 1 or 4: in place of note 3.
    for before in [0, 1, 4, 7] {
        assert!(tally.orders[&(before, 7)] >= 1_000);
    }
}

/// Only one copy can be mended, or none.
#[test]
fn alone() {
    let mut rng = seeded("one copy", 0x5A_0002);
    let mut tally = Tally::default();
    let mut none = Tally::default();
    for case in 0..40_000 {
        let double = some_double(&mut rng, TABLE[case % TABLE.len()]);
        let mut copies = mendable(&mut rng, &double);
        let gone = case / TABLE.len() % 4;
        if gone != 1 {
            copies[0] = Copy::beyond(&mut rng, &double.first.pdu());
        }
        if gone != 0 {
            copies[1] = Copy::beyond(&mut rng, &double.second.pdu());
        }
        if gone < 2 {
            // The first is gone with 0, the second with 1; the other is received.
            let told = double.told(&copies);
            let log = enough(&mut rng, told.words.len());
            lend(&mut rng, &mut tally, &double, &copies, log, &told);
        } else {
            let log = rng.below(60);
            let told = double.refused(&copies, refusal::BEYOND_MENDING);
            lend(&mut rng, &mut none, &double, &copies, log, &told);
        }
    }
    tally.report("one copy");
    none.report("no copy");
    assert_eq!(tally.accepted, tally.pairs);
    assert_eq!(none.refused_with(refusal::BEYOND_MENDING), none.pairs);
    assert!(tally.pairs >= 15_000 && none.pairs >= 15_000);
}

/// What a copy is to be: right, beyond mending, or refused with a number.
#[derive(Clone, Copy, Debug, PartialEq, Eq, PartialOrd, Ord)]
enum Is {
    Right,
    Beyond,
    Refused(u32),
}

impl Is {
    fn of(index: usize) -> Is {
        match index {
            0 => Is::Right,
            1 => Is::Beyond,
            number => Is::Refused(number as u32 + 3),
        }
    }

    fn number(self) -> Option<u32> {
        match self {
            Is::Refused(number) => Some(number),
            _ => None,
        }
    }

    fn copy(self, rng: &mut Rng, line: Line, right: &[u8]) -> Copy {
        match self {
            Is::Right => Copy::mendable(rng, right),
            Is::Beyond => Copy::beyond(rng, right),
            Is::Refused(number) => {
                let sent = spoiled_pdu(rng, line, number);
                Copy::mendable(rng, &sent)
            }
        }
    }
}

/// Each number on each copy, beside a right one, one beyond mending, and each other
/// number: the least over the copies that can be mended.
#[test]
fn each_number() {
    let mut rng = seeded("numbers of pairs", 0x5A_0003);
    let mut tally = Tally::default();
    let mut by_copy: BTreeMap<(Is, Is), u64> = BTreeMap::new();
    for case in 0..96_000 {
        // At least one of them has a number.
        let is = [case % 10, case / 10 % 10].map(Is::of);
        let numbers = is.map(Is::number);
        let Some(least) = numbers.into_iter().flatten().min() else {
            continue;
        };
        let all: Vec<u32> = numbers.into_iter().flatten().collect();
        let line = some_line(&mut rng, &all);
        let double = some_double(&mut rng, line);
        let right = double.first.pdu();
        let copies = is.map(|is| is.copy(&mut rng, line, &right));
        let log = [0, rng.below(60)][rng.below(2)];
        let told = double.refused(&copies, least);
        lend(&mut rng, &mut tally, &double, &copies, log, &told);
        *by_copy.entry((is[0], is[1])).or_default() += 1;
    }
    tally.report("numbers of pairs");
    println!(
        "numbers of pairs: {} pairs of what a copy is, each at least {} times",
        by_copy.len(),
        by_copy.values().min().unwrap()
    );
    assert_eq!(by_copy.len(), 96);
    assert!(by_copy.values().all(|&count| count >= 900));
    assert!(NUMBERS
        .clone()
        .all(|number| tally.refused_with(number) >= 1_000));
}

/// How copies differ that are right by themselves.
const DIFFERENCES: [&str; 11] = [
    "length",
    "gain",
    "blend",
    "delay",
    "latency",
    "sequence",
    "starting number",
    "flag",
    "ignored bits of an odd locator",
    "PSD",
    "ignored bits of a field",
];

/// Makes the second copy differ so; false where this PDU can't.
fn differ(rng: &mut Rng, double: &mut Double, how: &str) -> bool {
    let line = double.second.sample.line;
    let length = double.second.sample.length;
    let parts = &mut double.second.sample.parts;
    let odd = parts.locators.len() * line.locator_bits % 8 == 4;
    let word = &mut parts.control;
    let other = |rng: &mut Rng, value: u8, values: usize| {
        ((usize::from(value) + rng.within(1, values - 1)) % values) as u8
    };
    match how {
        "length" => {
            let more = [1, rng.within(1, 300)][rng.below(2)];
            if length + more > LONGEST {
                return false;
            }
            double.second.cut = Some(length + more);
        }
        "gain" => word.gain = other(rng, word.gain, 32),
        "blend" => word.blend = other(rng, word.blend, 4),
        "delay" => word.common_delay = other(rng, word.common_delay, 64),
        "latency" => word.latency = other(rng, word.latency, 8),
        "sequence" => word.sequence = other(rng, word.sequence, usize::from(line.sequences)),
        "starting number" => word.start = other(rng, word.start, 64),
        "flag" if word.nop > 0 => word.pfirst = !word.pfirst,
        "ignored bits of an odd locator" if odd => {
            parts.unused_bits = other(rng, parts.unused_bits, 16);
        }
        "PSD" if !parts.psd.is_empty() => {
            // Often the last byte, that at La.
            let last = parts.psd.len() - 1;
            let place = [last, rng.within(0, last)][rng.below(2)];
            parts.psd[place] ^= rng.nonzero_byte();
        }
        "ignored bits of a field" => {
            let fields = &mut double.second.sample.fields;
            let Some(Field::Type { unused, .. }) = fields
                .iter_mut()
                .find(|field| matches!(field, Field::Type { .. }))
            else {
                return false;
            };
            *unused = other(rng, *unused, 4);
            double.second.sample.write_fields();
        }
        _ => return false,
    }
    true
}

/// Whether the copies differ in length or in bytes 8 to La.
fn differs(double: &Double) -> bool {
    let [one, other] = [double.first.pdu(), double.second.pdu()];
    let la = usize::from(one[13]);
    one.len() != other.len() || one[8..=la] != other[8..=la]
}

/// 20, before 13.
#[test]
fn copies_that_differ() {
    let mut rng = seeded("copies that differ", 0x5A_0004);
    let mut tally = Tally::default();
    let mut by_kind: BTreeMap<&str, u64> = BTreeMap::new();
    let mut no_log = 0;
    for case in 0..40_000 {
        let line = TABLE[case / DIFFERENCES.len() % TABLE.len()];
        let mut double = some_double(&mut rng, line);
        let how = DIFFERENCES[case % DIFFERENCES.len()];
        if !differ(&mut rng, &mut double, how) {
            continue;
        }
        assert!(differs(&double));
        if rng.below(2) == 0 {
            // They change places: receiver and carry stay.
            let Double { first, second } = &mut double;
            std::mem::swap(&mut first.sample, &mut second.sample);
            std::mem::swap(&mut first.cut, &mut second.cut);
        }
        let copies = mendable(&mut rng, &double);
        let log = [0, LOG_WORDS][rng.below(2)];
        no_log += u64::from(log == 0);
        let told = double.refused(&copies, refusal::COPIES);
        lend(&mut rng, &mut tally, &double, &copies, log, &told);
        *by_kind.entry(how).or_default() += 1;
    }
    tally.report("copies that differ");
    println!("copies that differ: by kind {by_kind:?}, {no_log} with no log");
    assert_eq!(tally.refused_with(refusal::COPIES), tally.pairs);
    assert!(DIFFERENCES.iter().all(|how| by_kind[how] >= 300));
}

/// Logs one word short, or shorter; both copies can be mended, or one.
#[test]
fn logs() {
    let mut rng = seeded("logs of pairs", 0x5A_0005);
    let mut tally = Tally::default();
    let mut short_by_one = 0;
    for case in 0..24_000 {
        let double = some_double(&mut rng, TABLE[case % TABLE.len()]);
        let mut copies = mendable(&mut rng, &double);
        match case / TABLE.len() % 4 {
            0 => copies[0] = Copy::beyond(&mut rng, &double.first.pdu()),
            1 => copies[1] = Copy::beyond(&mut rng, &double.second.pdu()),
            _ => {}
        }
        let words = double.told(&copies).words.len();
        let Some(most) = words.checked_sub(1) else {
            continue;
        };
        let log = [most, most, rng.within(0, most)][rng.below(3)];
        short_by_one += u64::from(log == most);
        let told = double.refused(&copies, refusal::LOG);
        lend(&mut rng, &mut tally, &double, &copies, log, &told);
    }
    tally.report("logs of pairs");
    println!("logs of pairs: {short_by_one} of them one word short");
    assert_eq!(tally.refused_with(refusal::LOG), tally.pairs);
    assert!(tally.pairs >= 15_000);
}

/// 1 and 2, each alone and together, whatever is wrong with the copies.
#[test]
fn before_the_copies() {
    let mut rng = seeded("before the copies", 0x5A_0006);
    let mut tally = Tally::default();
    for case in 0..24_000 {
        let set = case % 3 + 1;
        let is = [case / 3 % 10, case / 30 % 10].map(Is::of);
        let numbers: Vec<u32> = is.into_iter().filter_map(Is::number).collect();
        let line = some_line(&mut rng, &numbers);
        let mut double = some_double(&mut rng, line);
        if rng.below(3) == 0 {
            differ(&mut rng, &mut double, "length");
        }
        let sent = [double.first.pdu(), double.second.pdu()];
        let copies = [0, 1].map(|copy: usize| is[copy].copy(&mut rng, line, &sent[copy]));
        if set & 1 != 0 {
            spoil_state(&mut rng, &mut double.first.receiver);
        }
        if set & 2 != 0 {
            let short = [0, 1, 4_095, rng.below(4_096)][rng.below(4)];
            double.first.carry.truncate(short);
        }
        let number = if set & 1 != 0 {
            refusal::STATE
        } else {
            refusal::CARRY
        };
        let log = [0, rng.below(60)][rng.below(2)];
        let told = double.refused(&copies, number);
        lend(&mut rng, &mut tally, &double, &copies, log, &told);
    }
    tally.report("before the copies");
    assert!([1, 2].iter().all(|&n| tally.refused_with(n) >= 8_000));
}

/// The chooser at each count of altered bytes on each side, with lengths that
/// differ.
#[test]
fn choosing() {
    let mut rng = seeded("choosing", 0x5A_0007);
    let mut counts: BTreeMap<(usize, usize), u64> = BTreeMap::new();
    for case in 0..36_000 {
        let altered = [case % 6, case / 6 % 6];
        let copies = altered.map(|altered| {
            let mut sent = vec![0; [PLACES, rng.within(96, 300)][rng.below(2)]];
            rng.fill(&mut sent);
            referee::header::write_parity(&mut sent).expect("a length of PDUs");
            match altered {
                5 => Copy::beyond(&mut rng, &sent),
                _ => Copy::altered(&mut rng, &sent, altered),
            }
        });
        let loan = Loan::new(&mut rng, &[], &copies, 0);
        copies::check_choice(&copies, &loan);
        *counts.entry((altered[0], altered[1])).or_default() += 1;
    }
    println!(
        "choosing: {} pairs, by bytes altered in each copy (5: beyond mending) {counts:?}",
        counts.values().sum::<u64>()
    );
    assert!(counts.len() == 36 && counts.values().all(|&count| count >= 900));
}

/// What drives of pairs had.
#[derive(Default)]
struct Roads {
    drives: u64,
    sums: Sums,
    pairs: Tally,
    /// PDUs by single calls, those of them with marks, PDUs in batches, batches,
    /// those of them that stopped after these PDUs, and PDUs marked lost.
    single: u64,
    marked: u64,
    in_batches: u64,
    batches: u64,
    stopped: u64,
    lost: u64,
    /// Refused calls by number: of pairs, single ones without and with marks,
    /// batches that took nothing, and calls marking lost.
    refused_pairs: BTreeMap<u32, u64>,
    refused_single: BTreeMap<u32, u64>,
    refused_marked: BTreeMap<u32, u64>,
    refused_batches: BTreeMap<u32, u64>,
    refused_lost: BTreeMap<u32, u64>,
    /// Pieces of pairs by how they came: as sent in both copies, in the first alone,
    /// in the second alone, in none.
    pieces: [u64; 4],
    /// Packets of the lists, and those that are due.
    packets: u64,
    logged: u64,
    lines: BTreeMap<(u8, u8), u64>,
}

/// A receiver on its drive.
struct Road<'a> {
    rng: &'a mut Rng,
    roads: &'a mut Roads,
    line: Line,
    receiver: Receiver,
    carry: Vec<u8>,
    /// The logs, each as far as its answer counts.
    joined: Vec<u32>,
}

/// A copy of a sent PDU on the road: at most four of the first 96 bytes altered, and
/// from byte 96 on as `behind_the_header` has it. Of each piece whether it is as
/// sent, once mended.
fn on_the_road(rng: &mut Rng, sent: &[u8], register: u8) -> (Copy, Vec<bool>) {
    let (left, as_sent) = behind_the_header(rng, sent, register);
    (Copy::mendable(rng, &left), as_sent)
}

/// A sent PDU with bytes 96 to La as sent, some pieces damaged from byte 96 on so
/// that their CRC is wrong, reserved bytes from 96 on anything. Of each piece whether
/// it is as sent.
fn behind_the_header(rng: &mut Rng, sent: &[u8], register: u8) -> (Vec<u8>, Vec<bool>) {
    let reading = reading::read(&mut sent.to_vec()).expect("a PDU of a writer");
    let mut left = sent.to_vec();
    let one_of = [2, 3, 8, 1_000][rng.below(4)];
    let mut as_sent = Vec::new();
    let mut behind = usize::from(reading.control.la) + 1;
    for piece in &reading.pieces {
        behind = piece.start + piece.length + 1;
        let hit = behind > PLACES && rng.below(one_of) == 0;
        if hit {
            damage(rng, &mut left, piece.start..behind, register);
        }
        as_sent.push(!hit);
    }
    let reserved = behind.max(PLACES);
    if reserved < left.len() && rng.below(4) == 0 {
        rng.fill(&mut left[reserved..]);
    }
    (left, as_sent)
}

/// Damages a piece, with its CRC byte behind it, from byte 96 on, so that its CRC is
/// wrong.
fn damage(rng: &mut Rng, pdu: &mut [u8], piece: Range<usize>, register: u8) {
    let first = piece.start.max(PLACES);
    let sent = pdu[piece.clone()].to_vec();
    let crc_at = piece.end - 1;
    loop {
        let most = (piece.end - first).min(40);
        let count = [1, rng.within(1, most)][rng.below(2)];
        for place in rng.places(count, first, piece.end - 1) {
            pdu[place] ^= rng.nonzero_byte();
        }
        if crc::crc8_from(register, &pdu[piece.start..crc_at]) != pdu[crc_at] {
            return;
        }
        pdu[piece.clone()].copy_from_slice(&sent);
    }
}

impl Road<'_> {
    /// A log of 8,400 words.
    fn log(&mut self) -> LentLog {
        LentLog::of(self.rng, &[0x5A5A_5A5A; LOG_WORDS])
    }

    /// Takes over what an accepted call left.
    fn go_on(&mut self, answer: &Answer, carry: &Lent, log: &LentLog) {
        assert_eq!(answer.causes, []);
        self.receiver = answer.receiver;
        self.carry = carry.bytes().to_vec();
        self.joined.extend(&log.words()[..answer.words]);
    }

    /// Makes both calls over a pair by reference and product.
    fn call(&mut self, receiver: Receiver, copies: &[Copy; 2], before: &Loan) -> (Answer, Loan) {
        copies::check_choice(copies, before);
        let mut loan = before.clone();
        let answer = pairs::receive(
            receiver,
            loan.carry.bytes_mut(),
            loan.first.bytes_mut(),
            loan.second.bytes_mut(),
            loan.log.words_mut(),
        );
        copies::check_product(receiver, before, &answer, &loan);
        self.roads.pairs.count(copies, &answer, &loan.log);
        (answer, loan)
    }

    /// What is lent, with a log of 8,400 words.
    fn loan(&mut self, copies: &[Copy; 2]) -> Loan {
        Loan {
            carry: Lent::of(self.rng, &self.carry),
            first: Lent::of(self.rng, &copies[0].lent),
            second: Lent::of(self.rng, &copies[1].lent),
            log: self.log(),
        }
    }

    /// Receives a PDU of the run as a pair; what came of its pieces.
    fn pair(&mut self, sent: &[u8]) -> Vec<bool> {
        let register = self.receiver.register;
        let (one, in_first) = on_the_road(self.rng, sent, register);
        let (other, in_second) = on_the_road(self.rng, sent, register);
        let copies = [one, other];
        let before = self.loan(&copies);
        let (answer, loan) = self.call(self.receiver, &copies, &before);
        assert!(loan.first.bytes() == copies[0].left && loan.second.bytes() == copies[1].left);
        self.go_on(&answer, &loan.carry, &loan.log);
        let came = in_first.iter().zip(&in_second).map(|(&one, &other)| {
            let how = usize::from(!one) * 2 + usize::from(!other);
            self.roads.pieces[how] += 1;
            one || other
        });
        came.collect()
    }

    /// Two copies that are refused with this number, or right ones where it isn't
    /// about them.
    fn refused_copies(&mut self, next: &[u8], number: u32) -> [Copy; 2] {
        let rng = &mut *self.rng;
        let right = Copy::mendable(rng, next);
        let mut copies = match number {
            refusal::BEYOND_MENDING => [Copy::beyond(rng, next), Copy::beyond(rng, next)],
            refusal::COPIES => [right, Copy::mendable(rng, &[next, &[0]].concat())],
            number if NUMBERS.contains(&number) => {
                let spoiled = spoiled_pdu(rng, self.line, number);
                let other = [right, Copy::beyond(rng, next)][rng.below(2)].clone();
                [Copy::mendable(rng, &spoiled), other]
            }
            _ => [right, Copy::mendable(rng, next)],
        };
        if rng.below(2) == 0 {
            copies.swap(0, 1);
        }
        copies
    }

    /// A pair that is refused: it changes nothing.
    fn refused_pair(&mut self, next: &[u8]) {
        let number = match [1, 2, 4, 13, 20, self.some_number()][self.rng.below(6)] {
            refusal::COPIES if next.len() == LONGEST => refusal::BEYOND_MENDING,
            number => number,
        };
        let copies = self.refused_copies(next, number);
        let mut receiver = self.receiver;
        let mut before = self.loan(&copies);
        match number {
            refusal::STATE => spoil_state(self.rng, &mut receiver),
            refusal::CARRY => before.carry = Lent::of(self.rng, &self.carry[..4_095]),
            refusal::LOG => {
                let words = self.words(&before);
                let Some(short) = words.checked_sub(1) else {
                    return;
                };
                before.log = LentLog::random(self.rng, short);
            }
            _ => {}
        }
        let (answer, loan) = self.call(receiver, &copies, &before);
        assert_eq!((answer.refusal, answer.receiver), (number, receiver));
        assert!(loan == before, "changed by a refused pair");
        *self.roads.refused_pairs.entry(number).or_default() += 1;
    }

    /// How many words a pair writes.
    fn words(&self, before: &Loan) -> usize {
        let mut loan = before.clone();
        pairs::receive(
            self.receiver,
            loan.carry.bytes_mut(),
            loan.first.bytes_mut(),
            loan.second.bytes_mut(),
            loan.log.words_mut(),
        )
        .words
    }

    /// A number, 5 to 12, with which a PDU can be refused here.
    fn some_number(&mut self) -> u32 {
        match self.rng.within(5, 12) as u32 {
            refusal::SEQUENCE if self.line.sequences == 8 => refusal::LA,
            number => number,
        }
    }

    /// Receives a PDU by a call of its own, by the one that takes marks where there is
    /// a list; the number, 0 if it is accepted.
    fn single(&mut self, lent: &[u8], marks: Option<&[u8]>) -> u32 {
        let mut carry = Lent::of(self.rng, &self.carry);
        let mut pdu = Lent::of(self.rng, lent);
        let mut log = self.log();
        let before = (carry.clone(), pdu.clone(), log.clone());
        let (mut own_carry, mut own_pdu, mut own_log) = before.clone();
        let answer = receiver::receive_marked(
            self.receiver,
            carry.bytes_mut(),
            pdu.bytes_mut(),
            marks.unwrap_or(&[]),
            log.words_mut(),
        );
        let own = receiver_for(&self.receiver);
        let is_so = match marks.map(|marks| Lent::of(self.rng, marks)) {
            Some(marks) => product::receiver::receive_marked(
                own,
                &mut own_carry,
                &mut own_pdu,
                &marks,
                &mut own_log,
            ),
            None => product::receiver::receive(own, &mut own_carry, &mut own_pdu, &mut own_log),
        };
        check_answer(is_so, &answer);
        assert!(own_carry == carry && own_pdu == pdu && own_log == log);
        if answer.refusal == 0 {
            self.go_on(&answer, &carry, &log);
        } else {
            assert_eq!(answer.receiver, self.receiver);
            assert!(before == (carry, pdu, log), "changed by a refused call");
        }
        answer.refusal
    }

    /// Receives PDUs in one call, of which so many have to be taken; the number, 0 if
    /// none is refused.
    fn batch(&mut self, copies: &[Copy], taken: usize) -> u32 {
        let pdus: Vec<u8> = copies.iter().flat_map(|copy| copy.lent.clone()).collect();
        let lengths: Vec<usize> = copies.iter().map(|copy| copy.lent.len()).collect();
        let mut carry = Lent::of(self.rng, &self.carry);
        let mut pdus = Lent::of(self.rng, &pdus);
        let mut log = LentLog::of(self.rng, &vec![0; LOG_WORDS * copies.len()]);
        let (mut own_carry, mut own_pdus, mut own_log) = (carry.clone(), pdus.clone(), log.clone());
        let answer = batches::receive(
            self.receiver,
            carry.bytes_mut(),
            pdus.bytes_mut(),
            &lengths,
            log.words_mut(),
        );
        let is_so = product::batches::receive(
            receiver_for(&self.receiver),
            &mut own_carry,
            &mut own_pdus,
            &LentSizes::of(self.rng, &lengths),
            &mut own_log,
        );
        assert_eq!(answer.taken, taken);
        assert_eq!(
            (is_so.refusal, is_so.taken, is_so.words, is_so.receiver),
            (
                answer.refusal,
                taken,
                answer.words,
                receiver_for(&answer.receiver)
            )
        );
        assert!(own_carry == carry && own_pdus == pdus && own_log == log);
        self.receiver = answer.receiver;
        self.carry = carry.bytes().to_vec();
        self.joined.extend(&log.words()[..answer.words]);
        answer.refusal
    }

    /// A call of any kind that is refused.
    fn refused(&mut self, next: &[u8]) {
        match self.rng.below(8) {
            0 => {
                let copy = Copy::beyond(self.rng, next);
                let number = self.single(&copy.lent, None);
                *self.roads.refused_single.entry(number).or_default() += 1;
            }
            1 => {
                let number = self.refused_marked(next);
                *self.roads.refused_marked.entry(number).or_default() += 1;
            }
            2 => {
                let copies = [Copy::beyond(self.rng, next), Copy::mendable(self.rng, next)];
                let number = self.batch(&copies, 0);
                *self.roads.refused_batches.entry(number).or_default() += 1;
            }
            3 => self.refused_lost(),
            _ => self.refused_pair(next),
        }
    }

    /// A call with marks that is refused: for the list, or because there are too many
    /// altered bytes beside it. Its number.
    fn refused_marked(&mut self, next: &[u8]) -> u32 {
        let mut noise = Noise::beyond(self.rng);
        if self.rng.below(2) == 0 {
            let cause = noise::some_cause(self.rng);
            noise.spoil(self.rng, cause);
        }
        let mut lent = next.to_vec();
        noise.alter(self.rng, &mut lent);
        self.single(&lent, Some(noise.list()))
    }

    /// Marks a PDU lost.
    fn lose(&mut self) {
        let (answer, log) = mark_lost(self.receiver, self.log());
        assert_eq!(answer.refusal, 0);
        self.receiver = answer.receiver;
        self.joined.extend(&log.words()[..answer.words]);
        self.roads.lost += 1;
    }

    /// A call marking lost that is refused: it changes nothing.
    fn refused_lost(&mut self) {
        let mut receiver = self.receiver;
        let (number, before) = if self.rng.below(2) == 0 {
            spoil_state(self.rng, &mut receiver);
            (refusal::STATE, self.log())
        } else {
            (refusal::LOG, LentLog::random(self.rng, 0))
        };
        let (answer, log) = mark_lost(receiver, before.clone());
        assert_eq!((answer.refusal, answer.receiver), (number, receiver));
        assert!(log == before, "changed by a refused call");
        *self.roads.refused_lost.entry(number).or_default() += 1;
    }

    /// Receives the next PDUs of the run, of which so many in a row are not lost, by
    /// a call of any kind; what came of them.
    fn next(&mut self, list: &List, index: usize, in_a_row: usize) -> Vec<Came> {
        let register = self.receiver.register;
        let sent = &list.pdus[index].pdu;
        match self.rng.below(16) {
            0 => {
                let (copy, came) = on_the_road(self.rng, sent, register);
                assert_eq!(self.single(&copy.lent, None), 0);
                self.roads.single += 1;
                vec![Some(came)]
            }
            1 => {
                let (mut lent, came) = behind_the_header(self.rng, sent, register);
                let noise = Noise::within_bound(self.rng);
                noise.alter(self.rng, &mut lent);
                assert_eq!(self.single(&lent, Some(noise.list())), 0);
                self.roads.marked += 1;
                vec![Some(came)]
            }
            2 | 3 => {
                let count = self.rng.within(1, in_a_row.min(5));
                let (mut copies, came): (Vec<Copy>, Vec<Vec<bool>>) = list.pdus
                    [index..index + count]
                    .iter()
                    .map(|sent| on_the_road(self.rng, &sent.pdu, register))
                    .unzip();
                // Some stop at a PDU behind those of the run.
                let stops = self.rng.below(3) == 0;
                if stops {
                    copies.push(Copy::beyond(self.rng, sent));
                    copies.push(Copy::mendable(self.rng, sent));
                }
                assert_eq!(self.batch(&copies, count) != 0, stops);
                self.roads.batches += 1;
                self.roads.stopped += u64::from(stops);
                self.roads.in_batches += count as u64;
                came.into_iter().map(Some).collect()
            }
            _ => vec![Some(self.pair(sent))],
        }
    }
}

/// Marks a PDU lost by reference and product; the answer and the log.
fn mark_lost(receiver: Receiver, mut log: LentLog) -> (Answer, LentLog) {
    let mut own_log = log.clone();
    let answer = receiver::mark_lost(receiver, log.words_mut());
    let is_so = product::receiver::mark_lost(receiver_for(&receiver), &mut own_log);
    check_answer(is_so, &answer);
    assert!(own_log == log);
    (answer, log)
}

/// The product's answer to receiving a PDU or marking one lost against the
/// reference's.
fn check_answer(is_so: product::receiver::Received, answer: &Answer) {
    assert_eq!(
        (is_so.refusal, is_so.words as usize, is_so.receiver),
        (answer.refusal, answer.words, receiver_for(&answer.receiver))
    );
}

/// Goes through a run of a list's PDUs: the lost ones are marked, the others come as
/// pairs, singly or in batches. What came of each, and the joined log.
fn drive(
    rng: &mut Rng,
    roads: &mut Roads,
    list: &List,
    run: &Range<usize>,
    lost: &[bool],
) -> (Vec<Came>, Vec<u32>, Receiver) {
    let line = list.line;
    let carry = some_carry(rng);
    let receiver =
        receiver::open_with(line.mode, line.stream, list.register()).expect("a line of the table");
    let mut road = Road {
        rng,
        roads,
        line,
        receiver,
        carry,
        joined: Vec::new(),
    };
    let mut came = Vec::new();
    while came.len() < run.len() {
        let index = run.start + came.len();
        while road.rng.below(8) == 0 {
            road.refused(&list.pdus[index].pdu);
        }
        let here = &lost[came.len()..];
        match here.iter().take_while(|&&lost| !lost).count() {
            0 => {
                road.lose();
                came.push(None);
            }
            in_a_row => came.extend(road.next(list, index, in_a_row)),
        }
    }
    (came, road.joined, road.receiver)
}

/// Whole drives over all modes and streams, with any register: the log holds exactly
/// the packets with every byte in PDUs of the run, each of whose pieces is, once
/// mended, as sent in at least one copy.
#[test]
fn driving() {
    let mut rng = seeded("drives of pairs", 0x5A_0008);
    let mut roads = Roads::default();
    for case in 0..10_000 {
        let line = TABLE[case % TABLE.len()];
        let style = STYLES[case / TABLE.len() % STYLES.len()];
        let register = [0, 255, rng.byte()][rng.below(3)];
        let list = List::random(&mut rng, line, style, register);
        let run = drives::some_run(&mut rng, list.pdus.len());
        let lost = drives::some_lost(&mut rng, run.len(), usize::from(line.sequences));
        let (came, joined, left) = drive(&mut rng, &mut roads, &list, &run, &lost);
        let (drives, sums) = (roads.drives, &mut roads.sums);
        let left = drives::counts(&left);
        drives::check_came(drives, sums, &list, &run, &came, &joined, left);
        roads.drives += 1;
        roads.packets += list.count() as u64;
        roads.logged += list.wanted(&run, &came).0 as u64;
        *roads.lines.entry((line.mode, line.stream)).or_default() += 1;
    }
    roads.pairs.report("drives of pairs");
    roads.sums.report("drives of pairs");
    assert!(roads.sums.with_missing >= 2_000);
    println!(
        "drives of pairs: {} drives, {} pairs received, {} single calls, {} with marks, {} batches \
         that took {} PDUs, of which {} then stopped, {} lost, {} of {} packets logged",
        roads.drives,
        roads.pairs.accepted,
        roads.single,
        roads.marked,
        roads.batches,
        roads.in_batches,
        roads.stopped,
        roads.lost,
        roads.logged,
        roads.packets
    );
    println!(
        "drives of pairs: pieces of pairs as sent in both copies {}, in the first alone {}, in the \
         second alone {}, in none {}",
        roads.pieces[0], roads.pieces[1], roads.pieces[2], roads.pieces[3]
    );
    println!(
        "drives of pairs: refused by number, pairs {:?}, single calls {:?}, with marks {:?}, batches \
         {:?}, marking lost {:?}",
        roads.refused_pairs,
        roads.refused_single,
        roads.refused_marked,
        roads.refused_batches,
        roads.refused_lost
    );
    assert_eq!(roads.lines.len(), TABLE.len());
    // The promise has no place for these notes.
    assert!([1, 4, 5, 7]
        .iter()
        .all(|cause| !roads.pairs.notes.contains_key(cause)));
    assert!(roads.pieces.iter().all(|&count| count >= 1_000));
    assert!([1, 2, 4, 13, 20]
        .iter()
        .all(|number| roads.refused_pairs[number] >= 500));
    assert!(roads.marked >= 500 && roads.stopped >= 500);
    for (refused, numbers) in [
        (&roads.refused_single, [3, 4]),
        (&roads.refused_marked, [4, 19]),
        (&roads.refused_batches, [3, 4]),
        (&roads.refused_lost, [1, 13]),
    ] {
        assert!(refused.keys().copied().eq(numbers));
        assert!(refused.values().sum::<u64>() >= 500);
    }
}
