//! Compares the product's counts of packets delivered and missing (document 02, Ask 14)
//! with the reference: every number after every other, receivers whose counts are small
//! or near 4,294,967,295, by single calls, by value and in place and with marks, in
//! batches and in pairs; number 27 with 13 before it, and number 1; PDUs that deliver
//! nothing, at the limit; and marking lost. What a call has to answer is told from how
//! its PDU was made. That delivered and missing are together the writer's packets is
//! checked at the end of every drive, in this file over drives with long losses.

#[allow(dead_code)]
mod attempt;
#[allow(dead_code)]
mod calls;
#[allow(dead_code)]
mod copies;
#[allow(dead_code)]
mod drives;
mod lent;
#[allow(dead_code)]
mod noise;
#[allow(dead_code)]
mod product;
#[allow(dead_code)]
mod receptions;
#[allow(dead_code)]
mod samples;
#[allow(dead_code)]
mod spoiling;
#[allow(dead_code)]
mod told;

use attempt::against_product::receiver_for;
use attempt::{Class, Known, Wanted};
use copies::{Copy, Double, Tally};
use drives::{List, Seen, STYLES};
use lent::{Lent, LentLog, LentSizes};
use noise::Noise;
use receptions::{right_crcs, Held, Reception};
use referee::batches;
use referee::modes::TABLE;
use referee::receiver::{self, Receiver, LOG_WORDS};
use referee::refusal;
use referee::rng::Rng;
use samples::Wish;
use std::collections::BTreeMap;

/// The most that a count can be.
const MOST: u32 = 4_294_967_295;

/// The random numbers for a class of cases; its seed is printed.
fn seeded(class: &str, seed: u64) -> Rng {
    println!("{class}: seed {seed:#x}");
    Rng::new(seed)
}

/// How often this and that came, by name.
#[derive(Default)]
struct Edges(BTreeMap<&'static str, u64>);

impl Edges {
    fn count(&mut self, name: &'static str, is_so: bool) {
        *self.0.entry(name).or_default() += u64::from(is_so);
    }

    fn report(&self, class: &str, least: u64) {
        println!("{class}: {:?}", self.0);
        for (name, &count) in &self.0 {
            assert!(count >= least, "{class}, {name}: {count}");
        }
    }
}

/// What a PDU adds to the counts, if they had room for it.
struct Added {
    delivered: u64,
    missing: u64,
}

impl Added {
    /// What it adds to those of this receiver, told from what its log has to hold.
    fn to(receiver: &Receiver, wanted: &Wanted) -> Added {
        // The counts wrap; a PDU adds less than they can hold.
        let next = &wanted.receiver;
        Added {
            delivered: next.delivered.wrapping_sub(receiver.delivered).into(),
            missing: next.missing.wrapping_sub(receiver.missing).into(),
        }
    }

    /// Whether delivered passes, and whether missing does.
    fn passes(&self, receiver: &Receiver) -> (bool, bool) {
        let over = |count: u32, added: u64| u64::from(count) + added > MOST.into();
        (
            over(receiver.delivered, self.delivered),
            over(receiver.missing, self.missing),
        )
    }
}

/// A PDU with up to six pieces, most of them right, for a receiver with any counts.
fn some_reception(rng: &mut Rng, turn: usize) -> Reception {
    let wish = Wish {
        line: Some(TABLE[turn % TABLE.len()]),
        nop: Some([0, 1, 2, rng.within(1, 6)][rng.below(4)]),
        length: Some(rng.within(96, 400)),
        ..Wish::default()
    };
    let mut reception = Reception::new(rng, &wish);
    if rng.below(4) > 0 {
        right_crcs(&mut reception.sample);
    }
    reception
}

/// Puts counts near their limits: about as much under them as the PDU adds.
fn near_limits(rng: &mut Rng, reception: &mut Reception) {
    let start = usize::from(reception.sample.parts.control.start);
    // Often the number before those of the PDU, or one of these.
    let last = [start + 62, start + 63, start, rng.below(64)][rng.below(4)] % 64;
    reception.counted(1, 0, last);
    let added = Added::to(&reception.receiver, &reception.wanted());
    let mut near = |added: u64| match rng.below(8) {
        0 => 1 + rng.below(100),
        1 => MOST as usize,
        2 => (MOST as usize) - rng.below(400),
        _ => (MOST as usize + 2 - added as usize - rng.below(4)).min(MOST as usize),
    };
    let (delivered, missing) = (near(added.delivered), near(added.missing));
    reception.counted(delivered, missing, last);
}

/// A single call near the limits, told from its parts; with a log that suffices, and
/// with one that is a word short.
fn check_near(class: &mut Class, edges: &mut Edges, reception: &Reception) {
    let wanted = reception.wanted();
    let receiver = reception.receiver;
    let added = Added::to(&receiver, &wanted);
    let (one, other) = added.passes(&receiver);
    let passes = one || other;
    let known = match passes {
        true => Known::Number(refusal::COUNT_LIMIT),
        false => Known::Taken(wanted.clone()),
    };
    let needed = wanted.words.len();
    let loan = reception.loan(&mut class.rng, needed);
    class.receive(receiver, loan, &known);
    if needed > 0 {
        let mut short = reception.clone();
        short.log = Some(needed - 1);
        let loan = short.loan(&mut class.rng, needed);
        class.receive(receiver, loan, &Known::Number(refusal::LOG));
    }
    let next = wanted.receiver;
    let full = receiver.delivered == MOST;
    let over = |count: u32, added: u64| u64::from(count) + added == u64::from(MOST) + 1;
    for (name, is_so) in [
        ("accepted", !passes),
        ("delivered reaches its limit", {
            !passes && added.delivered > 0 && next.delivered == MOST
        }),
        ("missing reaches its limit", {
            !passes && added.missing > 0 && next.missing == MOST
        }),
        ("delivered passes by one", {
            over(receiver.delivered, added.delivered)
        }),
        ("missing passes by one", {
            over(receiver.missing, added.missing)
        }),
        ("delivered passes alone", one && !other),
        ("missing passes alone", other && !one),
        ("both pass", one && other),
        ("13 before 27", passes && needed > 0),
        ("full, and nothing is delivered", {
            full && added.delivered == 0
        }),
        ("full, and nothing is delivered but logged", {
            full && added.delivered == 0 && needed > 0
        }),
        ("full, and a beginning is held", {
            full && added.delivered == 0 && next.held > 0
        }),
        ("missing full, and none is missing", {
            receiver.missing == MOST && added.delivered > 0 && added.missing == 0
        }),
        ("several are delivered", !passes && added.delivered > 2),
        ("63 missing before one", added.missing >= 63),
    ] {
        edges.count(name, is_so);
    }
}

/// Counts near their limits, by single calls by value and in place.
#[test]
fn single_calls() {
    let mut class = Class::new("counts, single calls", 0xA14_0001);
    let mut edges = Edges::default();
    for turn in 0..60_000 {
        let mut reception = some_reception(&mut class.rng, turn);
        near_limits(&mut class.rng, &mut reception);
        check_near(&mut class, &mut edges, &reception);
    }
    let before = product::receiver::calls_in_place();
    finish(&class, &edges, "counts, single calls");
    println!("counts, single calls: {before} calls in place");
    assert!(class.outcomes.calls >= 100_000 && before >= 100_000);
}

/// The same with marks.
#[test]
fn with_marks() {
    let mut class = Class::new("counts, with marks", 0xA14_0002);
    let mut edges = Edges::default();
    for turn in 0..30_000 {
        let mut reception = some_reception(&mut class.rng, turn);
        reception.noise = Noise::within_bound(&mut class.rng);
        near_limits(&mut class.rng, &mut reception);
        check_near(&mut class, &mut edges, &reception);
    }
    finish(&class, &edges, "counts, with marks");
}

fn finish(class: &Class, edges: &Edges, name: &str) {
    class.report(&mut attempt::Outcomes::default());
    edges.report(name, 300);
    assert!(class.outcomes.refused_with(refusal::COUNT_LIMIT) >= 8_000);
    assert!(class.outcomes.refused_with(refusal::LOG) >= 8_000);
    assert_eq!(class.outcomes.lines.len(), TABLE.len());
}

/// Each number after each other, in each mode and stream: 0 to 63 are missing, after
/// the same number 63; the first delivery adds nothing.
#[test]
fn each_number() {
    let mut class = Class::new("counts, each number", 0xA14_0003);
    let mut same = 0;
    for line in TABLE {
        for number in 0..64 {
            for last in 0..=64 {
                let mut sample = receptions::with_lengths(&mut class.rng, line, 0, &[2]);
                let word = &mut sample.parts.control;
                (word.pfirst, word.plast, word.start) = (false, false, number);
                let mut reception = Reception::of(&mut class.rng, sample);
                reception.hold(&mut class.rng, Held::Nothing);
                let first = last == 64;
                match first {
                    true => reception.counted(0, 0, 0),
                    false => reception.counted(7, 100, last),
                }
                let loan = reception.loan(&mut class.rng, 10);
                let tried = class.receive(reception.receiver, loan, &Known::Accepted);
                let next = tried.answer.receiver;
                let between = (usize::from(number) + 64 - last % 64 + 63) % 64;
                let wanted = match first {
                    true => (1, 0, number),
                    false => (8, 100 + between as u32, number),
                };
                assert_eq!(drives::counts(&next), wanted);
                same += u32::from(!first && last == usize::from(number));
                assert!(last != usize::from(number) || next.missing == 163);
            }
        }
    }
    class.report(&mut attempt::Outcomes::default());
    println!("counts, each number: {same} times the same number again");
    assert_eq!((class.outcomes.taken, same), (41_600, 640));
}

/// Number 1 before all others, by each call; the record's edges are accepted.
#[test]
fn states() {
    let mut class = Class::new("counts, states", 0xA14_0004);
    let mut edges = Edges::default();
    for turn in 0..40_000 {
        let mut reception = some_reception(&mut class.rng, turn);
        let rng = &mut class.rng;
        let count = [1, 2, MOST, rng.within(1, 1_000) as u32][rng.below(4)];
        let (name, counts) = match turn / 10 % 5 {
            0 => (
                "last over 63",
                (count, rng.below(9) as u32, rng.within(64, 255)),
            ),
            1 => ("last 64", (count, count, 64)),
            2 => ("missing of none", (0, count, 0)),
            3 => ("last of none", (0, 0, rng.within(1, 63))),
            _ => ("both of none", (0, count, rng.within(1, 255))),
        };
        let receiver = &mut reception.receiver;
        (receiver.delivered, receiver.missing) = (counts.0, counts.1);
        receiver.last = counts.2 as u8;
        if class.rng.below(3) == 0 {
            reception.carry.truncate(4_095);
        }
        reception.log = Some(class.rng.below(3));
        let known = Known::Number(refusal::STATE);
        let loan = reception.loan(&mut class.rng, 0);
        class.receive(reception.receiver, loan.clone(), &known);
        class.mark_lost(reception.receiver, loan.log, &known);
        edges.count(name, true);
    }
    class.report(&mut attempt::Outcomes::default());
    edges.report("counts, states", 5_000);
}

/// Marking lost keeps all three, is never refused with 27, and lets go of the rest.
#[test]
fn marking_lost() {
    let mut class = Class::new("counts, marking lost", 0xA14_0005);
    let mut edges = Edges::default();
    for turn in 0..30_000 {
        let mut reception = some_reception(&mut class.rng, turn);
        near_limits(&mut class.rng, &mut reception);
        if turn % 7 == 0 {
            reception.counted(MOST as usize, MOST as usize, 63);
        }
        let log = LentLog::random(&mut class.rng, 1);
        let receiver = reception.receiver;
        let (answer, _) = class.mark_lost(receiver, log, &Known::Accepted);
        let next = answer.receiver;
        assert_eq!(drives::counts(&next), drives::counts(&receiver));
        edges.count(
            "full",
            (next.delivered, next.missing, next.last) == (MOST, MOST, 63),
        );
        edges.count("held before", receiver.held > 0);
    }
    class.report(&mut attempt::Outcomes::default());
    edges.report("counts, marking lost", 3_000);
    assert_eq!(class.outcomes.taken, 30_000);
}

/// PDUs in a row, each told from its parts with what the one before left.
struct Row {
    /// The receiver and the carry before the first.
    receiver: Receiver,
    carry: Vec<u8>,
    pdus: Vec<Vec<u8>>,
    wanted: Vec<Wanted>,
}

impl Row {
    fn new(rng: &mut Rng, turn: usize) -> Row {
        let Reception {
            mut receiver,
            mut carry,
            ..
        } = some_reception(rng, turn);
        let mut row = Row {
            receiver,
            carry: carry.clone(),
            pdus: Vec::new(),
            wanted: Vec::new(),
        };
        for _ in 0..rng.within(1, 4) {
            let mut reception = some_reception(rng, turn);
            reception.sample.parts.register = receiver.register;
            (reception.receiver, reception.carry) = (receiver, carry);
            let wanted = reception.wanted();
            (receiver, carry) = (wanted.receiver, wanted.carry.clone());
            row.pdus.push(reception.loan(rng, 0).pdu.bytes().to_vec());
            row.wanted.push(wanted);
        }
        row
    }

    /// The receiver with a count that one of the PDUs brings to its limit, or past it by
    /// one; unless it has counted nothing.
    fn near(&self, rng: &mut Rng) -> Receiver {
        let added = Added::to(&self.receiver, &self.wanted[rng.below(self.wanted.len())]);
        let mut near = self.receiver;
        let past = rng.below(2) as u32;
        match rng.below(2) {
            _ if near.delivered == 0 => {}
            0 => near.delivered = MOST - (added.delivered as u32).saturating_sub(past),
            _ => near.missing = MOST - (added.missing as u32).saturating_sub(past),
        }
        near
    }

    /// What a batch has to answer and to leave, with this receiver in place of the row's
    /// and so many words of a log: the number, how many PDUs are taken, their words, the
    /// receiver, and the carry.
    fn told(&self, receiver: Receiver, room: usize) -> Told {
        let mut told = Told {
            number: 0,
            taken: 0,
            words: Vec::new(),
            receiver,
            carry: self.carry.clone(),
        };
        let mut before = &self.receiver;
        for wanted in &self.wanted {
            let added = Added::to(before, wanted);
            let (one, other) = added.passes(&told.receiver);
            if told.words.len() + wanted.words.len() > room {
                told.number = refusal::LOG;
                break;
            }
            if one || other {
                told.number = refusal::COUNT_LIMIT;
                break;
            }
            told.taken += 1;
            told.words.extend(&wanted.words);
            told.carry.clone_from(&wanted.carry);
            told.receiver = Receiver {
                delivered: told.receiver.delivered + added.delivered as u32,
                missing: told.receiver.missing + added.missing as u32,
                ..wanted.receiver
            };
            before = &wanted.receiver;
        }
        told
    }
}

/// What a batch has to answer and to leave.
struct Told {
    number: u32,
    taken: usize,
    words: Vec<u32>,
    receiver: Receiver,
    carry: Vec<u8>,
}

/// Makes the batch's call by reference and product, and compares with what is told.
fn check_batch(rng: &mut Rng, row: &Row, opened: Receiver, room: usize) -> Told {
    let told = row.told(opened, room);
    let lengths: Vec<usize> = row.pdus.iter().map(Vec::len).collect();
    let left = |(place, pdu): (usize, &Vec<u8>)| match place < told.taken {
        true => row.wanted[place].pdu.clone(),
        false => pdu.clone(),
    };
    let left: Vec<u8> = row.pdus.iter().enumerate().flat_map(left).collect();
    let mut carry = Lent::of(rng, &row.carry);
    let mut pdus = Lent::of(rng, &row.pdus.concat());
    let mut log = LentLog::random(rng, room);
    let untouched = log.words().to_vec();
    let (mut own_carry, mut own_pdus, mut own_log) = (carry.clone(), pdus.clone(), log.clone());
    let answer = batches::receive(
        opened,
        carry.bytes_mut(),
        pdus.bytes_mut(),
        &lengths,
        log.words_mut(),
    );
    let words = told.words.len();
    assert_eq!((answer.refusal, answer.taken), (told.number, told.taken));
    assert_eq!((answer.words, answer.receiver), (words, told.receiver));
    assert!(log.words()[..words] == told.words && log.words()[words..] == untouched[words..]);
    assert!(pdus.bytes() == left && carry.bytes() == told.carry);
    let sizes = LentSizes::of(rng, &lengths);
    let is_so = product::batches::receive(
        receiver_for(&opened),
        &mut own_carry,
        &mut own_pdus,
        &sizes,
        &mut own_log,
    );
    assert_eq!((is_so.refusal, is_so.taken), (told.number, told.taken));
    let receiver = receiver_for(&told.receiver);
    assert_eq!((is_so.words, is_so.receiver), (words, receiver));
    assert!(own_carry == carry && own_pdus == pdus && own_log == log);
    told
}

/// Batches with a receiver near its limits: each stops where a count would pass, or where
/// the log is short.
#[test]
fn in_batches() {
    let mut rng = seeded("counts, batches", 0xA14_0006);
    let mut stopped: BTreeMap<(u32, usize), u64> = BTreeMap::new();
    for turn in 0..40_000 {
        let row = Row::new(&mut rng, turn);
        let opened = row.near(&mut rng);
        let needed: usize = row.wanted.iter().map(|told| told.words.len()).sum();
        let room = match rng.below(6) {
            0 if needed > 0 => rng.below(needed),
            _ => needed + rng.below(3),
        };
        let told = check_batch(&mut rng, &row, opened, room);
        *stopped.entry((told.number, told.taken)).or_default() += 1;
    }
    println!("counts, batches: 40,000 batches, by number and PDUs taken {stopped:?}");
    for taken in 0..4 {
        assert!(stopped[&(refusal::COUNT_LIMIT, taken)] >= 200, "{taken}");
        assert!(stopped[&(refusal::LOG, taken)] >= 100, "{taken}");
    }
    assert!((1..5).all(|taken| stopped[&(0, taken)] >= 1_000));
}

/// Pairs near the limits: a piece counts if it is right in a copy and not another in the
/// other; where only one copy mends, that one's pieces count.
#[test]
fn in_pairs() {
    let mut rng = seeded("counts, pairs", 0xA14_0007);
    let mut tally = Tally::default();
    let mut edges = Edges::default();
    for turn in 0..50_000 {
        let reception = some_reception(&mut rng, turn);
        let mut double = Double::of(&mut rng, reception);
        let (one, other) = (double.first.pdu(), double.second.pdu());
        let copies = match rng.below(5) {
            0 => [
                Copy::beyond(&mut rng, &one),
                Copy::mendable(&mut rng, &other),
            ],
            1 => [
                Copy::mendable(&mut rng, &one),
                Copy::beyond(&mut rng, &other),
            ],
            _ => [
                Copy::mendable(&mut rng, &one),
                Copy::mendable(&mut rng, &other),
            ],
        };
        let last = rng.below(64);
        double.first.counted(1, 0, last);
        let told = double.told(&copies);
        let added = (told.receiver.delivered - 1, told.receiver.missing);
        let mut near = |added: u32| match rng.below(5) {
            0 => 1 + rng.below(50),
            1 => MOST as usize,
            _ => (MOST as usize + 2 - added as usize - rng.below(4)).min(MOST as usize),
        };
        let (delivered, missing) = (near(added.0), near(added.1));
        double.first.counted(delivered, missing, last);
        let over = |count: usize, added: u32| count as u64 + u64::from(added) > MOST.into();
        let passes = over(delivered, added.0) || over(missing, added.1);
        let right = double.told(&copies);
        let needed = right.words.len();
        let receiver = double.first.receiver;
        let short = needed > 0 && rng.below(4) == 0;
        let told = match (short, passes) {
            (true, _) => double.refused(&copies, refusal::LOG),
            (_, true) => double.refused(&copies, refusal::COUNT_LIMIT),
            _ => right,
        };
        let room = if short { needed - 1 } else { needed };
        let loan = copies::Loan::new(&mut rng, &double.first.carry, &copies, room);
        copies::compare(&mut tally, receiver, &copies, &loan, &told);
        let both = copies.iter().all(Copy::mends);
        for (name, is_so) in [
            ("27 of two", !short && passes && both),
            ("27 of one alone", !short && passes && !both),
            ("13 before 27", short && passes),
            ("accepted", !short && !passes && added.0 > 0),
            ("full, and nothing is delivered", {
                !short && delivered == MOST as usize && added.0 == 0
            }),
            ("delivered reaches its limit", {
                !short && !passes && added.0 > 0 && delivered as u32 + added.0 == MOST
            }),
            ("missing reaches its limit", {
                !short && !passes && added.1 > 0 && missing as u32 + added.1 == MOST
            }),
        ] {
            edges.count(name, is_so);
        }
    }
    tally.report("counts, pairs");
    edges.report("counts, pairs", 500);
    assert_eq!(tally.lines.len(), TABLE.len());
    assert!(tally.refused_with(refusal::COUNT_LIMIT) >= 8_000);
}

/// Whole drives with short packets and many PDUs lost in a row, so that about 64 packets
/// are missing at once: 63 are counted, 64 are not.
#[test]
fn driving() {
    let mut class = Class::new("counts, drives", 0xA14_0008);
    let mut seen = Seen::default();
    let mut most: BTreeMap<usize, u64> = BTreeMap::new();
    for turn in 0..6_000 {
        let line = TABLE[turn % TABLE.len()];
        let style = STYLES[[3, 4, 5][turn / TABLE.len() % 3]];
        let register = [0, 255, class.rng.byte()][class.rng.below(3)];
        let list = List::random(&mut class.rng, line, style, register);
        let count = list.pdus.len();
        let mut lost = drives::some_lost(&mut class.rng, count, usize::from(line.sequences));
        if turn % 2 == 0 && count > 2 {
            // Of all but the first and the last some in a row.
            lost = vec![false; count];
            let from = class.rng.within(1, count - 2);
            let to = class.rng.within(from + 1, count - 1);
            lost[from..to].fill(true);
        }
        let before = (seen.sums.due, seen.sums.far);
        drives::drive(&mut class, &mut seen, &list, 0..count, &lost);
        let came: Vec<_> = (0..count)
            .map(|index| (!lost[index]).then(|| vec![true; list.pieces(index).len()]))
            .collect();
        let delivered = list.delivered(&(0..count), &came, &vec![false; count]);
        let gap = delivered.windows(2).map(|two| two[1] - two[0] - 1).max();
        let gap = gap.unwrap_or(0);
        if (60..70).contains(&gap) {
            *most.entry(gap).or_default() += 1;
        }
        let due = (seen.sums.due - before.0, seen.sums.far - before.1);
        assert!(delivered.is_empty() || due == if gap < 64 { (1, 0) } else { (0, 1) });
    }
    seen.sums.report("counts, drives");
    println!("counts, drives: drives by the most missing at once, from 60 to 69 {most:?}");
    assert!(seen.sums.due >= 3_000 && seen.sums.far >= 200 && seen.sums.with_missing >= 2_000);
    assert!(most[&63] >= 5 && most[&64] >= 5);
}

/// A receiver just opened has counted nothing, and 8,400 words suffice as before.
#[test]
fn opened() {
    for line in TABLE {
        let opened = receiver::open(line.mode, line.stream).expect("a line of the table");
        assert_eq!(drives::counts(&opened), (0, 0, 0));
        let is_so = product::receiver::open(line.mode, line.stream);
        assert_eq!(is_so.receiver, receiver_for(&opened));
    }
    assert_eq!(LOG_WORDS, 8_400);
}
