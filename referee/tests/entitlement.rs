//! Compares the product's receiver with entitled programs (document 02, Ask 10) with
//! the reference: openings with every list of programs, and wrong ones; PDUs of every
//! mode and stream with any applied services and programs, for receivers that keep
//! any value, by single calls, with marks, in place, in batches and as pairs; pairs of
//! withheld PDUs that differ behind the expansion; and whole drives. What a call has
//! to answer and to leave is told from how its PDUs were made, and what a drive has to
//! log from the writing calls, the list of programs and the lost marks.

#[allow(dead_code)]
mod attempt;
#[allow(dead_code)]
mod calls;
#[allow(dead_code)]
mod copies;
#[allow(dead_code)]
mod drives;
mod lent;
mod noise;
mod product;
#[allow(dead_code)]
mod receptions;
#[allow(dead_code)]
mod roads;
#[allow(dead_code)]
mod samples;
#[allow(dead_code)]
mod spoiling;
#[allow(dead_code)]
mod told;

use attempt::against_product::receiver_for;
use attempt::{Class, Known, Outcomes};
use copies::{compare, Copy, Double, Loan, Tally};
use drives::{List, Style, STYLES};
use lent::{Lent, LentLog, LentSizes};
use noise::Noise;
use product::receiver::Place;
use receptions::{Held, Reception};
use referee::batches;
use referee::encode::Field;
use referee::header;
use referee::modes::{Line, TABLE};
use referee::receiver::{self, Receiver};
use referee::refusal::{self, ReceiverCause};
use referee::rng::Rng;
use roads::Roads;
use samples::Wish;
use std::collections::BTreeMap;

/// The random numbers for a class of cases; its seed is printed.
fn seeded(class: &str, seed: u64) -> Rng {
    println!("{class}: seed {seed:#x}");
    Rng::new(seed)
}

/// The programs whose bits are set, in any order.
fn programs_of(rng: &mut Rng, bits: usize) -> Vec<u8> {
    let mut programs: Vec<u8> = (0..8).filter(|p| bits >> p & 1 != 0).collect();
    for last in (1..programs.len()).rev() {
        programs.swap(last, rng.below(last + 1));
    }
    programs
}

/// None, all, one, all but one, or any.
fn some_programs(rng: &mut Rng) -> Vec<u8> {
    let one = 1 << rng.below(8);
    let bits = [0, 255, one, 255 - one, rng.below(256), rng.below(256)][rng.below(6)];
    programs_of(rng, bits)
}

/// Opens a receiver by reference and product, which has to answer this number.
fn check_opening(rng: &mut Rng, line: (u8, u8), register: u8, programs: &[u8], number: u32) {
    let answer = receiver::open_entitled(line.0, line.1, register, programs);
    assert_eq!(answer.err().unwrap_or(0), number, "{programs:?}");
    let nobody = Receiver {
        mode: 255,
        ..Receiver::default()
    };
    let lent = Lent::of(rng, programs);
    let before = lent.clone();
    let is_so = product::receiver::open_entitled(line.0, line.1, register, &lent);
    assert!(lent == before, "a list is only read");
    assert_eq!(is_so.refusal, number, "{line:?}, {programs:?}");
    assert_eq!(is_so.receiver, receiver_for(&answer.unwrap_or(nobody)));
    if number == 0 {
        let bits: u8 = programs.iter().map(|&program| 1 << program).sum();
        assert_eq!(is_so.receiver.entitled, bits);
    }
}

/// Every set of programs in every mode and stream; numbers over 7, and repeated; 5
/// before 22; and the openings without a list, which are entitled to all.
#[test]
fn opening() {
    let mut rng = seeded("opening with programs", 0xA10_0001);
    let mut counts: BTreeMap<u32, u64> = BTreeMap::new();
    let all: Vec<u8> = (0..8).collect();
    for line in TABLE {
        let there = (line.mode, line.stream);
        // Each set in eight orders.
        for bits in (0..256).cycle().take(8 * 256) {
            let right = programs_of(&mut rng, bits);
            let register = rng.byte();
            check_opening(&mut rng, there, register, &right, 0);
            let mut over = right.clone();
            let place = rng.below(over.len() + 1);
            over.insert(place, [8, 255, rng.within(8, 255) as u8][rng.below(3)]);
            check_opening(&mut rng, there, register, &over, 22);
            let mut numbers = vec![0, 22];
            if let Some(&program) = right.first() {
                let mut twice = right.clone();
                let place = rng.within(1, twice.len());
                twice.insert(place, program);
                check_opening(&mut rng, there, register, &twice, 22);
                numbers.push(22);
            }
            // 5 before 22.
            let nowhere = loop {
                let nowhere = (rng.byte(), [0, 1, rng.byte()][rng.below(3)]);
                if referee::modes::line_for(nowhere.0, nowhere.1).is_none() {
                    break nowhere;
                }
            };
            for programs in [&right, &over] {
                check_opening(&mut rng, nowhere, register, programs, 5);
                numbers.push(5);
            }
            for number in numbers {
                *counts.entry(number).or_default() += 1;
            }
        }
        let register = rng.byte();
        let lent = Lent::of(&mut rng, &all);
        let listed = product::receiver::open_entitled(line.mode, line.stream, register, &lent);
        let without = product::receiver::open_with(line.mode, line.stream, register);
        assert_eq!((listed, without.receiver.entitled), (without, 255));
        let plain = product::receiver::open(line.mode, line.stream);
        assert_eq!(plain.receiver.entitled, 255);
    }
    println!("opening with programs: openings by number {counts:?}");
    assert!([0, 5, 22].iter().all(|number| counts[number] >= 8 * 2_560));
}

/// Expansion fields with any applied services, most often 0 or 1, any program, and
/// often something that is not interpreted.
fn paid_fields(rng: &mut Rng) -> Vec<Field> {
    let mut fields = Vec::new();
    if rng.below(3) == 0 {
        fields.push(samples::field(rng, 0, false));
    }
    if rng.below(5) > 0 {
        let displaced = rng.below(4) == 0;
        fields.push(samples::field(rng, 1, displaced));
    }
    if rng.below(4) == 0 {
        fields.push(samples::field(rng, 2, false));
    }
    match rng.below(8) {
        0 => {}
        // ID 3, and then what looks like applied services 1.
        1 => fields.push(Field::Other(vec![
            0x30 | rng.below(16) as u8,
            0x49,
            0,
            0,
            1,
        ])),
        // ID 4 with bit 3 clear.
        2 => fields.push(samples::stop(rng, 4, 4)),
        _ => {
            fields.push(Field::Marker {
                services: [0, 1, 1, 1, rng.below(8) as u8][rng.below(5)],
                marker: rng.below(1 << 21) as u32,
            });
            if rng.below(4) == 0 {
                let id = [5, 6, 7][rng.below(3)];
                fields.push(samples::stop(rng, id, 3));
            }
        }
    }
    fields
}

/// Gives the receiver any entitled programs and, where applied services are kept, any
/// value or none.
fn entitle(rng: &mut Rng, reception: &mut Reception) {
    let programs = some_programs(rng);
    let receiver = &mut reception.receiver;
    receiver.entitled = [false; 8];
    for program in programs {
        receiver.entitled[usize::from(program)] = true;
    }
    (receiver.serviced, receiver.services) = (false, 0);
    if reception.keeps() && rng.below(4) > 0 {
        reception.receiver.serviced = true;
        reception.receiver.services = [0, 1, 1, rng.below(8) as u8][rng.below(4)];
    }
}

/// A right PDU of this line for a receiver in any state.
fn some_reception(rng: &mut Rng, line: Line) -> Reception {
    let wish = Wish {
        line: Some(line),
        nop: Some([rng.below(3), rng.below(6), rng.below(20)][rng.below(3)]),
        fields: Some(paid_fields(rng)),
        length: Some(rng.within(96, 240)),
        ..Wish::default()
    };
    let mut reception = Reception::new(rng, &wish);
    // Where there are eight sequences, 0 is sent more often.
    if rng.below(4) == 0 {
        reception.sample.parts.control.sequence = 0;
        reception.know_the_one_before();
    }
    let register = [0, 255, rng.byte()][rng.below(3)];
    reception.sample.parts.register = register;
    reception.receiver.register = register;
    entitle(rng, &mut reception);
    reception
}

/// What withheld PDUs looked like.
#[derive(Default)]
struct Looks(BTreeMap<&'static str, u64>);

impl Looks {
    fn count(&mut self, reception: &Reception) {
        let word = &reception.sample.parts.control;
        let said = reception.sample.reading().expansion;
        let Receiver {
            entitled,
            serviced,
            services,
            ..
        } = reception.receiver;
        let listed = entitled[usize::from(said.program)];
        let next = reception.wanted().receiver;
        let withheld = reception.is_withheld();
        for (look, is_so) in [
            ("withheld", withheld),
            ("withheld for services 1 of its own", {
                withheld && said.services == 1 && (!reception.keeps() || word.sequence == 0)
            }),
            ("withheld for services 1 kept", {
                withheld && reception.keeps() && word.sequence > 0 && next.serviced
            }),
            (
                "withheld while unknown",
                withheld && reception.keeps() && !next.serviced,
            ),
            ("withheld while unknown, program 0", {
                withheld && reception.keeps() && !next.serviced && said.program == 0
            }),
            (
                "withheld with PSD",
                withheld && !reception.sample.parts.psd.is_empty(),
            ),
            ("listed with services 1", listed && said.services == 1),
            ("not listed, services 2 to 7, not withheld", {
                !listed && !withheld && said.services > 1
            }),
            ("a value sent with another sequence than 0 not taken", {
                reception.keeps() && word.sequence > 0 && serviced && said.services != services
            }),
            ("a value taken behind a gap", {
                reception.keeps() && word.sequence == 0 && next.serviced && gap(reception)
            }),
            ("a value forgotten by note 1", serviced && !next.serviced),
        ] {
            *self.0.entry(look).or_default() += u64::from(is_so);
        }
    }

    fn report(&self, class: &str, least: u64) {
        println!("{class}: {:?}", self.0);
        for (look, &count) in &self.0 {
            assert!(count >= least, "{class}, {look}: {count}");
        }
    }
}

/// Whether note 1 is due.
fn gap(reception: &Reception) -> bool {
    reception.wanted().words.first() == Some(&told::note(1, 0))
}

/// Receives the PDU with a right call.
fn take(class: &mut Class, reception: &Reception) {
    let wanted = reception.wanted();
    let loan = reception.loan(&mut class.rng, wanted.words.len());
    class.receive(reception.receiver, loan, &Known::Taken(wanted));
}

/// Single calls, by value and in place.
#[test]
fn single() {
    let mut class = Class::new("entitled, single", 0xA10_0002);
    let mut looks = Looks::default();
    for case in 0..60_000 {
        let reception = some_reception(&mut class.rng, TABLE[case % TABLE.len()]);
        looks.count(&reception);
        take(&mut class, &reception);
    }
    class.report(&mut Outcomes::default());
    looks.report("entitled, single", 200);
    let orders = &class.outcomes.orders;
    println!("entitled, single: notes one after another {orders:?}");
    // Note 8 stands behind 1 and 4, before 2 and 5, and never before 3.
    for order in [(0, 8), (1, 8), (4, 8), (8, 2), (8, 5)] {
        assert!(orders[&order] >= 100, "{order:?}");
    }
    assert!(!orders.contains_key(&(8, 3)) && !orders.contains_key(&(8, 8)));
    assert_eq!(class.outcomes.lines.len(), TABLE.len());
}

/// Calls with marks.
#[test]
fn marked() {
    let mut class = Class::new("entitled, with marks", 0xA10_0003);
    let mut looks = Looks::default();
    for case in 0..30_000 {
        let mut reception = some_reception(&mut class.rng, TABLE[case % TABLE.len()]);
        reception.noise = Noise::within_bound(&mut class.rng);
        looks.count(&reception);
        take(&mut class, &reception);
    }
    class.report(&mut Outcomes::default());
    looks.report("entitled, with marks", 100);
}

/// A continuing piece of a held beginning in a withheld PDU: with a right CRC, with a
/// wrong one, held on; and with nothing held.
#[test]
fn continuing() {
    let mut class = Class::new("entitled, continuing", 0xA10_0004);
    let mut ways: BTreeMap<&str, u64> = BTreeMap::new();
    for case in 0..20_000 {
        let line = TABLE[case % TABLE.len()];
        let mut reception = loop {
            let reception = some_reception(&mut class.rng, line);
            if !reception.sample.parts.pieces.is_empty() {
                break reception;
            }
        };
        reception.know_the_one_before();
        reception.receiver.entitled = [false; 8];
        reception.sample.parts.control.pfirst = true;
        if !reception.is_withheld() {
            continue;
        }
        let only = reception.sample.parts.pieces.len() == 1;
        let plast = reception.sample.parts.control.plast;
        let piece = &mut reception.sample.parts.pieces[0];
        let way = case / TABLE.len() % 3;
        piece.crc_error = match way {
            1 => class.rng.nonzero_byte(),
            _ => 0,
        };
        let held = match way {
            2 => Held::Nothing,
            _ => Held::Fitting(class.rng.within(1, 2_000)),
        };
        reception.hold(&mut class.rng, held);
        let wanted = reception.wanted();
        let eight = told::note(8, 0);
        let name = match (way, only && plast) {
            (0, true) => "right, held on",
            (0, false) => "right, delivered",
            (1, _) => "wrong CRC",
            _ => "nothing held",
        };
        match name {
            "right, held on" => assert!(wanted.words == [eight] && wanted.receiver.held > 0),
            "right, delivered" => assert!(wanted.words.len() > 2 && wanted.words[0] == eight),
            "wrong CRC" => assert_eq!(wanted.words, [eight, told::note(2, 0)]),
            _ => assert_eq!(wanted.words, [eight]),
        }
        assert!(name == "right, held on" || wanted.receiver.held == 0);
        *ways.entry(name).or_default() += 1;
        take(&mut class, &reception);
    }
    class.report(&mut Outcomes::default());
    println!("entitled, continuing: {ways:?}");
    assert!(ways.len() == 4 && ways.values().all(|&count| count >= 100));
}

/// Number 1 for the kept value, and 13 for logs one word short and shorter.
#[test]
fn refused() {
    let mut class = Class::new("entitled, refused", 0xA10_0005);
    let mut causes: BTreeMap<&str, u64> = BTreeMap::new();
    for case in 0..30_000 {
        let mut reception = some_reception(&mut class.rng, TABLE[case % TABLE.len()]);
        let receiver = &mut reception.receiver;
        let keeps = matches!((receiver.mode, receiver.stream), (1 | 2 | 3 | 13, 0));
        let (name, cause) = match case / TABLE.len() % 4 {
            0 => {
                let over = [8, 255, class.rng.within(8, 255) as u8][class.rng.below(3)];
                (receiver.serviced, receiver.services) = (true, over);
                ("over 7", ReceiverCause::ServicesOver7)
            }
            1 => {
                let value = [1, 7, class.rng.within(1, 7) as u8][class.rng.below(3)];
                (receiver.serviced, receiver.services) = (false, value);
                ("not 0 while unknown", ReceiverCause::ServicesNotKnown)
            }
            2 if !keeps => {
                let value = class.rng.below(8) as u8;
                (receiver.serviced, receiver.services) = (true, value);
                ("known elsewhere", ReceiverCause::ServicesNotKept)
            }
            _ => {
                let words = reception.wanted().words.len();
                let Some(short) = words.checked_sub(1) else {
                    continue;
                };
                let log = [short, short, class.rng.within(0, short)][class.rng.below(3)];
                reception.log = Some(log);
                let name = match reception.is_withheld() {
                    true => "log too short, withheld",
                    false => "log too short",
                };
                (name, ReceiverCause::LogTooShort)
            }
        };
        // Over 7 is also a value known elsewhere.
        let known = match name {
            "over 7" => Known::Number(refusal::STATE),
            _ => Known::Only(cause),
        };
        let loan = reception.loan(&mut class.rng, 20);
        class.receive(reception.receiver, loan, &known);
        if cause != ReceiverCause::LogTooShort {
            let log = LentLog::random(&mut class.rng, 1);
            class.mark_lost(reception.receiver, log, &known);
        }
        *causes.entry(name).or_default() += 1;
    }
    class.report(&mut Outcomes::default());
    println!("entitled, refused: {causes:?}");
    assert!(causes.len() == 5 && causes.values().all(|&count| count >= 1_000));
}

/// Marking lost keeps the programs and forgets the value.
#[test]
fn lost() {
    let mut class = Class::new("entitled, lost", 0xA10_0006);
    let mut forgotten = 0;
    for case in 0..20_000 {
        let reception = some_reception(&mut class.rng, TABLE[case % TABLE.len()]);
        let words = class.rng.within(1, 4);
        let log = LentLog::random(&mut class.rng, words);
        let (answer, _) = class.mark_lost(reception.receiver, log, &Known::Accepted);
        let next = answer.receiver;
        assert_eq!(next.entitled, reception.receiver.entitled);
        assert!(!next.serviced && next.services == 0);
        forgotten += u64::from(reception.receiver.serviced);
    }
    class.report(&mut Outcomes::default());
    println!("entitled, lost: {forgotten} values forgotten");
    assert!(forgotten >= 3_000);
}

/// Pairs whose pieces are right, wrong or differing, and pairs of which one copy can't
/// be mended.
#[test]
fn pairs() {
    let mut rng = seeded("entitled, pairs", 0xA10_0007);
    let mut tally = Tally::default();
    let mut looks = Looks::default();
    for case in 0..50_000 {
        let reception = some_reception(&mut rng, TABLE[case % TABLE.len()]);
        let double = Double::of(&mut rng, reception);
        looks.count(&double.first);
        let sent = [double.first.pdu(), double.second.pdu()];
        let gone = rng.below(8);
        let copies = [0, 1].map(|copy: usize| match gone == copy {
            true => Copy::beyond(&mut rng, &sent[copy]),
            false => Copy::mendable(&mut rng, &sent[copy]),
        });
        let told = double.told(&copies);
        let log = told.words.len() + rng.below(3);
        let loan = Loan::new(&mut rng, &double.first.carry, &copies, log);
        compare(&mut tally, double.first.receiver, &copies, &loan, &told);
    }
    tally.report("entitled, pairs");
    looks.report("entitled, pairs", 200);
    println!(
        "entitled, pairs: notes one after another {:?}",
        tally.orders
    );
    // The continuing piece follows the pair's rules.
    for order in [(0, 8), (1, 8), (4, 8), (8, 2), (8, 5), (8, 7)] {
        assert!(tally.orders[&order] >= 50, "{order:?}");
    }
    assert!(!tally.orders.contains_key(&(8, 3)));
    assert_eq!(tally.accepted, tally.pairs);
}

/// A PDU for a receiver that stands so, most often the next.
fn following(rng: &mut Rng, line: Line, receiver: Receiver, carry: &[u8]) -> Reception {
    let mut reception = some_reception(rng, line);
    let word = &mut reception.sample.parts.control;
    if receiver.known && rng.below(8) > 0 {
        word.sequence = (receiver.sequence + 1) % line.sequences;
    }
    if receiver.held > 0 && word.nop > 0 && rng.below(8) > 0 {
        word.pfirst = true;
        word.start = (receiver.number + 1) % 64;
    }
    reception.sample.parts.register = receiver.register;
    reception.receiver = receiver;
    reception.carry = carry.to_vec();
    reception
}

/// Batches, of which some are refused at a PDU.
#[test]
fn in_batches() {
    let mut rng = seeded("entitled, batches", 0xA10_0008);
    let mut looks = Looks::default();
    let (mut batched, mut taken, mut refused) = (0, 0, 0);
    for case in 0..12_000 {
        let line = TABLE[case % TABLE.len()];
        let first = some_reception(&mut rng, line);
        let (mut receiver, mut carry) = (first.receiver, first.carry.clone());
        let (mut pdus, mut left, mut lengths, mut words) = (vec![], vec![], vec![], vec![]);
        let count = rng.below(9);
        let bad = match rng.below(4) {
            0 => rng.below(count + 1),
            _ => count,
        };
        for place in 0..count {
            let mut reception = match place {
                0 => first.clone(),
                _ => following(&mut rng, line, receiver, &carry),
            };
            reception.noise = Noise::unmarked(rng.below(5));
            let sent = reception.pdu();
            let copy = match place == bad {
                true => Copy::beyond(&mut rng, &sent),
                false => Copy::mendable(&mut rng, &sent),
            };
            lengths.push(copy.lent.len());
            pdus.extend(&copy.lent);
            if place < bad {
                looks.count(&reception);
                let wanted = reception.wanted();
                words.extend(wanted.words);
                (receiver, carry) = (wanted.receiver, wanted.carry);
                left.extend(copy.left);
            } else {
                left.extend(copy.lent);
            }
        }
        let log = LentLog::random(&mut rng, words.len() + 5);
        let before = (
            Lent::of(&mut rng, &first.carry),
            Lent::of(&mut rng, &pdus),
            log,
        );
        let (mut own_carry, mut own_pdus, mut own_log) = before.clone();
        let answer = batches::receive(
            first.receiver,
            own_carry.bytes_mut(),
            own_pdus.bytes_mut(),
            &lengths,
            own_log.words_mut(),
        );
        assert_eq!((answer.taken, answer.receiver), (bad.min(count), receiver));
        assert!(own_log.words()[..answer.words] == words && own_carry.bytes() == carry);
        assert!(own_pdus.bytes() == left);
        let (mut carry, mut pdus, mut log) = before;
        let sizes = LentSizes::of(&mut rng, &lengths);
        let is_so = product::batches::receive(
            receiver_for(&first.receiver),
            &mut carry,
            &mut pdus,
            &sizes,
            &mut log,
        );
        assert_eq!(
            (is_so.refusal, is_so.taken, is_so.words, is_so.receiver),
            (
                answer.refusal,
                answer.taken,
                answer.words,
                receiver_for(&answer.receiver)
            )
        );
        assert!(carry == own_carry && pdus == own_pdus && log == own_log);
        batched += 1;
        taken += answer.taken;
        refused += u64::from(answer.refusal != 0);
    }
    println!(
        "entitled, batches: {batched} batches compared, {taken} PDUs taken, {refused} stopped"
    );
    looks.report("entitled, batches", 100);
    assert!(taken >= 30_000 && refused >= 1_000);
}

/// A withheld PDU with no packet continuing from an earlier one.
fn some_secret(rng: &mut Rng, line: Line) -> Reception {
    loop {
        let mut reception = some_reception(rng, line);
        if rng.below(2) == 0 {
            reception.receiver.entitled = [false; 8];
        }
        if rng.below(4) > 0 {
            reception.hold(rng, Held::Nothing);
        }
        let word = &reception.sample.parts.control;
        let held = reception.receiver.held > 0 && !gap(&reception);
        let fits = usize::from(reception.receiver.number) == (usize::from(word.start) + 63) % 64;
        if reception.is_withheld() && !(held && word.pfirst && fits) {
            return reception;
        }
    }
}

/// The PDU with all that stands behind the expansion, or behind the locators if there
/// is none, made anew.
fn made_anew(rng: &mut Rng, reception: &Reception, pdu: &[u8]) -> Vec<u8> {
    let sample = &reception.sample;
    let behind = sample.last_locator_byte() + 1 + sample.parts.expansion.len();
    let mut other = pdu.to_vec();
    match rng.below(3) {
        0 => other[behind..].fill(rng.byte()),
        1 => {
            let place = rng.within(behind, pdu.len() - 1);
            other[place] ^= rng.nonzero_byte();
        }
        _ => rng.fill(&mut other[behind..]),
    }
    header::write_parity(&mut other).expect("a length of PDUs");
    other
}

/// Two PDUs of one length that are equal, once mended, from byte 8 to the end of the
/// expansion, both withheld, with no packet continuing, for equal receivers with equal
/// carries and logs: equal logs, carries and states, by each call.
#[test]
fn secrecy() {
    let mut rng = seeded("entitled, secrecy", 0xA10_0009);
    let mut counts: BTreeMap<&str, u64> = BTreeMap::new();
    for case in 0..20_000 {
        let reception = some_secret(&mut rng, TABLE[case % TABLE.len()]);
        let one = reception.pdu();
        let other = made_anew(&mut rng, &reception, &one);
        let words = 3 + rng.below(4);
        let log = LentLog::random(&mut rng, words);
        let carry = Lent::of(&mut rng, &reception.carry);
        let receiver = receiver_for(&reception.receiver);
        let name = [
            "by value",
            "with marks",
            "in place",
            "in a batch",
            "as a pair",
        ][case / 10 % 5];
        let [first, second] = [&one, &other].map(|sent| {
            let (mut carry, mut log) = (carry.clone(), log.clone());
            let noise = match name {
                "with marks" => Noise::within_bound(&mut rng),
                _ => Noise::unmarked(rng.below(5)),
            };
            let mut pdu = Lent::of(&mut rng, sent);
            noise.alter(&mut rng, pdu.bytes_mut());
            let marks = Lent::of(&mut rng, noise.list());
            let sizes = LentSizes::of(&mut rng, &[sent.len()]);
            let mut copy = Lent::of(&mut rng, sent);
            let mut place = Place::of(receiver);
            let answer = match name {
                "by value" => {
                    let a = product::receiver::receive(receiver, &mut carry, &mut pdu, &mut log);
                    (a.refusal, a.words as usize, a.receiver)
                }
                "with marks" => {
                    let a = product::receiver::receive_marked(
                        receiver, &mut carry, &mut pdu, &marks, &mut log,
                    );
                    (a.refusal, a.words as usize, a.receiver)
                }
                "in place" => {
                    let a = product::receiver::receive_in_place(
                        &mut place, &mut carry, &mut pdu, &mut log,
                    );
                    (a.refusal, a.words as usize, place.receiver)
                }
                "in a batch" => {
                    let a =
                        product::batches::receive(receiver, &mut carry, &mut pdu, &sizes, &mut log);
                    (a.refusal, a.words, a.receiver)
                }
                _ => {
                    let a = product::pairs::receive(
                        receiver, &mut carry, &mut pdu, &mut copy, &mut log,
                    );
                    (a.refusal, a.words as usize, a.receiver)
                }
            };
            assert_eq!(answer.0, 0);
            assert!(pdu.bytes() == sent, "left mended");
            (answer, carry, log)
        });
        assert!(first == second, "{name}");
        assert!(one != other || case > 0);
        *counts.entry(name).or_default() += u64::from(one != other);
    }
    println!("entitled, secrecy: pairs of withheld PDUs by call {counts:?}");
    assert!(counts.len() == 5 && counts.values().all(|&count| count >= 3_500));
}

/// Short packets and PDUs, so that many drives can be made.
const SHORT: [usize; 5] = [0, 3, 6, 7, 8];

/// What drives with entitled programs had.
#[derive(Default)]
struct Served {
    received: u64,
    withheld: u64,
    /// Packets that demand 3 or Ask 5 has due, and those of them that begin in a PDU
    /// not withheld.
    due: u64,
    logged: u64,
    /// Drives of receivers entitled to all, to none, and others.
    lists: BTreeMap<&'static str, u64>,
    /// Drives with withheld and other PDUs.
    mixed: u64,
}

/// Whole drives with lost PDUs, pairs, batches, marks, calls in place and refused
/// ones: the log holds exactly those of the packets due that begin in a PDU or pair
/// not withheld.
#[test]
fn driving() {
    let mut rng = seeded("entitled, drives", 0xA10_000A);
    let mut roads = Roads::default();
    let mut served = Served::default();
    for case in 0..20_000 {
        let line = TABLE[case % TABLE.len()];
        let style: Style = match case / TABLE.len() % 25 {
            0 => STYLES[rng.below(STYLES.len())],
            turn => STYLES[SHORT[turn % SHORT.len()]],
        };
        let register = [0, 255, rng.byte()][rng.below(3)];
        let list = List::random_with(&mut rng, line, style, register, calls::paid_settings);
        let run = drives::some_run(&mut rng, list.pdus.len());
        let lost = drives::some_lost(&mut rng, run.len(), usize::from(line.sequences));
        let programs = some_programs(&mut rng);
        let opened = receiver::open_entitled(line.mode, line.stream, register, &programs);
        let lent = Lent::of(&mut rng, &programs);
        let is_so = product::receiver::open_entitled(line.mode, line.stream, register, &lent);
        let opened = opened.expect("a line of the table and programs");
        assert_eq!((is_so.refusal, is_so.receiver), (0, receiver_for(&opened)));
        let (came, joined, left) =
            roads::drive(&mut rng, &mut roads, &list, &run, &lost, opened, true);
        let withheld = list.withheld(&run, &lost, &programs);
        let (drives, sums) = (roads.drives, &mut roads.sums);
        let left = drives::counts(&left);
        drives::check_served(drives, sums, &list, &run, &came, &withheld, &joined, left);
        roads.drives += 1;
        roads.packets += list.count() as u64;
        *roads.lines.entry((line.mode, line.stream)).or_default() += 1;
        let gone = withheld
            .iter()
            .zip(&lost)
            .filter(|&(&w, &l)| w && !l)
            .count() as u64;
        let received = lost.iter().filter(|&&lost| !lost).count() as u64;
        served.withheld += gone;
        served.received += received;
        served.mixed += u64::from(gone > 0 && gone < received);
        served.due += list.wanted(&run, &came).0 as u64;
        served.logged += list.wanted_of(&run, &came, &withheld).0 as u64;
        let name = match programs.len() {
            0 => "none",
            8 => "all",
            _ => "some",
        };
        assert!(name != "all" || gone == 0);
        *served.lists.entry(name).or_default() += 1;
    }
    println!(
        "entitled, drives: {} drives, {} pairs received, {} single calls, {} of them with marks and \
         {} in place, {} batches of {} PDUs, {} lost",
        roads.drives,
        roads.pairs.accepted,
        roads.single,
        roads.marked,
        roads.in_place,
        roads.batches,
        roads.in_batches,
        roads.lost
    );
    println!(
        "entitled, drives: {} of {} received PDUs withheld, {} drives with withheld and other PDUs, \
         entitled to {:?}",
        served.withheld, served.received, served.mixed, served.lists
    );
    println!(
        "entitled, drives: {} packets of the lists, {} due before Ask 10, {} of these begin in a PDU \
         not withheld and are logged",
        roads.packets, served.due, served.logged
    );
    println!(
        "entitled, drives: refused pairs by number {:?}, single calls {}, batches {}",
        roads.refused_pairs, roads.refused_single, roads.refused_batches
    );
    roads.sums.report("entitled, drives");
    assert!(roads.sums.with_missing >= 1_000);
    assert_eq!(roads.lines.len(), TABLE.len());
    // The promise has no place for these notes.
    assert!([1, 4, 5, 7]
        .iter()
        .all(|cause| !roads.pairs.notes.contains_key(cause)));
    assert!(served.withheld >= 20_000 && served.mixed >= 3_000);
    assert!(served.logged + 5_000 <= served.due);
}
