//! Refusal 11 comes with the smallest k of a wrong locator (document 02, Ask 6).
//! PDUs of each mode and stream, with each count of pieces and each count of
//! wrong locators from one to all, are read, listed, and received by value and
//! in place. Which locators are wrong is known from how a PDU was made.

mod lent;
#[allow(dead_code)]
mod lists;
mod product;

use lent::{Lent, LentLog};
use lists::LentList;
use product::receiver::{self as receiving, Place};
use referee::control::{ControlWord, MOST_PIECES};
use referee::encode::Parts;
use referee::header::PLACES;
use referee::locators;
use referee::modes::{Line, TABLE};
use referee::reading;
use referee::receiver::CARRY_BYTES;
use referee::refusal;
use referee::rng::Rng;
use std::collections::BTreeMap;

/// What a PDU shall have: its mode and stream, how many pieces, and the k of
/// each wrong locator in order.
#[derive(Debug)]
struct Wish {
    line: Line,
    nop: usize,
    wrong: Vec<usize>,
}

impl Wish {
    /// So many wrong ones: any first one, the others anywhere behind it.
    fn new(rng: &mut Rng, line: Line, nop: usize, count: usize) -> Wish {
        let last = nop - count;
        let first = [last, rng.within(0, last)][rng.below(2)];
        let mut wrong = vec![first];
        if count > 1 {
            wrong.extend(rng.places(count - 1, first + 1, nop - 1));
        }
        wrong.sort_unstable();
        Wish { line, nop, wrong }
    }

    fn is_wrong(&self, k: usize) -> bool {
        self.wrong.contains(&k)
    }

    /// Locators of which just these are wrong, each judged from the one before
    /// it as sent. One that right ones follow leaves room for them; another
    /// wrong one may lie past the PDU as well.
    fn locators(&self, rng: &mut Rng, la: usize, length: usize) -> Vec<usize> {
        let highest = (1 << self.line.locator_bits) - 1;
        let mut before = la;
        let mut all = Vec::with_capacity(self.nop);
        for k in 0..self.nop {
            let right = |&k: &usize| !self.is_wrong(k);
            let follow = (k + 1..self.nop).take_while(right).count();
            let most = length - 1 - 2 * follow;
            before = match (self.is_wrong(k), follow) {
                (false, _) => rng.within(before + 2, most),
                (true, 0) if rng.below(2) == 0 => rng.within(length, highest),
                (true, 0) => rng.within(0, (before + 1).min(highest)),
                (true, _) => rng.within(0, (before + 1).min(most)),
            };
            all.push(before);
        }
        all
    }

    /// A PDU with nothing else wrong, at times with up to four bytes of its
    /// header altered.
    fn pdu(&self, rng: &mut Rng) -> Lent {
        let psd = [0, rng.below(8)][rng.below(2)];
        let la = locators::last_byte(self.line.locator_bits, self.nop) + psd;
        let length = PLACES.max(la + 2 * self.nop + 1) + rng.below(40);
        let parts = Parts {
            control: ControlWord {
                mode: self.line.mode,
                stream: self.line.stream,
                sequence: rng.below(usize::from(self.line.sequences)) as u8,
                nop: self.nop as u8,
                la: la as u8,
                ..ControlWord::default()
            },
            locator_bits: self.line.locator_bits,
            locators: self.locators(rng, la, length),
            ..Parts::default()
        };
        let mut lent = Lent::random(rng, length);
        parts.encode(lent.bytes_mut());
        let altered = [0, 0, rng.below(5)][rng.below(3)];
        for place in rng.places(altered, 0, PLACES - 1) {
            lent.bytes_mut()[place] ^= rng.nonzero_byte();
        }
        lent
    }
}

/// What is lent beside the PDU.
#[derive(Clone, PartialEq)]
struct Beside {
    carry: Lent,
    log: LentLog,
    list: LentList,
}

impl Beside {
    fn new(rng: &mut Rng) -> Beside {
        Beside {
            carry: Lent::random(rng, CARRY_BYTES),
            log: LentLog::random(rng, 40),
            list: LentList::random(rng, 64),
        }
    }
}

/// The number and the k that the product answers: to reading and listing, and
/// to receiving by value and in place. All that is lent stays as it was.
fn answered(pdu: &Lent, line: Line, beside: &Beside) -> [(u32, u32); 4] {
    let Beside {
        mut carry,
        mut log,
        mut list,
    } = beside.clone();
    let mut lent = [pdu.clone(), pdu.clone(), pdu.clone(), pdu.clone()];
    let [first, second, third, fourth] = &mut lent;
    let read = product::read(first.bytes_mut());
    let listed = product::list_pieces(second.bytes_mut(), 0, list.entries_mut());
    let fresh = receiving::open(line.mode, line.stream).receiver;
    let received = receiving::receive(fresh, &mut carry, third, &mut log);
    let mut place = Place::of(fresh);
    let stepped = receiving::receive_in_place(&mut place, &mut carry, fourth, &mut log);
    assert_eq!((received.words, stepped.words), (0, 0));
    assert!(received.receiver == fresh && place == Place::of(fresh));
    assert!(lent.iter().all(|lent| lent == pdu), "the PDU");
    assert!(
        *beside == Beside { carry, log, list },
        "what is lent beside"
    );
    [
        (read.refusal, read.wrong_locator),
        (listed.refusal, listed.wrong_locator),
        (received.refusal, received.wrong_locator),
        (stepped.refusal, stepped.wrong_locator),
    ]
}

/// What came of a mode and stream.
#[derive(Default)]
struct Seen {
    pdus: u64,
    all_wrong: u64,
    /// By the k that is answered, and by how many are wrong.
    by_k: BTreeMap<usize, u64>,
    by_count: BTreeMap<usize, u64>,
}

impl Seen {
    /// Makes a PDU and compares.
    fn compare(&mut self, rng: &mut Rng, wish: &Wish, beside: &Beside) {
        let pdu = wish.pdu(rng);
        let refused = reading::read(pdu.clone().bytes_mut()).expect_err("wrong locators");
        let mut told = refused.wrong_locators();
        told.dedup();
        assert_eq!((refused.number, &told), (refusal::LOCATOR, &wish.wrong));
        let k = refused.k();
        assert_eq!(k, wish.wrong[0]);
        let wanted = [(refusal::LOCATOR, k as u32); 4];
        assert_eq!(answered(&pdu, wish.line, beside), wanted, "{wish:?}");
        self.pdus += 1;
        self.all_wrong += u64::from(wish.wrong.len() == wish.nop);
        *self.by_k.entry(k).or_default() += 1;
        *self.by_count.entry(wish.wrong.len()).or_default() += 1;
    }
}

/// Each mode and stream, each count of pieces, each count of wrong locators.
#[test]
fn the_smallest_k() {
    let mut rng = Rng::new(0x10CA_7025);
    let beside = Beside::new(&mut rng);
    let mut pdus = 0;
    for line in TABLE {
        let mut seen = Seen::default();
        for nop in 1..=MOST_PIECES {
            for count in 1..=nop {
                for _ in 0..16 {
                    let wish = Wish::new(&mut rng, line, nop, count);
                    seen.compare(&mut rng, &wish, &beside);
                }
            }
        }
        println!(
            "mode {}, stream {}: {} PDUs with one to all locators wrong, {} with all; by k {:?}; \
             by how many are wrong {:?}",
            line.mode, line.stream, seen.pdus, seen.all_wrong, seen.by_k, seen.by_count
        );
        assert!(seen.by_k.keys().copied().eq(0..MOST_PIECES), "each k");
        let counts = seen.by_count.keys().copied();
        assert!(counts.eq(1..=MOST_PIECES), "each count");
        pdus += seen.pdus;
    }
    println!("{pdus} PDUs, each read, listed, and received by value and in place");
    assert!(pdus >= 300_000);
}
