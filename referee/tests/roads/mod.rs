//! Drives (demand 3; document 02, Ask 5) on which PDUs come as pairs, by single calls
//! and in batches, with damage in their pieces, and some are marked lost; every call
//! by reference and product.

use crate::attempt::against_product::receiver_for;
use crate::copies::{self, Copy, Loan, Tally};
use crate::drives::{Came, List, Sums};
use crate::lent::{Lent, LentLog, LentSizes};
use crate::noise::Noise;
use crate::product;
use crate::product::receiver::{Place, Received};
use crate::receptions::{some_carry, spoil_state, spoiled_pdu};
use referee::crc;
use referee::header::{LONGEST, PLACES};
use referee::modes::Line;
use referee::reading;
use referee::receiver::{self, Answer, Receiver, LOG_WORDS};
use referee::refusal;
use referee::rng::Rng;
use referee::{batches, pairs};
use std::collections::BTreeMap;
use std::ops::Range;

/// The numbers of a PDU that can be mended.
pub const NUMBERS: Range<u32> = 5..13;

/// What drives had.
#[derive(Default)]
pub struct Roads {
    pub drives: u64,
    pub sums: Sums,
    pub pairs: Tally,
    /// PDUs by single calls, those of them with marks and in place, PDUs in batches,
    /// batches, and PDUs marked lost.
    pub single: u64,
    pub marked: u64,
    pub in_place: u64,
    pub in_batches: u64,
    pub batches: u64,
    pub lost: u64,
    /// Refused calls: of pairs by number, single ones, and batches.
    pub refused_pairs: BTreeMap<u32, u64>,
    pub refused_single: u64,
    pub refused_batches: u64,
    /// Pieces of pairs by how they came: as sent in both copies, in the first alone,
    /// in the second alone, in none.
    pub pieces: [u64; 4],
    /// Packets of the lists, and those that are due.
    pub packets: u64,
    pub logged: u64,
    pub lines: BTreeMap<(u8, u8), u64>,
}

/// A receiver on its drive.
struct Road<'a> {
    rng: &'a mut Rng,
    roads: &'a mut Roads,
    line: Line,
    receiver: Receiver,
    carry: Vec<u8>,
    /// Whether single calls are made with marks and in place too.
    any_way: bool,
    /// The logs, each as far as its answer counts.
    joined: Vec<u32>,
}

/// A copy of a sent PDU on the road: at most four of the first 96 bytes altered,
/// bytes 96 to La as sent, some pieces damaged so that their CRC is wrong, reserved
/// bytes from 96 on anything. Of each piece whether it is as sent, once mended.
fn on_the_road(rng: &mut Rng, sent: &[u8], register: u8) -> (Copy, Vec<bool>) {
    let reading = reading::read(&mut sent.to_vec()).expect("a PDU of a writer");
    let mut left = sent.to_vec();
    let one_of = [2, 3, 8, 1_000][rng.below(4)];
    let mut as_sent = Vec::new();
    let mut behind = usize::from(reading.control.la) + 1;
    for piece in &reading.pieces {
        behind = piece.start + piece.length + 1;
        let hit = behind > PLACES && rng.below(one_of) == 0;
        if hit {
            damage(rng, &mut left, piece.start..behind, register);
        }
        as_sent.push(!hit);
    }
    let reserved = behind.max(PLACES);
    if reserved < left.len() && rng.below(4) == 0 {
        rng.fill(&mut left[reserved..]);
    }
    let mut copy = Copy::mendable(rng, &left);
    copy.left = left;
    (copy, as_sent)
}

/// Damages a piece, with its CRC byte behind it, from byte 96 on, so that its CRC is
/// wrong.
fn damage(rng: &mut Rng, pdu: &mut [u8], piece: Range<usize>, register: u8) {
    let first = piece.start.max(PLACES);
    let sent = pdu[piece.clone()].to_vec();
    let crc_at = piece.end - 1;
    loop {
        let most = (piece.end - first).min(40);
        let count = [1, rng.within(1, most)][rng.below(2)];
        for place in rng.places(count, first, piece.end - 1) {
            pdu[place] ^= rng.nonzero_byte();
        }
        if crc::crc8_from(register, &pdu[piece.start..crc_at]) != pdu[crc_at] {
            return;
        }
        pdu[piece.clone()].copy_from_slice(&sent);
    }
}

impl Road<'_> {
    /// A log of 8,400 words.
    fn log(&mut self) -> LentLog {
        LentLog::of(self.rng, &[0x5A5A_5A5A; LOG_WORDS])
    }

    /// Takes over what an accepted call left.
    fn go_on(&mut self, answer: &Answer, carry: &Lent, log: &LentLog) {
        assert_eq!(answer.causes, []);
        self.receiver = answer.receiver;
        self.carry = carry.bytes().to_vec();
        self.joined.extend(&log.words()[..answer.words]);
    }

    /// Makes the pair's call by reference and product.
    fn call(&mut self, receiver: Receiver, copies: &[Copy; 2], before: &Loan) -> (Answer, Loan) {
        let mut loan = before.clone();
        let answer = pairs::receive(
            receiver,
            loan.carry.bytes_mut(),
            loan.first.bytes_mut(),
            loan.second.bytes_mut(),
            loan.log.words_mut(),
        );
        copies::check_product(receiver, before, &answer, &loan);
        self.roads.pairs.count(copies, &answer, &loan.log);
        (answer, loan)
    }

    /// What is lent, with a log of 8,400 words.
    fn loan(&mut self, copies: &[Copy; 2]) -> Loan {
        Loan {
            carry: Lent::of(self.rng, &self.carry),
            first: Lent::of(self.rng, &copies[0].lent),
            second: Lent::of(self.rng, &copies[1].lent),
            log: self.log(),
        }
    }

    /// Receives a PDU of the run as a pair; what came of its pieces.
    fn pair(&mut self, sent: &[u8]) -> Vec<bool> {
        let register = self.receiver.register;
        let (one, in_first) = on_the_road(self.rng, sent, register);
        let (other, in_second) = on_the_road(self.rng, sent, register);
        let copies = [one, other];
        let before = self.loan(&copies);
        let (answer, loan) = self.call(self.receiver, &copies, &before);
        assert!(loan.first.bytes() == copies[0].left && loan.second.bytes() == copies[1].left);
        self.go_on(&answer, &loan.carry, &loan.log);
        let came = in_first.iter().zip(&in_second).map(|(&one, &other)| {
            let how = usize::from(!one) * 2 + usize::from(!other);
            self.roads.pieces[how] += 1;
            one || other
        });
        came.collect()
    }

    /// Two copies that are refused with this number, or right ones where it isn't
    /// about them.
    fn refused_copies(&mut self, next: &[u8], number: u32) -> [Copy; 2] {
        let rng = &mut *self.rng;
        let right = Copy::mendable(rng, next);
        let mut copies = match number {
            refusal::BEYOND_MENDING => [Copy::beyond(rng, next), Copy::beyond(rng, next)],
            refusal::COPIES => [right, Copy::mendable(rng, &[next, &[0]].concat())],
            number if NUMBERS.contains(&number) => {
                let spoiled = spoiled_pdu(rng, self.line, number);
                let other = [right, Copy::beyond(rng, next)][rng.below(2)].clone();
                [Copy::mendable(rng, &spoiled), other]
            }
            _ => [right, Copy::mendable(rng, next)],
        };
        if rng.below(2) == 0 {
            copies.swap(0, 1);
        }
        copies
    }

    /// A pair that is refused: it changes nothing.
    fn refused_pair(&mut self, next: &[u8]) {
        let number = match [1, 2, 4, 13, 20, self.some_number()][self.rng.below(6)] {
            refusal::COPIES if next.len() == LONGEST => refusal::BEYOND_MENDING,
            number => number,
        };
        let copies = self.refused_copies(next, number);
        let mut receiver = self.receiver;
        let mut before = self.loan(&copies);
        match number {
            refusal::STATE => spoil_state(self.rng, &mut receiver),
            refusal::CARRY => before.carry = Lent::of(self.rng, &self.carry[..4_095]),
            refusal::LOG => {
                let words = self.words(&before);
                let Some(short) = words.checked_sub(1) else {
                    return;
                };
                before.log = LentLog::random(self.rng, short);
            }
            _ => {}
        }
        let (answer, loan) = self.call(receiver, &copies, &before);
        assert_eq!((answer.refusal, answer.receiver), (number, receiver));
        assert!(loan == before, "changed by a refused pair");
        *self.roads.refused_pairs.entry(number).or_default() += 1;
    }

    /// How many words a pair writes.
    fn words(&self, before: &Loan) -> usize {
        let mut loan = before.clone();
        pairs::receive(
            self.receiver,
            loan.carry.bytes_mut(),
            loan.first.bytes_mut(),
            loan.second.bytes_mut(),
            loan.log.words_mut(),
        )
        .words
    }

    /// A number, 5 to 12, with which a PDU can be refused here.
    fn some_number(&mut self) -> u32 {
        match self.rng.within(5, 12) as u32 {
            refusal::SEQUENCE if self.line.sequences == 8 => refusal::LA,
            number => number,
        }
    }

    /// Receives a PDU by a call of its own; the number, 0 if it is accepted.
    fn single(&mut self, copy: &Copy) -> u32 {
        let way = match self.any_way && copy.mends() {
            true => self.rng.below(3),
            false => 0,
        };
        let mut carry = Lent::of(self.rng, &self.carry);
        let mut pdu = Lent::of(self.rng, &copy.lent);
        let mut log = self.log();
        let noise = match way {
            1 => Noise::within_bound(self.rng),
            _ => Noise::default(),
        };
        if way == 1 {
            pdu = Lent::of(self.rng, &copy.left);
            noise.alter(self.rng, pdu.bytes_mut());
        }
        let (mut own_carry, mut own_pdu, mut own_log) = (carry.clone(), pdu.clone(), log.clone());
        let answer = receiver::receive_marked(
            self.receiver,
            carry.bytes_mut(),
            pdu.bytes_mut(),
            noise.list(),
            log.words_mut(),
        );
        let receiver = receiver_for(&self.receiver);
        let (own_log_mut, own_carry_mut) = (&mut own_log, &mut own_carry);
        let is_so = match way {
            0 => product::receiver::receive(receiver, own_carry_mut, &mut own_pdu, own_log_mut),
            1 => {
                let (pdu, log) = (&mut own_pdu, own_log_mut);
                let marks = Lent::of(self.rng, noise.list());
                self.roads.marked += 1;
                product::receiver::receive_marked(receiver, own_carry_mut, pdu, &marks, log)
            }
            _ => {
                self.roads.in_place += 1;
                let mut place = Place::of(receiver);
                let stepped = product::receiver::receive_in_place(
                    &mut place,
                    own_carry_mut,
                    &mut own_pdu,
                    own_log_mut,
                );
                assert_eq!(place, Place::of(place.receiver), "around the receiver");
                Received {
                    refusal: stepped.refusal,
                    wrong_locator: stepped.wrong_locator,
                    words: stepped.words,
                    receiver: place.receiver,
                }
            }
        };
        assert_eq!(
            (is_so.refusal, is_so.words as usize, is_so.receiver),
            (answer.refusal, answer.words, receiver_for(&answer.receiver))
        );
        assert!(own_carry == carry && own_pdu == pdu && own_log == log);
        if answer.refusal == 0 {
            self.go_on(&answer, &carry, &log);
        }
        answer.refusal
    }

    /// Receives PDUs in one call, of which so many have to be taken.
    fn batch(&mut self, copies: &[Copy], taken: usize) {
        let pdus: Vec<u8> = copies.iter().flat_map(|copy| copy.lent.clone()).collect();
        let lengths: Vec<usize> = copies.iter().map(|copy| copy.lent.len()).collect();
        let mut carry = Lent::of(self.rng, &self.carry);
        let mut pdus = Lent::of(self.rng, &pdus);
        let mut log = LentLog::of(self.rng, &vec![0; LOG_WORDS * copies.len()]);
        let (mut own_carry, mut own_pdus, mut own_log) = (carry.clone(), pdus.clone(), log.clone());
        let answer = batches::receive(
            self.receiver,
            carry.bytes_mut(),
            pdus.bytes_mut(),
            &lengths,
            log.words_mut(),
        );
        let is_so = product::batches::receive(
            receiver_for(&self.receiver),
            &mut own_carry,
            &mut own_pdus,
            &LentSizes::of(self.rng, &lengths),
            &mut own_log,
        );
        assert_eq!(answer.taken, taken);
        assert_eq!(
            (is_so.refusal, is_so.taken, is_so.words, is_so.receiver),
            (
                answer.refusal,
                taken,
                answer.words,
                receiver_for(&answer.receiver)
            )
        );
        assert!(own_carry == carry && own_pdus == pdus && own_log == log);
        self.receiver = answer.receiver;
        self.carry = carry.bytes().to_vec();
        self.joined.extend(&log.words()[..answer.words]);
    }

    /// A call of any kind that is refused.
    fn refused(&mut self, next: &[u8]) {
        match self.rng.below(4) {
            0 => {
                let copy = Copy::beyond(self.rng, next);
                assert_ne!(self.single(&copy), 0);
                self.roads.refused_single += 1;
            }
            1 => {
                let copies = [Copy::beyond(self.rng, next), Copy::mendable(self.rng, next)];
                self.batch(&copies, 0);
                self.roads.refused_batches += 1;
            }
            _ => self.refused_pair(next),
        }
    }

    /// Marks a PDU lost.
    fn lose(&mut self) {
        let mut log = self.log();
        let answer = product::receiver::mark_lost(receiver_for(&self.receiver), &mut log);
        let right = receiver::mark_lost(self.receiver, &mut [0]);
        assert_eq!(answer.receiver, receiver_for(&right.receiver));
        self.receiver = right.receiver;
        self.joined.extend(&log.words()[..answer.words as usize]);
        self.roads.lost += 1;
    }

    /// Receives the next PDUs of the run, of which so many in a row are not lost, by
    /// a call of any kind; what came of them.
    fn next(&mut self, list: &List, index: usize, in_a_row: usize) -> Vec<Came> {
        let register = self.receiver.register;
        let sent = &list.pdus[index].pdu;
        match self.rng.below(8) {
            0 => {
                let (copy, came) = on_the_road(self.rng, sent, register);
                assert_eq!(self.single(&copy), 0);
                self.roads.single += 1;
                vec![Some(came)]
            }
            1 => {
                let count = self.rng.within(1, in_a_row.min(5));
                let (copies, came): (Vec<Copy>, Vec<Vec<bool>>) = list.pdus[index..index + count]
                    .iter()
                    .map(|sent| on_the_road(self.rng, &sent.pdu, register))
                    .unzip();
                self.batch(&copies, count);
                self.roads.batches += 1;
                self.roads.in_batches += count as u64;
                came.into_iter().map(Some).collect()
            }
            _ => vec![Some(self.pair(sent))],
        }
    }
}

/// Goes through a run of a list's PDUs with a receiver just opened: the lost ones
/// are marked, the others come as pairs, singly or in batches. What came of each, the
/// joined log, and the receiver that is left.
pub fn drive(
    rng: &mut Rng,
    roads: &mut Roads,
    list: &List,
    run: &Range<usize>,
    lost: &[bool],
    receiver: Receiver,
    any_way: bool,
) -> (Vec<Came>, Vec<u32>, Receiver) {
    let on = &mut |_: &mut Receiver, _: &mut Vec<u8>| {};
    drive_between(rng, roads, list, run, lost, receiver, any_way, on)
}

/// The same, where something is done to the receiver and its carry before each call,
/// refused ones too, and after the last.
#[allow(clippy::too_many_arguments)]
pub fn drive_between(
    rng: &mut Rng,
    roads: &mut Roads,
    list: &List,
    run: &Range<usize>,
    lost: &[bool],
    receiver: Receiver,
    any_way: bool,
    between: &mut dyn FnMut(&mut Receiver, &mut Vec<u8>),
) -> (Vec<Came>, Vec<u32>, Receiver) {
    let carry = some_carry(rng);
    let mut road = Road {
        rng,
        roads,
        line: list.line,
        receiver,
        carry,
        any_way,
        joined: Vec::new(),
    };
    let mut came = Vec::new();
    while came.len() < run.len() {
        let index = run.start + came.len();
        while road.rng.below(8) == 0 {
            between(&mut road.receiver, &mut road.carry);
            road.refused(&list.pdus[index].pdu);
        }
        between(&mut road.receiver, &mut road.carry);
        let here = &lost[came.len()..];
        match here.iter().take_while(|&&lost| !lost).count() {
            0 => {
                road.lose();
                came.push(None);
            }
            in_a_row => came.extend(road.next(list, index, in_a_row)),
        }
    }
    between(&mut road.receiver, &mut road.carry);
    (came, road.joined, road.receiver)
}
