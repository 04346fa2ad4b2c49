//! Whole drives (demand 3): a fresh writer sends one list of packets, with
//! refused calls in between; of the PDUs any run is received in order by a
//! fresh receiver, some marked lost, the others with up to four bytes of the
//! header altered, with refused calls in between as well. What the logs have
//! to hold is told from the writing calls alone. Along with each drive goes a
//! receiver of the product that is stepped in place all the way.
//!
//! In a run with marks (document 02, Ask 3) each received PDU comes with its own
//! marked places, and its header is altered within their bound. Stepping in
//! place takes no marks, so no receiver goes along.
//!
//! Writer and receiver have the same register for their CRCs (document 02, Ask
//! 2), or unequal ones: then each piece has a wrong CRC.

use crate::attempt::{against_product, Class, Known, Loan};
use crate::calls::{self, some_bytes, some_packet, Call};
use crate::lent::{Lent, LentLog};
use crate::noise::{self, Noise};
use crate::product::receiver::{self as product, Place};
use crate::receptions::{self, spoil_state, NUMBERS, NUMBERS_MARKED};
use crate::spoiling;
use crate::told::{self, Kinds};
use referee::header::{self, LONGEST, PLACES};
use referee::modes::{self, Line};
use referee::receiver::{self, Receiver, LOG_WORDS};
use referee::refusal;
use referee::rng::Rng;
use referee::settings::Settings;
use referee::writer::{self, Offer, Writer};
use std::collections::BTreeMap;
use std::ops::Range;

/// What the packets of a list and the PDUs are like.
#[derive(Clone, Copy)]
pub struct Style {
    packets: usize,
    longest_packet: usize,
    shortest_pdu: usize,
    longest_pdu: usize,
}

const fn style(packets: (usize, usize), pdus: (usize, usize)) -> Style {
    Style {
        packets: packets.0,
        longest_packet: packets.1,
        shortest_pdu: pdus.0,
        longest_pdu: pdus.1,
    }
}

/// Long packets in short PDUs, short ones in long PDUs, and others.
pub const STYLES: [Style; 10] = [
    style((3, 4_096), (96, 300)),
    style((12, 4_096), (200, 1_500)),
    style((40, 4_096), (2_000, 20_480)),
    style((150, 3), (96, 140)),
    style((600, 2), (120, 400)),
    style((500, 5), (96, 2_000)),
    style((60, 60), (96, 200)),
    style((15, 300), (96, 96)),
    style((20, 700), (96, 500)),
    style((40, 1_500), (96, 4_096)),
];

/// Short packets in PDUs with about as many pieces as there can be.
#[allow(dead_code)]
pub const MANY: [Style; 2] = [style((900, 3), (200, 380)), style((700, 9), (300, 620))];

/// A PDU, and the bytes of the joined list that it holds.
pub struct Sent {
    pub pdu: Vec<u8>,
    first: usize,
    end: usize,
    psd: Vec<u8>,
    settings: Settings,
}

impl Sent {
    /// How many pieces it has.
    fn pieces(&self) -> usize {
        nop(&self.pdu)
    }
}

/// How many pieces a PDU has: NOP, bits 6-1 of byte 12.
fn nop(pdu: &[u8]) -> usize {
    usize::from(pdu[12] >> 1 & 63)
}

/// What came of a PDU of a run: none if it was lost, otherwise of each piece
/// whether it came as it was sent.
pub type Came = Option<Vec<bool>>;

/// A list of packets, sent by one writer.
pub struct List {
    pub line: Line,
    packets: Vec<Vec<u8>>,
    /// G, how many bytes of the packets joined are sent, counted from the
    /// calls' arguments without the writer.
    sent: usize,
    writer: Writer,
    pub pdus: Vec<Sent>,
    /// How the settings of a PDU of this line and length are chosen.
    settings: SomeSettings,
}

/// Chooses right settings.
pub type SomeSettings = fn(&mut Rng, &Line, usize) -> Settings;

impl List {
    /// A list of which nothing is sent yet, for a writer with this register.
    pub fn new(line: Line, packets: Vec<Vec<u8>>, register: u8) -> List {
        List {
            line,
            packets,
            sent: 0,
            writer: writer::open_with(line.mode, line.stream, register)
                .expect("a line of the table"),
            pdus: Vec::new(),
            settings: calls::some_settings,
        }
    }

    /// A random list, sent to its end or until there are many PDUs.
    pub fn random(rng: &mut Rng, line: Line, style: Style, register: u8) -> List {
        List::random_with(rng, line, style, register, calls::some_settings)
    }

    /// The same with settings chosen so.
    pub fn random_with(
        rng: &mut Rng,
        line: Line,
        style: Style,
        register: u8,
        settings: SomeSettings,
    ) -> List {
        let count = match rng.below(16) {
            0 => rng.below(3),
            _ => rng.within(style.packets / 3, style.packets),
        };
        let packets = (0..count)
            .map(|_| {
                let length = some_packet(rng, style.longest_packet);
                some_bytes(rng, usize::from(length))
            })
            .collect();
        let mut list = List {
            settings,
            ..List::new(line, packets, register)
        };
        let longest = style.longest_pdu.min(calls::longest(&line));
        let most_pdus = rng.within(5, 45);
        while list.pdus.len() < most_pdus {
            let (index, begun) = list.unfinished();
            let left = list.packets.len() - index;
            if left == 0 && rng.below(3) > 0 {
                break;
            }
            if rng.below(8) == 0 {
                list.refused_call(rng);
            }
            let none = left == 0 || begun == 0 && rng.below(10) == 0;
            let length = rng.within(style.shortest_pdu, longest);
            let offered = match rng.below(4) {
                _ if none => 0,
                0 => rng.within(1, left),
                1 => rng.within(1, left.min(4)),
                _ => left,
            };
            let call = list.call(rng, list.enough(offered, length), length);
            list.send(&call);
        }
        list
    }

    /// How many packets it has.
    #[allow(dead_code)]
    pub fn count(&self) -> usize {
        self.packets.len()
    }

    /// The writer's register.
    pub fn register(&self) -> u8 {
        self.writer.register
    }

    /// The unfinished packet, and how many of its bytes are sent, told from G.
    fn unfinished(&self) -> (usize, usize) {
        let mut left = self.sent;
        for (index, packet) in self.packets.iter().enumerate() {
            if left < packet.len() {
                return (index, left);
            }
            left -= packet.len();
        }
        (self.packets.len(), left)
    }

    /// No more packets than what is a little too much for the PDU.
    fn enough(&self, offered: usize, length: usize) -> usize {
        let (index, _) = self.unfinished();
        let mut bytes = 0;
        let mut enough = 0;
        for packet in &self.packets[index..index + offered] {
            enough += 1;
            bytes += packet.len();
            if bytes > 2 * length + 4_096 {
                break;
            }
        }
        enough
    }

    /// A right call that offers so many packets from the unfinished one on.
    fn call(&self, rng: &mut Rng, offered: usize, length: usize) -> Call {
        let (index, _) = self.unfinished();
        let packets = &self.packets[index..index + offered];
        let settings = (self.settings)(rng, &self.line, length);
        let most = calls::most_psd(&self.line, &settings, length);
        let psd = match rng.below(4) {
            0 | 1 => 0,
            2 => rng.below(most + 1),
            _ => most.min(rng.below(12)),
        };
        Call {
            writer: self.writer,
            settings,
            psd: some_bytes(rng, psd),
            lengths: packets.iter().map(|packet| packet.len() as u16).collect(),
            bytes: packets.concat(),
            length,
        }
    }

    /// Makes a call that is accepted.
    pub fn send(&mut self, call: &Call) {
        let (answer, pdu) = write(call);
        assert_eq!(answer.causes, []);
        let first = self.sent;
        self.sent += self.bytes_sent(call);
        self.writer = answer.writer;
        let (index, begun) = self.unfinished();
        assert_eq!(usize::from(self.writer.number), index % 64);
        assert_eq!(usize::from(self.writer.sent), begun);
        self.pdus.push(Sent {
            pdu,
            first,
            end: self.sent,
            psd: call.psd.clone(),
            settings: call.settings,
        });
    }

    /// The n bytes that the placing rule gives: whole remainders while they
    /// fit, then a part of the next, if one byte of it does.
    fn bytes_sent(&self, call: &Call) -> usize {
        let (index, begun) = self.unfinished();
        let mut bytes = 0;
        for place in 0..call.lengths.len() {
            let pieces = place + 1;
            let before = 14 + calls::locator_bytes(&self.line, pieces) + call.psd_and_expansion();
            // No more than NOP can say, and La within its byte (document 02, Ask
            // 9).
            if pieces > 63 || before > 256 {
                break;
            }
            // With the CRCs, this piece's among them.
            let overhead = before + pieces;
            let remainder = match place {
                0 => self.packets[index].len() - begun,
                _ => self.packets[index + place].len(),
            };
            let room = call.length.saturating_sub(overhead + bytes);
            bytes += remainder.min(room);
            if remainder > room {
                break;
            }
        }
        bytes
    }

    /// A call that is refused; it sends nothing.
    fn refused_call(&self, rng: &mut Rng) {
        let left = self.packets.len() - self.unfinished().0;
        let length = rng.within(96, 400);
        let offered = rng.below(left.min(3) + 1);
        let mut call = self.call(rng, offered, length);
        let number = [
            refusal::LENGTH,
            refusal::EXPANSION,
            refusal::VALUE,
            refusal::PACKETS,
            refusal::PSD,
        ][rng.below(5)];
        if number == refusal::PACKETS {
            call.lengths.push([0, 4_097][rng.below(2)]);
        } else if offered == 0 && self.writer.sent > 0 {
            // None offered, and a packet unfinished: 15 stands as well.
            spoiling::spoil(rng, &mut call, number.min(refusal::VALUE));
        } else {
            spoiling::spoil(rng, &mut call, number);
        }
        let (answer, _) = write(&call);
        assert_ne!(answer.refusal, 0);
        assert_eq!(answer.writer, self.writer);
    }

    /// The pieces of a PDU, as bytes of the joined list: what it holds, cut where
    /// packets end.
    pub fn pieces(&self, index: usize) -> Vec<Range<usize>> {
        let Sent { first, end, .. } = self.pdus[index];
        let mut pieces = Vec::new();
        let mut begin = 0;
        for packet in &self.packets {
            let behind = begin + packet.len();
            let piece = begin.max(first)..behind.min(end);
            if !piece.is_empty() {
                pieces.push(piece);
            }
            begin = behind;
        }
        pieces
    }

    /// What comes of the PDUs of a run: all pieces of the received ones as sent.
    fn came(&self, run: &Range<usize>, lost: &[bool]) -> Vec<Came> {
        let pieces = |(index, &lost): (usize, &bool)| match lost {
            true => None,
            false => Some(vec![true; self.pdus[index].pieces()]),
        };
        run.clone().zip(lost).map(pieces).collect()
    }

    /// Of each byte of the joined list, whether it lies in a piece of a received
    /// PDU of the run that came as it was sent.
    fn received(&self, run: &Range<usize>, came: &[Came]) -> Vec<bool> {
        let total = self.packets.iter().map(Vec::len).sum();
        let mut received = vec![false; total];
        for (index, came) in run.clone().zip(came) {
            let Some(as_sent) = came else { continue };
            if as_sent.iter().all(|&as_sent| as_sent) {
                let sent = &self.pdus[index];
                received[sent.first..sent.end].fill(true);
                continue;
            }
            for (piece, &as_sent) in self.pieces(index).into_iter().zip(as_sent) {
                received[piece].fill(as_sent);
            }
        }
        received
    }

    /// Which PDUs of a run are withheld from a receiver that is entitled to these
    /// programs (document 02, Ask 10), told from the writing calls, the list of
    /// programs and the lost marks alone; of a lost one it says nothing.
    #[allow(dead_code)]
    pub fn withheld(&self, run: &Range<usize>, lost: &[bool], programs: &[u8]) -> Vec<bool> {
        let sent = |place: usize| &self.pdus[run.start + place].settings;
        let services = |place: usize| sent(place).applied.map_or(0, |applied| applied.services);
        let paid = |place: usize| match (self.line.mode, self.line.stream) {
            (1 | 2 | 3 | 13, 0) => {
                // The value sent with sequence 0, with no lost PDU since.
                let since = (0..=place).rev().take_while(|&before| !lost[before]);
                let mut sequences_0 = since.filter(|&before| (run.start + before) % 8 == 0);
                sequences_0
                    .next()
                    .is_none_or(|before| services(before) == 1)
            }
            _ => services(place) == 1,
        };
        (0..run.len())
            .map(|place| !programs.contains(&sent(place).program.unwrap_or(0)) && paid(place))
            .collect()
    }

    /// The PDU in which a place of the joined list is sent, counted from the run's
    /// first; none where it is not of the run.
    fn pdu_of(&self, run: &Range<usize>, place: usize) -> Option<usize> {
        let holds = |sent: &Sent| (sent.first..sent.end).contains(&place);
        self.pdus[run.clone()].iter().position(holds)
    }

    /// The words for the packets with every byte in such pieces, in list order:
    /// how many packets, and their words.
    pub fn wanted(&self, run: &Range<usize>, came: &[Came]) -> (usize, Vec<u32>) {
        self.wanted_of(run, came, &vec![false; run.len()])
    }

    /// The same without the packets that begin in a withheld PDU.
    pub fn wanted_of(
        &self,
        run: &Range<usize>,
        came: &[Came],
        withheld: &[bool],
    ) -> (usize, Vec<u32>) {
        let delivered = self.delivered(run, came, withheld);
        let words = |&number: &usize| told::packet(number, &self.packets[number]);
        let all = delivered.iter().flat_map(words).collect();
        (delivered.len(), all)
    }

    /// Which packets of the list these are.
    pub fn delivered(&self, run: &Range<usize>, came: &[Came], withheld: &[bool]) -> Vec<usize> {
        let received = self.received(run, came);
        let any = withheld.contains(&true);
        let mut delivered = Vec::new();
        let mut begin = 0;
        for (number, packet) in self.packets.iter().enumerate() {
            let end = begin + packet.len();
            let all = received[begin..end].iter().all(|&byte| byte);
            let begins = |place: usize| self.pdu_of(run, place).expect("a PDU of the run");
            if all && !(any && withheld[begins(begin)]) {
                delivered.push(number);
            }
            begin = end;
        }
        delivered
    }

    /// The bytes before a place in the joined list that are of the packet
    /// around it; none if a packet begins there.
    fn begun(&self, place: usize) -> Range<usize> {
        let mut begin = 0;
        for packet in &self.packets {
            let end = begin + packet.len();
            if end > place {
                return begin..place;
            }
            begin = end;
        }
        place..place
    }

    /// Whether a place in the joined list lies inside a packet.
    fn inside(&self, place: usize) -> bool {
        !self.begun(place).is_empty()
    }
}

/// Makes a writing call.
fn write(call: &Call) -> (writer::Answer, Vec<u8>) {
    let mut pdu = vec![0xEE; call.length];
    let offer = Offer {
        settings: call.settings,
        psd: &call.psd,
        lengths: &call.lengths,
        bytes: &call.bytes,
    };
    let answer = writer::write(call.writer, &offer, &mut pdu);
    (answer, pdu)
}

/// Delivered, missing and the last delivered number of a receiver.
pub type Counts = (u32, u32, u8);

/// These of the reference's receiver.
pub fn counts(receiver: &Receiver) -> Counts {
    (receiver.delivered, receiver.missing, receiver.last)
}

/// Delivered and missing at the end of drives (document 02, Ask 14).
#[derive(Debug, Default)]
pub struct Sums {
    /// Drives that delivered packets, with fewer than 64 missing between one and the
    /// next: there the sum is due; and those of them with packets missing.
    pub due: u64,
    pub with_missing: u64,
    /// Drives with 64 or more missing at once, and drives that delivered none.
    pub far: u64,
    pub none: u64,
    /// What the counts say in all.
    pub delivered: u64,
    pub missing: u64,
    /// The most missing at once where the sum is due.
    pub most: usize,
}

impl Sums {
    /// The counts of a receiver that delivered these packets of its list and no other.
    /// Where fewer than 64 are missing between one delivered and the next, delivered plus
    /// missing are the writer's packets from the first delivered to the last.
    fn check(&mut self, (counted, missing, last_number): Counts, delivered: &[usize]) {
        let sum = u64::from(counted) + u64::from(missing);
        assert_eq!(counted as usize, delivered.len());
        let (Some(&first), Some(&last)) = (delivered.first(), delivered.last()) else {
            assert_eq!((sum, last_number), (0, 0));
            self.none += 1;
            return;
        };
        assert_eq!(usize::from(last_number), last % 64);
        let packets = (last - first + 1) as u64;
        let between = delivered.windows(2).map(|two| two[1] - two[0] - 1);
        let most = between.max().unwrap_or(0);
        if most < 64 {
            assert_eq!(sum, packets, "delivered and missing");
            self.due += 1;
            self.with_missing += u64::from(missing > 0);
            self.most = self.most.max(most);
        } else {
            assert!(sum < packets && (packets - sum) % 64 == 0);
            self.far += 1;
        }
        self.delivered += u64::from(counted);
        self.missing += u64::from(missing);
    }

    /// Says what there was.
    #[allow(dead_code)]
    pub fn report(&self, class: &str) {
        println!(
            "{class}: delivered and missing are due together in {} drives, {} of them with \
             packets missing, up to {} at once; {} drives with 64 or more at once, {} with \
             none delivered; {} delivered, {} missing",
            self.due,
            self.with_missing,
            self.most,
            self.far,
            self.none,
            self.delivered,
            self.missing
        );
    }
}

/// How often drives had this and that.
#[derive(Default)]
pub struct Seen {
    pub drives: u64,
    pub sums: Sums,
    /// Calls on receivers that are stepped in place all the way.
    pub stepped: u64,
    pub empty_runs: u64,
    pub begun_inside: u64,
    pub received: u64,
    pub lost: u64,
    /// Received, by how many bytes of the header were altered.
    pub altered: BTreeMap<usize, u64>,
    /// Those with 42 pieces or more.
    pub altered_many: BTreeMap<usize, u64>,
    /// Received and lost, by how many pieces they have.
    pub pieces: BTreeMap<usize, u64>,
    pub lost_pieces: BTreeMap<usize, u64>,
    /// Received with marks, by how many, and how many other bytes were altered.
    pub marked: BTreeMap<(usize, usize), u64>,
    /// Lost PDUs in a row, by how many, those over 12 as 13.
    pub in_a_row: BTreeMap<usize, u64>,
    /// Two lost in a row where there are two sequences.
    pub two_of_one_bit: u64,
    /// A beginning was held before lost PDUs, and behind them the sequence is
    /// the next and a packet goes on.
    pub sequence_fits: u64,
    /// And its number is the beginning's.
    pub number_fits: u64,
    /// The same, and it is another packet.
    pub another_packet: u64,
    pub packets: u64,
    /// Packets that a log holds.
    pub logged: u64,
    /// Refused calls, by number.
    pub refused: BTreeMap<u32, u64>,
    pub lines: BTreeMap<(u8, u8), u64>,
    /// By the writer's register.
    pub registers: BTreeMap<u8, u64>,
}

/// A receiver on its drive.
struct Drive<'a> {
    class: &'a mut Class,
    seen: &'a mut Seen,
    receiver: Receiver,
    carry: Lent,
    log: LentLog,
    /// The accepted calls' logs, joined.
    joined: Vec<u32>,
    /// None in a run with marks.
    along: Option<Stepped>,
}

/// The product's receiver, stepped in place from a drive's first call to its
/// last, with a carry and a log of its own.
struct Stepped {
    place: Place,
    carry: Lent,
    log: LentLog,
    /// The accepted calls' logs, joined.
    joined: Vec<u32>,
    calls: u64,
}

impl Stepped {
    /// Receives a PDU of the run.
    fn receive(&mut self, mut pdu: Lent) {
        let Stepped { carry, log, .. } = self;
        let answer = product::receive_in_place(&mut self.place, carry, &mut pdu, log);
        self.accepted(answer);
    }

    /// Marks a PDU lost.
    fn lose(&mut self) {
        let answer = product::mark_lost_in_place(&mut self.place, &mut self.log);
        self.accepted(answer);
    }

    fn accepted(&mut self, answer: product::Stepped) {
        assert_eq!(answer.refusal, 0, "in place");
        let words = &self.log.words()[..answer.words as usize];
        self.joined.extend(words);
        self.calls += 1;
    }

    /// Makes a receiving call with another loan that is refused.
    fn refused(&mut self, mut loan: Loan, number: u32) {
        let Loan {
            carry, pdu, log, ..
        } = &mut loan;
        let answer = product::receive_in_place(&mut self.place, carry, pdu, log);
        assert_eq!(answer.refusal, number, "in place");
        self.calls += 1;
    }

    /// Marks a PDU lost with another log, which is refused.
    fn refused_marking(&mut self, mut log: LentLog, number: u32) {
        let answer = product::mark_lost_in_place(&mut self.place, &mut log);
        assert_eq!(answer.refusal, number, "in place");
        self.calls += 1;
    }
}

/// How a run is gone through.
#[derive(Clone, Copy)]
struct Way {
    /// With marks.
    marked: bool,
    /// The receiver's register.
    register: u8,
}

/// Goes through a run of the list's PDUs, of which some are lost.
#[allow(dead_code)]
pub fn drive(class: &mut Class, seen: &mut Seen, list: &List, run: Range<usize>, lost: &[bool]) {
    let way = Way {
        marked: false,
        register: list.register(),
    };
    through(class, seen, list, run, lost, way);
}

/// Goes through a run with a receiver of this register.
#[allow(dead_code)]
pub fn drive_from(
    class: &mut Class,
    seen: &mut Seen,
    list: &List,
    run: Range<usize>,
    lost: &[bool],
    register: u8,
) {
    let way = Way {
        marked: false,
        register,
    };
    through(class, seen, list, run, lost, way);
}

/// Goes through a run, each received PDU with marks.
#[allow(dead_code)]
pub fn run_with_marks(
    class: &mut Class,
    seen: &mut Seen,
    list: &List,
    run: Range<usize>,
    lost: &[bool],
) {
    let way = Way {
        marked: true,
        register: list.register(),
    };
    through(class, seen, list, run, lost, way);
}

/// Goes through a run in this way.
fn through(
    class: &mut Class,
    seen: &mut Seen,
    list: &List,
    run: Range<usize>,
    lost: &[bool],
    way: Way,
) {
    assert_eq!(lost.len(), run.len());
    let line = list.line;
    let carry = receptions::some_carry(&mut class.rng);
    let log = LOG_WORDS + class.rng.below(3);
    let receiver =
        receiver::open_with(line.mode, line.stream, way.register).expect("a line of the table");
    let carry = Lent::of(&mut class.rng, &carry);
    let log = LentLog::random(&mut class.rng, log);
    let along = Stepped {
        place: Place::of(product::open_with(line.mode, line.stream, way.register).receiver),
        carry: carry.clone(),
        log: log.clone(),
        joined: Vec::new(),
        calls: 0,
    };
    let mut drive = Drive {
        receiver,
        along: (!way.marked).then_some(along),
        carry,
        log,
        joined: Vec::new(),
        class,
        seen,
    };
    for (index, &lost) in run.clone().zip(lost) {
        let pdu = &list.pdus[index].pdu;
        while drive.class.rng.below(8) == 0 {
            drive.refused_call(pdu);
        }
        if lost {
            drive.lose();
        } else {
            drive.receive(pdu);
        }
    }
    if drive.class.rng.below(8) == 0 {
        drive.refused_call(&[0; 96]);
    }
    drive.check_along();
    let (joined, left) = (drive.joined, drive.receiver);
    let equal = way.register == list.register();
    let drives = seen.drives;
    check(
        drives,
        &mut seen.sums,
        list,
        &run,
        lost,
        equal,
        &joined,
        counts(&left),
    );
    count(seen, list, &run, lost, equal);
}

/// The joined logs of a drive against what they have to hold, and the counts of the
/// receiver that is left, where the registers are equal and where they aren't: then each
/// piece is as one that was damaged.
#[allow(clippy::too_many_arguments)]
pub fn check(
    drive: u64,
    sums: &mut Sums,
    list: &List,
    run: &Range<usize>,
    lost: &[bool],
    equal: bool,
    joined: &[u32],
    left: Counts,
) {
    let mut came = list.came(run, lost);
    for as_sent in came.iter_mut().flatten() {
        as_sent.fill(equal);
    }
    check_came(drive, sums, list, run, &came, joined, left);
}

/// The joined logs of a drive against what they have to hold, where this came of
/// the PDUs of the run.
pub fn check_came(
    drive: u64,
    sums: &mut Sums,
    list: &List,
    run: &Range<usize>,
    came: &[Came],
    joined: &[u32],
    left: Counts,
) {
    let withheld = vec![false; run.len()];
    check_served(drive, sums, list, run, came, &withheld, joined, left);
}

/// The same where some of the PDUs are withheld (document 02, Ask 10).
#[allow(clippy::too_many_arguments)]
pub fn check_served(
    drive: u64,
    sums: &mut Sums,
    list: &List,
    run: &Range<usize>,
    came: &[Came],
    withheld: &[bool],
    joined: &[u32],
    left: Counts,
) {
    sums.check(left, &list.delivered(run, came, withheld));
    let told = || {
        format!(
            "drive {drive}: mode {}, stream {}, register {}, run {run:?}, came {came:?}",
            list.line.mode,
            list.line.stream,
            list.register()
        )
    };
    let kinds = Kinds::of(joined);
    assert!(
        kinds.packets == list.wanted_of(run, came, withheld).1,
        "packets; {}",
        told()
    );
    // Besides: the PSD of each received PDU, note 6 for each lost one, note 2 for
    // each piece that came otherwise than it was sent, and note 3 where a received
    // PDU begins inside a packet of which not all before it is received, or which
    // began in a withheld PDU. In a withheld one note 8 stands in place of the PSD,
    // and of the pieces only a continuing one is looked at, if its beginning is held.
    let received = list.received(run, came);
    let mut psd = Vec::new();
    let mut notes = Vec::new();
    for (place, (came, index)) in came.iter().zip(run.clone()).enumerate() {
        let sent = &list.pdus[index];
        let Some(as_sent) = came else {
            notes.push(told::note(6, 0));
            continue;
        };
        let begun = list.begun(sent.first);
        let continues = !begun.is_empty();
        let held = !received[begun.clone()].contains(&false)
            && list
                .pdu_of(run, begun.start)
                .is_some_and(|place| !withheld[place]);
        if withheld[place] {
            notes.push(told::note(8, 0));
            if continues && held && !as_sent[0] {
                notes.push(told::note(2, 0));
            }
            continue;
        }
        if !sent.psd.is_empty() {
            psd.extend(told::psd(&sent.psd));
        }
        for (k, &as_sent) in as_sent.iter().enumerate() {
            if !as_sent {
                notes.push(told::note(2, k));
            } else if k == 0 && continues && !held {
                notes.push(told::note(3, 0));
            }
        }
    }
    assert!(kinds.psd == psd, "PSD; {}", told());
    assert!(kinds.notes == notes, "notes; {}", told());
}

impl Drive<'_> {
    /// Whether PDUs come with marks.
    fn marked(&self) -> bool {
        self.along.is_none()
    }

    /// What can be corrected: up to four bytes altered; with marks, what their
    /// bound allows.
    fn noise(&mut self) -> Noise {
        let marked = self.marked();
        let rng = &mut self.class.rng;
        if marked {
            return Noise::within_bound(rng);
        }
        Noise::unmarked([0, 0, 4, rng.within(1, 4)][rng.below(4)])
    }

    /// Receives the PDU, with its header altered.
    fn receive(&mut self, pdu: &[u8]) {
        let noise = self.noise();
        let loan = self.loan(pdu, &noise);
        if let Some(along) = &mut self.along {
            along.receive(loan.pdu.clone());
        }
        let tried = self.class.receive(self.receiver, loan, &Known::Accepted);
        assert_eq!(tried.loan.pdu.bytes(), pdu);
        self.receiver = tried.answer.receiver;
        self.carry = tried.loan.carry;
        self.log = tried.loan.log;
        self.joined.extend(&self.log.words()[..tried.answer.words]);
        *self.seen.altered.entry(noise.in_all()).or_default() += 1;
        if nop(pdu) >= 42 {
            let altered = self.seen.altered_many.entry(noise.in_all());
            *altered.or_default() += 1;
        }
        if noise.marks.is_some() {
            let counts = (noise.list().len(), noise.altered);
            *self.seen.marked.entry(counts).or_default() += 1;
        }
    }

    /// Marks a PDU lost.
    fn lose(&mut self) {
        let log = self.log.clone();
        let known = &Known::Accepted;
        if let Some(along) = &mut self.along {
            along.lose();
        }
        let (answer, log) = self.class.mark_lost(self.receiver, log, known);
        self.receiver = answer.receiver;
        self.joined.extend(&log.words()[..answer.words]);
        self.log = log;
    }

    /// The receiver that was stepped in place all the way logged the same and
    /// is left the same, with its carry and its log.
    fn check_along(&mut self) {
        let Some(along) = &self.along else {
            return;
        };
        assert!(along.joined == self.joined, "logs in place");
        let right = Place::of(against_product::receiver_for(&self.receiver));
        assert_eq!(along.place, right, "receiver in place");
        assert!(along.carry == self.carry, "carry in place");
        assert!(along.log == self.log, "log in place");
        self.seen.stepped += along.calls;
    }

    /// The PDU, its header altered, with marks, carry and log.
    fn loan(&mut self, pdu: &[u8], noise: &Noise) -> Loan {
        let mut pdu = Lent::of(&mut self.class.rng, pdu);
        if pdu.bytes().len() >= PLACES {
            noise.alter(&mut self.class.rng, pdu.bytes_mut());
        }
        let marks = noise.marks.as_ref();
        Loan {
            carry: self.carry.clone(),
            pdu,
            marks: marks.map(|marks| Lent::of(&mut self.class.rng, marks)),
            log: self.log.clone(),
        }
    }

    /// The PDU as it was sent; with marks, its header altered within their
    /// bound.
    fn correctable(&mut self, pdu: &[u8]) -> Loan {
        let noise = match self.marked() {
            true => self.noise(),
            false => Noise::default(),
        };
        self.loan(pdu, &noise)
    }

    /// The number of a refusal for the next call.
    fn some_number(&mut self) -> u32 {
        let numbers: &[u32] = match self.marked() {
            true => &NUMBERS_MARKED,
            false => &NUMBERS,
        };
        match numbers[self.class.rng.below(numbers.len())] {
            // All sequences that three bits can say are in a range of eight.
            refusal::SEQUENCE if self.line().sequences == 8 => refusal::PIECES,
            number => number,
        }
    }

    /// A call that is refused, with any other arguments than the receiver and
    /// the carry, or with those wrong. The PDU is the next of the run.
    fn refused_call(&mut self, next: &[u8]) {
        let number = self.some_number();
        if matches!(number, refusal::STATE | refusal::LOG) && self.class.rng.below(2) == 0 {
            self.refused_marking(number);
            return;
        }
        let mut receiver = self.receiver;
        if number == refusal::STATE {
            spoil_state(&mut self.class.rng, &mut receiver);
        }
        let Some(loan) = self.refused_loan(number, next) else {
            return;
        };
        match &mut self.along {
            Some(along) if receiver == self.receiver => along.refused(loan.clone(), number),
            _ => {}
        }
        let tried = self.class.receive(receiver, loan, &Known::Number(number));
        assert_eq!(tried.answer.receiver, receiver);
        *self.seen.refused.entry(number).or_default() += 1;
    }

    /// What is lent to a call that is refused with this number, if the next PDU
    /// of the run can be.
    fn refused_loan(&mut self, number: u32, next: &[u8]) -> Option<Loan> {
        match number {
            refusal::STATE => Some(self.correctable(next)),
            refusal::CARRY => {
                let mut loan = self.correctable(next);
                let short = [0, 1, 4_095][self.class.rng.below(3)];
                let carry = &self.carry.bytes()[..short];
                loan.carry = Lent::of(&mut self.class.rng, carry);
                Some(loan)
            }
            refusal::LENGTH => {
                let mut pdu = next.to_vec();
                pdu.resize([0, 95, LONGEST + 1][self.class.rng.below(3)], 0);
                Some(self.correctable(&pdu))
            }
            refusal::MARKS => {
                let mut noise = self.noise();
                let cause = noise::some_cause(&mut self.class.rng);
                noise.spoil(&mut self.class.rng, cause);
                Some(self.loan(next, &noise))
            }
            refusal::BEYOND_MENDING if self.marked() => {
                let noise = Noise::beyond(&mut self.class.rng);
                Some(self.loan(next, &noise))
            }
            refusal::BEYOND_MENDING => {
                let noise = Noise::unmarked(self.class.rng.within(5, 60));
                let loan = self.loan(next, &noise);
                let beyond = header::correct(&header::header_of(loan.pdu.bytes())).is_none();
                beyond.then_some(loan)
            }
            refusal::LOG => self.too_short_a_log(next),
            _ => {
                let line = self.line();
                let pdu = receptions::spoiled_pdu(&mut self.class.rng, line, number);
                Some(self.correctable(&pdu))
            }
        }
    }

    /// Marking lost with a wrong state, or with no log.
    fn refused_marking(&mut self, number: u32) {
        let mut receiver = self.receiver;
        let mut log = self.log.clone();
        if number == refusal::STATE {
            spoil_state(&mut self.class.rng, &mut receiver);
        } else {
            log = LentLog::random(&mut self.class.rng, 0);
            if let Some(along) = &mut self.along {
                along.refused_marking(log.clone(), number);
            }
        }
        let known = &Known::Number(number);
        self.class.mark_lost(receiver, log, known);
        *self.seen.refused.entry(number).or_default() += 1;
    }

    /// The next PDU with a log of fewer words than it writes, if it writes
    /// any.
    fn too_short_a_log(&mut self, next: &[u8]) -> Option<Loan> {
        let mut loan = self.correctable(next);
        let mut tried = loan.clone();
        let answer = receiver::receive_marked(
            self.receiver,
            tried.carry.bytes_mut(),
            tried.pdu.bytes_mut(),
            loan.marks(),
            tried.log.words_mut(),
        );
        let short = answer.words.checked_sub(1)?;
        let count = [short, self.class.rng.within(0, short)][self.class.rng.below(2)];
        loan.log = LentLog::random(&mut self.class.rng, count);
        Some(loan)
    }

    /// What the receiver was opened for.
    fn line(&self) -> Line {
        modes::line_for(self.receiver.mode, self.receiver.stream).expect("a line of the table")
    }
}

/// Counts what a drive had.
pub fn count(seen: &mut Seen, list: &List, run: &Range<usize>, lost: &[bool], equal: bool) {
    seen.drives += 1;
    *seen.registers.entry(list.register()).or_default() += 1;
    seen.empty_runs += u64::from(run.is_empty());
    let first = list.pdus.get(run.start).map(|sent| sent.first);
    let begun_inside = !run.is_empty() && first.is_some_and(|first| list.inside(first));
    seen.begun_inside += u64::from(begun_inside);
    let gone = lost.iter().filter(|&&lost| lost).count();
    seen.lost += gone as u64;
    seen.received += (lost.len() - gone) as u64;
    seen.packets += list.packets.len() as u64;
    for (sent, &lost) in list.pdus[run.clone()].iter().zip(lost) {
        let pieces = match lost {
            true => &mut seen.lost_pieces,
            false => &mut seen.pieces,
        };
        *pieces.entry(sent.pieces()).or_default() += 1;
    }
    if equal {
        seen.logged += list.wanted(run, &list.came(run, lost)).0 as u64;
    }
    let line = (list.line.mode, list.line.stream);
    *seen.lines.entry(line).or_default() += 1;
    for (from, to) in lost_runs(lost) {
        count_lost(seen, list, run.start, (from, to), lost.len());
    }
}

/// Where lost PDUs in a row begin, and where they end.
fn lost_runs(lost: &[bool]) -> Vec<(usize, usize)> {
    let is_lost = |place: usize| lost.get(place) == Some(&true);
    let begins = |&place: &usize| is_lost(place) && (place == 0 || !is_lost(place - 1));
    (0..lost.len())
        .filter(begins)
        .map(|from| {
            let length = lost[from..].iter().take_while(|&&lost| lost).count();
            (from, from + length)
        })
        .collect()
}

/// Counts lost PDUs in a row, and whether what stands before and behind them
/// looks as if it belonged together.
fn count_lost(seen: &mut Seen, list: &List, start: usize, lost: (usize, usize), all: usize) {
    let (from, to) = lost;
    let in_a_row = to - from;
    *seen.in_a_row.entry(in_a_row.min(13)).or_default() += 1;
    let range = usize::from(list.line.sequences);
    seen.two_of_one_bit += u64::from(in_a_row == 2 && range == 2);
    if from == 0 || to == all {
        return;
    }
    let before = list.pdus[start + from - 1].end;
    let behind = list.pdus[start + to].first;
    // The next sequence comes again after a whole range.
    if !list.inside(before) || !list.inside(behind) || in_a_row % range != 0 {
        return;
    }
    seen.sequence_fits += 1;
    let packet = |place: usize| {
        let mut end = 0;
        let ends = |packet: &Vec<u8>| {
            end += packet.len();
            end
        };
        let ends: Vec<usize> = list.packets.iter().map(ends).collect();
        ends.iter().filter(|&&end| end <= place).count()
    };
    let (one, other) = (packet(before), packet(behind));
    seen.number_fits += u64::from(one % 64 == other % 64);
    seen.another_packet += u64::from(one % 64 == other % 64 && one != other);
}

/// Which PDUs of a run are lost.
pub fn some_lost(rng: &mut Rng, count: usize, range: usize) -> Vec<bool> {
    let mut lost = vec![false; count];
    match rng.below(10) {
        0 => {}
        1 => lost.fill(true),
        2..=4 => {
            let of = [2, 3, 6][rng.below(3)];
            lost.fill_with(|| rng.below(of) == 0);
        }
        5 | 6 => {
            // Received and lost ones in turn, some in a row.
            let mut place = rng.below(5);
            while place < count {
                let end = (place + rng.within(1, 6)).min(count);
                lost[place..end].fill(true);
                place = end + rng.within(1, 4);
            }
        }
        7 if count > 0 => {
            let from = rng.below(count);
            let to = rng.within(from + 1, count);
            lost[from..to].fill(true);
        }
        _ => {
            // Two, or as many as there are sequences.
            let in_a_row = [2, range][rng.below(2)];
            if count > in_a_row {
                let from = rng.below(count - in_a_row);
                lost[from..from + in_a_row].fill(true);
            }
        }
    }
    lost
}

/// Any run of the PDUs.
pub fn some_run(rng: &mut Rng, count: usize) -> Range<usize> {
    let from = match rng.below(4) {
        0 | 1 => 0,
        2 => rng.below(count.min(6) + 1),
        _ => rng.below(count + 1),
    };
    let to = match rng.below(4) {
        0 => rng.within(from, count),
        _ => count,
    };
    from..to
}

/// A list for a trap: its first PDU ends inside packet 0, and so many PDUs
/// later, a multiple of the sequences, one begins inside packet 64 or inside
/// packet 0 still.
pub fn trap(rng: &mut Rng, line: Line, another: bool, register: u8) -> (List, usize) {
    let range = usize::from(line.sequences);
    let in_a_row = range * rng.within(1, if range == 2 { 4 } else { 2 });
    let mut lengths = vec![rng.within(2_500, 4_096)];
    if another {
        lengths.extend((0..63).map(|_| rng.within(1, 3)));
        lengths.push(rng.within(2_500, 4_096));
    }
    lengths.extend((0..6).map(|_| rng.within(1, 300)));
    let packets = lengths
        .into_iter()
        .map(|length| some_bytes(rng, length))
        .collect();
    let mut list = List::new(line, packets, register);
    let mut send = |list: &mut List, offered: usize, length: usize| {
        let call = list.call(rng, offered, length);
        list.send(&call);
    };
    if another {
        send(&mut list, 1, 1_200);
        // What is left of packet 0, and 39 others; then the rest of them, and
        // the beginning of packet 64.
        send(&mut list, 40, 4_096);
        send(&mut list, 25, 700);
    } else {
        send(&mut list, 1, 120);
        send(&mut list, 1, 120);
        send(&mut list, 1, 120);
    }
    for _ in 2..in_a_row {
        send(&mut list, 1, 120);
    }
    while list.unfinished().0 < list.packets.len() {
        let left = list.packets.len() - list.unfinished().0;
        send(&mut list, left, 1_500);
    }
    (list, in_a_row)
}
