//! Bursts in the audio (document 02, Ask 12): bits flipped inside eight consecutive
//! bits of a piece with its CRC byte, top bit of each byte first. Every burst at
//! every place of short pieces, by the CRC call and by receiving; what more bits, or
//! another order of them, would pass; and whole drives with bursts in the pieces,
//! altered header bytes, marks, lost and withheld PDUs, batches and pairs: the log
//! holds exactly the packets begun in a PDU not withheld, none of whose pieces was
//! hit.

#[allow(dead_code)]
mod attempt;
#[allow(dead_code)]
mod calls;
#[allow(dead_code)]
mod drives;
mod lent;
mod noise;
mod product;
#[allow(dead_code)]
mod receptions;
#[allow(dead_code)]
mod samples;
#[allow(dead_code)]
mod spoiling;
#[allow(dead_code)]
mod told;

use drives::{Came, Counts, List, Sums, MANY, STYLES};
use lent::{Lent, LentLog, LentSizes};
use noise::Noise;
use product::receiver::Receiver;
use referee::header::PLACES;
use referee::modes::{Line, TABLE};
use referee::reading;
use referee::receiver::LOG_WORDS;
use referee::rng::Rng;
use referee::settings::Settings;
use referee::writer::{self, Offer};
use std::collections::BTreeMap;
use std::ops::Range;

/// A window of bits.
const WINDOW: usize = 8;

/// Flips the bits of a window that begins at a bit of these bytes, counted from the
/// top bit of the first; `bits` has those that are flipped, the window's first as
/// its top bit.
fn flip(bytes: &mut [u8], first: usize, bits: u8) {
    for k in 0..WINDOW {
        if bits << k & 0x80 != 0 {
            let bit = first + k;
            bytes[bit / 8] ^= 0x80 >> (bit % 8);
        }
    }
}

/// How many windows so many bytes have.
fn windows(bytes: usize) -> usize {
    bytes * 8 - WINDOW + 1
}

/// Calls on these bytes after each burst that there is; how many there are.
fn each_burst(bytes: &mut [u8], mut call: impl FnMut(&[u8])) -> u64 {
    let mut cases = 0;
    for first in 0..windows(bytes.len()) {
        for bits in 1..=255 {
            flip(bytes, first, bits);
            call(bytes);
            flip(bytes, first, bits);
            cases += 1;
        }
    }
    cases
}

/// Whether the last byte is the CRC of those before it.
fn is_right(register: u8, piece: &[u8]) -> bool {
    let (crc, bytes) = piece.split_last().expect("a piece with its CRC");
    product::crc8_from(register, bytes) == *crc
}

/// A random piece of this length with its CRC.
fn some_piece(rng: &mut Rng, register: u8, length: usize) -> Vec<u8> {
    let mut piece = vec![0; length];
    rng.fill(&mut piece);
    piece.push(product::crc8_from(register, &piece));
    piece
}

/// Every burst changes the CRC or the CRC byte, and not both to fit: pieces up to
/// twelve bytes with some registers, and with all of them those up to three.
#[test]
fn found() {
    let mut rng = Rng::new(0x12_0001);
    let mut cases = 0;
    for length in 1..=12 {
        let registers: Vec<u8> = match length {
            1..=3 => (0..=255).collect(),
            _ => vec![0, 255, rng.byte(), rng.byte()],
        };
        for register in registers {
            let mut piece = some_piece(&mut rng, register, length);
            assert!(is_right(register, &piece));
            cases += each_burst(&mut piece, |piece| assert!(!is_right(register, piece)));
        }
    }
    println!("bursts found by the CRC: {cases} bursts");
    assert!(cases >= 3_000_000);
}

/// What the law does not hold for: low bit first, and nine bits.
#[test]
fn passed() {
    // Bits 2 to 8 from the low bit of each byte: seven in a row.
    assert!(is_right(0, &[0x00, 0x00]) && is_right(0, &[0x34, 0x01]));
    // Bits 7 to 15 from the top bit of each byte: nine in a row.
    assert!(is_right(0, &[0x01, 0x31]));
    println!("bursts: 34 01 and 01 31 for 00 00 have right CRCs");
}

/// A PDU with one packet in one piece, which starts at byte 96 or later.
fn behind_the_header(rng: &mut Rng, line: Line, register: u8, packet: &[u8]) -> Vec<u8> {
    let offer = Offer {
        settings: Settings::default(),
        psd: &vec![rng.byte(); PLACES],
        lengths: &[packet.len() as u16],
        bytes: packet,
    };
    let opened = writer::open_with(line.mode, line.stream, register).expect("a line of the table");
    let mut pdu = vec![0; 130 + packet.len()];
    let answer = writer::write(opened, &offer, &mut pdu);
    assert_eq!((answer.refusal, answer.ended), (0, 1));
    pdu
}

/// Every burst in a piece that is received: note 2, and no packet.
#[test]
fn received() {
    let mut rng = Rng::new(0x12_0002);
    let mut cases = 0;
    let with_psd: Vec<Line> = TABLE
        .into_iter()
        .filter(|line| line.psd && line.psd_and_expansion >= PLACES)
        .collect();
    for length in 1..=12 {
        let line = with_psd[length % with_psd.len()];
        let register = [0, 255, rng.byte()][length % 3];
        let mut packet = vec![0; length];
        rng.fill(&mut packet);
        let sent = behind_the_header(&mut rng, line, register, &packet);
        let reading = reading::read(&mut sent.clone()).expect("a PDU of a writer");
        let piece = reading.pieces[0].start..reading.pieces[0].start + length + 1;
        assert!(piece.start >= PLACES);
        let opened = product::receiver::open_with(line.mode, line.stream, register);
        let mut carry = Lent::of(&mut rng, &[0; 4_096]);
        let mut pdu = Lent::of(&mut rng, &sent);
        let mut log = LentLog::of(&mut rng, &[0; 64]);
        cases += each_burst(&mut sent[piece.clone()].to_vec(), |hit| {
            pdu.bytes_mut()[piece.clone()].copy_from_slice(hit);
            let answer =
                product::receiver::receive(opened.receiver, &mut carry, &mut pdu, &mut log);
            assert_eq!(answer.refusal, 0);
            let words = &log.words()[..answer.words as usize];
            assert_eq!(words.last(), Some(&told::note(2, 0)));
            assert!(words.iter().all(|word| word >> 30 != 0), "no packet");
        });
    }
    println!("bursts received: {cases} PDUs with a burst in a piece, each with note 2");
    assert!(cases >= 150_000);
}

/// What drives had.
#[derive(Default)]
struct Roads {
    drives: u64,
    sums: Sums,
    single: u64,
    marked: u64,
    batches: u64,
    in_batches: u64,
    pairs: u64,
    lost: u64,
    /// Received PDUs that are withheld.
    withheld: u64,
    /// Pieces that came as sent, and that were hit; of pairs, that were hit in one
    /// copy and in both.
    as_sent: u64,
    hit: u64,
    hit_once: u64,
    hit_twice: u64,
    /// Hits on the CRC byte alone, and next to byte 96 of a piece begun before it.
    crc_alone: u64,
    at_96: u64,
    /// Received PDUs by how many bytes of the header were altered, without marks.
    altered: BTreeMap<usize, u64>,
    /// The most pieces of a received PDU.
    most_pieces: usize,
    packets: u64,
    /// Packets none of whose pieces was hit or lost, and those of them that are
    /// logged.
    whole: u64,
    logged: u64,
    lines: BTreeMap<(u8, u8), u64>,
}

/// A drive: the receiver on it, and the logs joined.
struct Road<'a> {
    rng: &'a mut Rng,
    roads: &'a mut Roads,
    receiver: product::receiver::Receiver,
    carry: Lent,
    joined: Vec<u32>,
}

impl Road<'_> {
    /// Hits a piece with its CRC byte, which has bytes from 96 on.
    fn hit(&mut self, pdu: &mut [u8], piece: Range<usize>) {
        let first = piece.start.max(PLACES);
        let before = pdu.to_vec();
        let count = windows(piece.end - first);
        let window = [0, count - 1, self.rng.below(count)][self.rng.below(3)];
        let bits = [0x80, 0x01, 0xFF, self.rng.nonzero_byte()][self.rng.below(4)];
        flip(&mut pdu[first..piece.end], window, bits);
        let crc = piece.end - 1;
        self.roads.crc_alone += u64::from(pdu[..crc] == before[..crc]);
        self.roads.at_96 += u64::from(piece.start < PLACES && pdu[PLACES] != before[PLACES]);
    }

    /// Some pieces of a PDU hit; of each piece whether it is as sent.
    fn bursts(&mut self, sent: &[u8]) -> (Vec<u8>, Vec<bool>) {
        let reading = reading::read(&mut sent.to_vec()).expect("a PDU of a writer");
        let mut pdu = sent.to_vec();
        let one_of = [1, 2, 6, 40][self.rng.below(4)];
        let mut as_sent = Vec::new();
        for piece in &reading.pieces {
            let end = piece.start + piece.length + 1;
            let hit = end > PLACES && self.rng.below(one_of) == 0;
            if hit {
                self.hit(&mut pdu, piece.start..end);
            }
            as_sent.push(!hit);
        }
        self.roads.most_pieces = self.roads.most_pieces.max(as_sent.len());
        (pdu, as_sent)
    }

    /// The same with up to four bytes of the header altered.
    fn noisy(&mut self, sent: &[u8]) -> (Vec<u8>, Vec<bool>) {
        let (mut pdu, as_sent) = self.bursts(sent);
        let altered = [0, 4, self.rng.below(5)][self.rng.below(3)];
        Noise::unmarked(altered).alter(self.rng, &mut pdu);
        *self.roads.altered.entry(altered).or_default() += 1;
        (pdu, as_sent)
    }

    fn count(&mut self, as_sent: &[bool]) {
        let right = as_sent.iter().filter(|&&as_sent| as_sent).count();
        self.roads.as_sent += right as u64;
        self.roads.hit += (as_sent.len() - right) as u64;
    }

    /// Takes over what an accepted call answered.
    fn go_on(&mut self, answer: product::receiver::Received, log: &LentLog) {
        assert_eq!(answer.refusal, 0);
        self.receiver = answer.receiver;
        self.joined.extend(&log.words()[..answer.words as usize]);
    }

    fn log(&mut self) -> LentLog {
        LentLog::of(self.rng, &[0; LOG_WORDS])
    }

    fn single(&mut self, sent: &[u8]) -> Came {
        let (pdu, as_sent) = self.noisy(sent);
        let mut pdu = Lent::of(self.rng, &pdu);
        let mut log = self.log();
        let answer = product::receiver::receive(self.receiver, &mut self.carry, &mut pdu, &mut log);
        self.go_on(answer, &log);
        self.roads.single += 1;
        self.count(&as_sent);
        Some(as_sent)
    }

    fn marked(&mut self, sent: &[u8]) -> Came {
        let (mut pdu, as_sent) = self.bursts(sent);
        let noise = Noise::within_bound(self.rng);
        noise.alter(self.rng, &mut pdu);
        let mut pdu = Lent::of(self.rng, &pdu);
        let marks = Lent::of(self.rng, noise.list());
        let mut log = self.log();
        let answer = product::receiver::receive_marked(
            self.receiver,
            &mut self.carry,
            &mut pdu,
            &marks,
            &mut log,
        );
        self.go_on(answer, &log);
        self.roads.marked += 1;
        self.count(&as_sent);
        Some(as_sent)
    }

    fn pair(&mut self, sent: &[u8]) -> Came {
        let (first, in_first) = self.noisy(sent);
        let (second, in_second) = self.noisy(sent);
        let mut first = Lent::of(self.rng, &first);
        let mut second = Lent::of(self.rng, &second);
        let mut log = self.log();
        let answer = product::pairs::receive(
            self.receiver,
            &mut self.carry,
            &mut first,
            &mut second,
            &mut log,
        );
        self.go_on(answer, &log);
        self.roads.pairs += 1;
        let mut came = Vec::new();
        for (&one, &other) in in_first.iter().zip(&in_second) {
            self.roads.hit_once += u64::from(one != other);
            self.roads.hit_twice += u64::from(!one && !other);
            came.push(one || other);
        }
        self.count(&came);
        Some(came)
    }

    fn batch(&mut self, list: &List, run: Range<usize>) -> Vec<Came> {
        let mut pdus = Vec::new();
        let mut lengths = Vec::new();
        let mut came = Vec::new();
        for sent in &list.pdus[run] {
            let (pdu, as_sent) = self.noisy(&sent.pdu);
            lengths.push(pdu.len());
            pdus.extend(pdu);
            self.count(&as_sent);
            came.push(Some(as_sent));
        }
        let mut pdus = Lent::of(self.rng, &pdus);
        let sizes = LentSizes::of(self.rng, &lengths);
        let mut log = LentLog::of(self.rng, &vec![0; LOG_WORDS * lengths.len()]);
        let answer =
            product::batches::receive(self.receiver, &mut self.carry, &mut pdus, &sizes, &mut log);
        assert_eq!((answer.refusal, answer.taken), (0, lengths.len()));
        self.receiver = answer.receiver;
        self.joined.extend(&log.words()[..answer.words]);
        self.roads.batches += 1;
        self.roads.in_batches += lengths.len() as u64;
        came
    }

    fn lose(&mut self) {
        let mut log = self.log();
        let answer = product::receiver::mark_lost(self.receiver, &mut log);
        self.go_on(answer, &log);
        self.roads.lost += 1;
    }
}

/// Goes through a run of a list's PDUs with a receiver that is entitled to these
/// programs: what came of each, the joined log, and the counts at its end.
fn drive(
    rng: &mut Rng,
    roads: &mut Roads,
    list: &List,
    run: &Range<usize>,
    lost: &[bool],
    programs: &[u8],
) -> (Vec<Came>, Vec<u32>, Counts) {
    let (mode, stream) = (list.line.mode, list.line.stream);
    let programs = Lent::of(rng, programs);
    let opened = product::receiver::open_entitled(mode, stream, list.register(), &programs);
    assert_eq!(opened.refusal, 0);
    let carry = Lent::random(rng, 4_096);
    let mut road = Road {
        rng,
        roads,
        receiver: opened.receiver,
        carry,
        joined: Vec::new(),
    };
    let mut came = Vec::new();
    while came.len() < run.len() {
        let index = run.start + came.len();
        let sent = &list.pdus[index].pdu;
        let in_a_row = lost[came.len()..].iter().take_while(|&&lost| !lost).count();
        if in_a_row == 0 {
            road.lose();
            came.push(None);
            continue;
        }
        match road.rng.below(6) {
            0 => came.push(road.marked(sent)),
            1 => came.push(road.pair(sent)),
            2 => {
                let count = road.rng.within(1, in_a_row.min(5));
                came.extend(road.batch(list, index..index + count));
            }
            _ => came.push(road.single(sent)),
        }
    }
    let Receiver {
        delivered,
        missing,
        last,
        ..
    } = road.receiver;
    (came, road.joined, (delivered, missing, last))
}

/// Whole drives over all modes and streams, with any register and any entitled
/// programs.
#[test]
fn driving() {
    println!("drives with bursts: seed {:#x}", 0x12_0003);
    let mut rng = Rng::new(0x12_0003);
    let mut roads = Roads::default();
    let styles: Vec<_> = STYLES.into_iter().chain(MANY).collect();
    for case in 0..10_000 {
        let line = TABLE[case % TABLE.len()];
        let style = styles[case / TABLE.len() % styles.len()];
        let register = [0, 255, rng.byte()][rng.below(3)];
        let settings = [calls::some_settings, calls::paid_settings][rng.below(2)];
        let list = List::random_with(&mut rng, line, style, register, settings);
        let run = drives::some_run(&mut rng, list.pdus.len());
        let lost = drives::some_lost(&mut rng, run.len(), usize::from(line.sequences));
        let kept = [0, 255, rng.below(256)][rng.below(3)];
        let programs: Vec<u8> = (0..8).filter(|program| kept >> program & 1 != 0).collect();
        let (came, joined, left) = drive(&mut rng, &mut roads, &list, &run, &lost, &programs);
        let withheld = list.withheld(&run, &lost, &programs);
        let (drives, sums) = (roads.drives, &mut roads.sums);
        drives::check_served(drives, sums, &list, &run, &came, &withheld, &joined, left);
        roads.drives += 1;
        roads.packets += list.count() as u64;
        roads.whole += list.wanted(&run, &came).0 as u64;
        roads.logged += list.wanted_of(&run, &came, &withheld).0 as u64;
        let received = withheld.iter().zip(&lost).filter(|&(_, &lost)| !lost);
        roads.withheld += received.filter(|&(&withheld, _)| withheld).count() as u64;
        *roads.lines.entry((line.mode, line.stream)).or_default() += 1;
    }
    println!(
        "drives with bursts: {} drives, {} single calls, {} with marks, {} pairs, {} batches of {} \
         PDUs, {} lost, {} withheld; of {} packets {} have no piece hit or lost, of which {} are logged",
        roads.drives,
        roads.single,
        roads.marked,
        roads.pairs,
        roads.batches,
        roads.in_batches,
        roads.lost,
        roads.withheld,
        roads.packets,
        roads.whole,
        roads.logged
    );
    println!(
        "drives with bursts: pieces as sent {}, hit {}, of pairs in one copy {}, in both {}; CRC byte \
         alone {}, at byte 96 of a piece begun before {}; up to {} pieces; header bytes altered {:?}",
        roads.as_sent,
        roads.hit,
        roads.hit_once,
        roads.hit_twice,
        roads.crc_alone,
        roads.at_96,
        roads.most_pieces,
        roads.altered
    );
    roads.sums.report("drives with bursts");
    assert!(roads.sums.with_missing >= 2_000);
    assert_eq!(roads.lines.len(), TABLE.len());
    assert_eq!(roads.most_pieces, 63);
    assert!((0..=4).all(|altered| roads.altered[&altered] >= 1_000));
    for count in [
        roads.single,
        roads.marked,
        roads.pairs,
        roads.batches,
        roads.lost,
        roads.withheld,
        roads.whole - roads.logged,
        roads.as_sent,
        roads.hit,
        roads.hit_once,
        roads.hit_twice,
        roads.crc_alone,
        roads.at_96,
        roads.logged,
    ] {
        assert!(count >= 1_000);
    }
}
