//! Random receiving calls that are right in every part, which can be spoiled
//! before they are made, and what they have to answer, told from their parts.

use crate::attempt::{Loan, Wanted};
use crate::lent::{Lent, LentLog};
use crate::noise::{self, Noise};
use crate::samples::{Sample, Wish};
use crate::told;
use referee::control::MOST_PIECES;
use referee::encode::{Field, Piece};
use referee::entitlement;
use referee::header::{LONGEST, PLACES};
use referee::locators;
use referee::modes::{self, Line, TABLE};
use referee::receiver::{Receiver, LOG_WORDS};
use referee::refusal;
use referee::rng::Rng;

/// A receiving call.
#[derive(Clone)]
pub struct Reception {
    pub receiver: Receiver,
    /// The whole carry.
    pub carry: Vec<u8>,
    pub sample: Sample,
    /// Bytes of the PDU that belong to no part.
    pub background: u8,
    /// Which bytes of the header are altered, and which marked.
    pub noise: Noise,
    /// How many words the log has; as many as are needed and some where
    /// nothing is said.
    pub log: Option<usize>,
    /// Another length than the sample's: the PDU cut or made longer.
    pub cut: Option<usize>,
}

/// How the beginning that a receiver holds goes with a PDU.
#[derive(Clone, Copy, Debug, PartialEq, Eq)]
pub enum Held {
    Nothing,
    /// So many bytes under the number that the PDU's first piece has, if that
    /// continues a packet.
    Fitting(usize),
    /// So many bytes under another number.
    Other(usize),
}

impl Reception {
    /// A random one around such a PDU.
    pub fn new(rng: &mut Rng, wish: &Wish) -> Reception {
        let mut sample = Sample::new(rng, wish);
        if rng.below(2) == 0 {
            right_crcs(&mut sample);
        }
        Reception::of(rng, sample)
    }

    /// A random one around this PDU.
    pub fn of(rng: &mut Rng, sample: Sample) -> Reception {
        let line = sample.line;
        let mut reception = Reception {
            receiver: Receiver {
                mode: line.mode,
                stream: line.stream,
                register: sample.parts.register,
                entitled: entitlement::ALL,
                ..Receiver::default()
            },
            carry: some_carry(rng),
            sample,
            background: [0, 0, 0xFF, rng.byte()][rng.below(4)],
            noise: Noise::unmarked([0, 0, rng.within(1, 4)][rng.below(3)]),
            log: None,
            cut: None,
        };
        match rng.below(8) {
            0 => reception.forget(),
            1 => reception.know(rng.below(usize::from(line.sequences)) as u8),
            _ => reception.know_the_one_before(),
        }
        let held = some_held(rng, &reception.sample);
        reception.hold(rng, held);
        if rng.below(4) > 0 {
            let delivered = [1, rng.within(1, 100), rng.within(1, 4_000_000_000)][rng.below(3)];
            let missing = [0, rng.below(100), rng.below(4_000_000_000)][rng.below(3)];
            reception.counted(delivered, missing, rng.below(64));
        }
        reception
    }

    /// The receiver has counted so many packets.
    pub fn counted(&mut self, delivered: usize, missing: usize, last: usize) {
        self.receiver.delivered = u32::try_from(delivered).expect("a count");
        self.receiver.missing = u32::try_from(missing).expect("a count");
        self.receiver.last = last as u8;
    }

    /// The sequence isn't known.
    pub fn forget(&mut self) {
        self.receiver.known = false;
        self.receiver.sequence = 0;
    }

    /// This sequence is known.
    pub fn know(&mut self, sequence: u8) {
        self.receiver.known = true;
        self.receiver.sequence = sequence;
    }

    /// The sequence is known after which the PDU's is the next.
    pub fn know_the_one_before(&mut self) {
        let range = self.sample.line.sequences;
        let sent = self.sample.parts.control.sequence;
        self.know((sent + range - 1) % range);
    }

    /// The receiver holds this.
    pub fn hold(&mut self, rng: &mut Rng, held: Held) {
        let fitting = (usize::from(self.sample.parts.control.start) + 63) % 64;
        let (length, number) = match held {
            Held::Nothing => (0, 0),
            Held::Fitting(length) => (length, fitting),
            Held::Other(length) => {
                let by = [1, 2, 32, 63, rng.within(1, 63)][rng.below(5)];
                (length, (fitting + by) % 64)
            }
        };
        self.receiver.held = length as u16;
        self.receiver.number = number as u8;
    }

    /// The PDU before bytes of its header are altered.
    pub fn pdu(&self) -> Vec<u8> {
        let length = self.sample.length.max(PLACES);
        let mut pdu = self.sample.encode(&vec![self.background; length]);
        if let Some(length) = self.cut {
            pdu.resize(length, self.background);
        }
        pdu
    }

    /// Whether a piece's CRC is right for the receiver: what is added to it is
    /// just what the receiver's register adds to the sender's. Where these are
    /// equal, that is nothing.
    pub fn is_right(&self, piece: &Piece) -> bool {
        let registers = self.receiver.register ^ self.sample.parts.register;
        piece.crc_error == told::added(registers, piece.bytes.len())
    }

    /// Whether the PDU is of one of the modes and streams for which applied
    /// services are kept: 1, 2, 3 and 13, core.
    pub fn keeps(&self) -> bool {
        let Line { mode, stream, .. } = self.sample.line;
        matches!((mode, stream), (1 | 2 | 3 | 13, 0))
    }

    /// The applied services that are kept after the PDU, where it follows a gap or
    /// doesn't.
    fn kept(&self, gap: bool) -> Option<u8> {
        let Receiver {
            serviced, services, ..
        } = self.receiver;
        match self.sample.parts.control.sequence {
            _ if !self.keeps() => None,
            0 => Some(self.sample.reading().expansion.services),
            _ if gap || !serviced => None,
            _ => Some(services),
        }
    }

    /// Whether the PDU follows a gap: its sequence is not the next one.
    fn follows_gap(&self) -> bool {
        let next = (self.receiver.sequence + 1) % self.sample.line.sequences;
        self.receiver.known && self.sample.parts.control.sequence != next
    }

    /// Whether the PDU is withheld.
    pub fn is_withheld(&self) -> bool {
        let said = self.sample.reading().expansion;
        let kept = self.kept(self.follows_gap());
        let paid = match self.keeps() {
            true => kept == Some(1) || kept.is_none(),
            false => said.services == 1,
        };
        paid && !self.receiver.entitled[usize::from(said.program)]
    }

    /// What has to be answered and left, if everything is right and no count passes
    /// its limit. A piece's place makes no difference, and its CRC is right or wrong as
    /// above.
    pub fn wanted(&self) -> Wanted {
        let word = &self.sample.parts.control;
        let held = usize::from(self.receiver.held);
        let start = usize::from(word.start);
        let before_start = (start + 63) % 64;
        let gap = self.follows_gap();
        let same_number = usize::from(self.receiver.number) == before_start;
        let continued = !gap && held > 0 && word.pfirst && same_number;
        let mut words = Vec::new();
        if gap {
            words.push(told::note(1, 0));
        } else if held > 0 && !continued {
            words.push(told::note(4, 0));
        }
        let kept = self.kept(gap);
        let withheld = self.is_withheld();
        if withheld {
            words.push(told::note(8, 0));
        } else if !self.sample.parts.psd.is_empty() {
            words.extend(told::psd(&self.sample.parts.psd));
        }
        let mut receiver = Receiver {
            known: true,
            sequence: word.sequence,
            held: 0,
            number: 0,
            serviced: kept.is_some(),
            services: kept.unwrap_or(0),
            ..self.receiver
        };
        let mut carry = self.carry.clone();
        let pieces = &self.sample.parts.pieces;
        for (k, piece) in pieces.iter().enumerate() {
            let first = k == 0 && word.pfirst;
            let last = k + 1 == pieces.len() && word.plast;
            if withheld && !(first && continued) {
                break;
            }
            let kept = if first && continued { held } else { 0 };
            let total = kept + piece.bytes.len();
            let number = match (first, word.pfirst) {
                (true, _) => before_start,
                (false, true) => start + k - 1,
                (false, false) => start + k,
            } % 64;
            match (self.is_right(piece), total) {
                (false, _) => words.push(told::note(2, k)),
                _ if first && !continued => words.push(told::note(3, k)),
                (_, 4_097..) => words.push(told::note(5, k)),
                _ if last => {
                    receiver.held = total as u16;
                    receiver.number = number as u8;
                    carry[kept..total].copy_from_slice(&piece.bytes);
                }
                _ => {
                    let packet = [&self.carry[..kept], &piece.bytes].concat();
                    words.extend(told::packet(number, &packet));
                    told::deliver(&mut receiver, number);
                }
            }
        }
        Wanted {
            words,
            receiver,
            carry,
            pdu: self.pdu(),
        }
    }

    /// What is lent, with the header altered.
    pub fn loan(&self, rng: &mut Rng, needed: usize) -> Loan {
        let mut pdu = Lent::of(rng, &self.pdu());
        let reach = pdu.bytes().len().min(PLACES);
        if reach == PLACES {
            self.noise.alter(rng, pdu.bytes_mut());
        }
        let log = self.log.unwrap_or_else(|| match rng.below(16) {
            0..=7 => needed,
            8..=14 => needed + rng.below(20),
            _ => LOG_WORDS,
        });
        Loan {
            carry: Lent::of(rng, &self.carry),
            pdu,
            marks: self.noise.marks.as_ref().map(|marks| Lent::of(rng, marks)),
            log: LentLog::random(rng, log),
        }
    }
}

/// A carry of 4,096 bytes or some more.
pub fn some_carry(rng: &mut Rng) -> Vec<u8> {
    let more = [0, 0, 0, 1, rng.below(300)][rng.below(5)];
    let mut carry = vec![0; 4_096 + more];
    rng.fill(&mut carry);
    carry
}

/// What is held: often so much that the first piece makes about 4,096 of it.
pub fn some_held(rng: &mut Rng, sample: &Sample) -> Held {
    let first = sample.parts.pieces.first();
    let first = first.map_or(0, |piece| piece.bytes.len());
    let length = match rng.below(8) {
        0 => 1,
        1 => 4_095,
        2 => 4_096,
        3 | 4 => (4_095 + rng.below(4)).saturating_sub(first),
        _ => rng.within(1, 4_096),
    };
    let length = length.clamp(1, 4_096);
    match rng.below(8) {
        0 | 1 => Held::Nothing,
        2 => Held::Other(length),
        _ => Held::Fitting(length),
    }
}

/// Makes all CRCs right.
pub fn right_crcs(sample: &mut Sample) {
    for piece in &mut sample.parts.pieces {
        piece.crc_error = 0;
    }
}

/// A right PDU with pieces of these lengths, and PSD. The locators must be
/// able to say where the pieces end.
pub fn with_lengths(rng: &mut Rng, line: Line, psd: usize, lengths: &[usize]) -> Sample {
    let wish = Wish {
        line: Some(line),
        nop: Some(lengths.len()),
        fields: Some(Vec::new()),
        psd: Some(psd),
        length: Some(300),
        ..Wish::default()
    };
    let mut sample = Sample::new(rng, &wish);
    let mut end = usize::from(sample.parts.control.la);
    sample.parts.pieces.clear();
    sample.parts.locators.clear();
    for &length in lengths {
        let mut bytes = vec![0; length];
        rng.fill(&mut bytes);
        sample.parts.pieces.push(Piece {
            start: end + 1,
            bytes,
            crc_error: 0,
        });
        end += 1 + length;
        sample.parts.locators.push(end);
    }
    assert!(end < 1 << line.locator_bits);
    let reserved = [0, 0, 1, rng.below(200)][rng.below(4)];
    sample.length = (end + 1 + reserved).clamp(PLACES, LONGEST);
    assert!(end < sample.length);
    sample
}

/// The numbers that receiving can answer.
pub const NUMBERS: [u32; 13] = [1, 2, 3, 4, 5, 6, 7, 8, 9, 10, 11, 12, 13];

/// The numbers that receiving with marks can answer, in the order in which they
/// are checked.
pub const NUMBERS_MARKED: [u32; 14] = [1, 2, 3, 19, 4, 5, 6, 7, 8, 9, 10, 11, 12, 13];

/// A line that can be spoiled for each of these numbers: with a one-bit
/// sequence if 7 is among them.
pub fn some_line(rng: &mut Rng, numbers: &[u32]) -> Line {
    let lines: Vec<Line> = TABLE
        .into_iter()
        .filter(|line| line.sequences == 2 || !numbers.contains(&refusal::SEQUENCE))
        .collect();
    lines[rng.below(lines.len())]
}

/// A right call that can be spoiled for each number, with pieces, PSD and a
/// displacement.
pub fn spoilable(rng: &mut Rng, line: Line) -> Reception {
    let wish = Wish {
        line: Some(line),
        nop: Some([1, rng.within(1, 6), rng.within(1, MOST_PIECES)][rng.below(3)]),
        fields: Some(vec![Field::ProgramAndDisplacement(rng.below(8) as u8, 0)]),
        psd: Some([1, rng.within(1, 30)][rng.below(2)]),
        length: Some(rng.within(96, 700)),
        ..Wish::default()
    };
    Reception::new(rng, &wish)
}

/// Makes this refusal apply, and no lower one.
pub fn spoil(rng: &mut Rng, reception: &mut Reception, number: u32) {
    match number {
        refusal::STATE => spoil_state(rng, &mut reception.receiver),
        refusal::CARRY => {
            let length = [0, 1, 4_094, 4_095, rng.below(4_096)][rng.below(5)];
            reception.carry.truncate(length);
        }
        refusal::LENGTH => {
            let long = LONGEST + [1, 2, rng.within(1, 99)][rng.below(3)];
            let short = [0, 1, 94, 95, rng.below(96)][rng.below(5)];
            reception.cut = Some([long, short, short][rng.below(3)]);
        }
        refusal::BEYOND_MENDING if reception.noise.marks.is_some() => {
            reception.noise = Noise::beyond(rng);
        }
        refusal::BEYOND_MENDING => reception.noise.altered = rng.within(5, 60),
        refusal::MARKS => {
            let cause = noise::some_cause(rng);
            reception.noise.spoil(rng, cause);
        }
        refusal::NOT_THOSE_OPENED => open_another(rng, reception),
        refusal::LOG => {
            let short = reception.wanted().words.len() - 1;
            reception.log = Some([short, short, 0, rng.within(0, short)][rng.below(4)]);
        }
        _ => spoil_sample(rng, &mut reception.sample, number),
    }
}

/// A PDU that a receiver of this line refuses with this number, 5 to 12.
pub fn spoiled_pdu(rng: &mut Rng, opened: Line, number: u32) -> Vec<u8> {
    if number != refusal::NOT_THOSE_OPENED {
        let mut reception = spoilable(rng, opened);
        spoil(rng, &mut reception, number);
        return reception.pdu();
    }
    loop {
        let line = TABLE[rng.below(TABLE.len())];
        if line != opened {
            return spoilable(rng, line).pdu();
        }
    }
}

/// Puts a field of the state out of its range.
pub fn spoil_state(rng: &mut Rng, receiver: &mut Receiver) {
    match rng.below(10) {
        7 => {
            receiver.delivered = receiver.delivered.max(1);
            receiver.last = [64, 255, rng.within(64, 255) as u8][rng.below(3)];
        }
        8 => {
            let missing = [1, u32::MAX, rng.within(1, 1_000) as u32][rng.below(3)];
            (receiver.delivered, receiver.missing, receiver.last) = (0, missing, 0);
        }
        9 => {
            let last = [1, 63, rng.within(1, 63) as u8][rng.below(3)];
            (receiver.delivered, receiver.missing, receiver.last) = (0, 0, last);
        }
        0 => receiver.mode = rng.within(4, 9) as u8,
        1 => receiver.stream = rng.within(2, 255) as u8,
        2 => {
            receiver.known = true;
            receiver.sequence = rng.within(8, 255) as u8;
        }
        3 => {
            receiver.held = [4_097, 4_098, 8_192, 65_535][rng.below(4)];
        }
        4 => {
            receiver.held = receiver.held.max(1);
            receiver.number = rng.within(64, 255) as u8;
        }
        5 => {
            receiver.known = false;
            receiver.sequence = 1;
        }
        _ => {
            receiver.held = 0;
            receiver.number = rng.within(1, 63) as u8;
        }
    }
}

/// The receiver is one of another mode and stream than the PDU.
fn open_another(rng: &mut Rng, reception: &mut Reception) {
    let sent = reception.sample.line;
    let other = loop {
        let other = TABLE[rng.below(TABLE.len())];
        if (other.mode, other.stream) != (sent.mode, sent.stream) {
            break other;
        }
    };
    reception.receiver.mode = other.mode;
    reception.receiver.stream = other.stream;
    reception.receiver.sequence %= other.sequences;
    reception.receiver.serviced = false;
    reception.receiver.services = 0;
}

/// Spoils the PDU, with 5 or 7 to 12.
fn spoil_sample(rng: &mut Rng, sample: &mut Sample, number: u32) {
    let length = sample.length;
    let last_locator_byte = sample.last_locator_byte();
    let end = sample.end();
    let word = &mut sample.parts.control;
    match number {
        refusal::MODE_AND_STREAM => {
            while modes::line_for(word.mode, word.stream).is_some() {
                word.mode = rng.below(16) as u8;
                word.stream = rng.below(4) as u8;
            }
        }
        refusal::SEQUENCE => word.sequence = rng.within(2, 7) as u8,
        refusal::PIECES => {
            word.nop = 0;
            word.pfirst = rng.below(2) == 0;
            word.plast = !word.pfirst;
        }
        refusal::LA if length < 256 && rng.below(2) == 0 => {
            word.la = [length, rng.within(length, 255)][rng.below(2)] as u8;
        }
        refusal::LA => {
            word.la = [last_locator_byte - 1, rng.below(13)][rng.below(2)] as u8;
        }
        refusal::EXPANSION => spoil_expansion(rng, sample),
        refusal::LOCATOR => spoil_locator(rng, sample),
        refusal::DISPLACEMENT => {
            sample.set_displacement([end - 1, length, 0][rng.below(3)]);
        }
        other => panic!("{other} isn't about the PDU"),
    }
}

/// Class 0, IDs that don't rise, a field cut, or over 16 bytes.
fn spoil_expansion(rng: &mut Rng, sample: &mut Sample) {
    match rng.below(4) {
        0 => sample.fields.insert(0, Field::Class(0)),
        1 => sample.fields.push(Field::Class(1)),
        2 => sample.fields.push(Field::Other(vec![0x20])),
        _ => sample.fields.push(Field::Other(vec![0x70; 20])),
    }
    sample.write_fields();
}

/// One locator under its start plus 1, or not below the length.
fn spoil_locator(rng: &mut Rng, sample: &mut Sample) {
    let la = usize::from(sample.parts.control.la);
    let starts = locators::starts(la, &sample.parts.locators);
    let k = rng.below(starts.len());
    let most = (1 << sample.line.locator_bits) - 1;
    sample.parts.locators[k] = match rng.below(4) {
        0 => starts[k],
        1 => rng.below(starts[k] + 1),
        2 => sample.length,
        _ => rng.within(sample.length, most),
    };
}
