//! Tries writing calls: the reference's answer and PDU against what is known
//! about the call and what reading the PDU says, and the product's against
//! the reference's, with every lent byte after the call and the guards.

use crate::calls::{self, Call, Wish};
use crate::lent::{Lent, LentLengths};
use crate::readback;
use referee::modes;
use referee::reading::Reading;
use referee::refusal::WriterCause;
use referee::rng::Rng;
use referee::writer::{self, Answer, Offer};
use std::collections::BTreeMap;
use std::panic::{catch_unwind, resume_unwind, AssertUnwindSafe};

use crate::product::writer as product;

/// What is known about a call from how it was made, besides what the
/// reference answers.
#[derive(Clone, Copy, Debug)]
pub enum Known {
    Nothing,
    Taken,
    /// Is refused for this cause alone.
    Only(WriterCause),
    /// Is refused with this number.
    Number(u32),
}

/// How often each outcome came.
#[derive(Default)]
pub struct Outcomes {
    pub calls: u64,
    pub taken: u64,
    /// By number.
    refused: BTreeMap<u32, u64>,
    /// Refused for one cause alone, by cause.
    pub alone: BTreeMap<WriterCause, u64>,
    /// Accepted, by mode and stream.
    pub lines: BTreeMap<(u8, u8), u64>,
    /// Accepted, by what the PDU looks like.
    pub looks: BTreeMap<&'static str, u64>,
}

impl Outcomes {
    fn count(&mut self, call: &Call, answer: &Answer) {
        self.calls += 1;
        if answer.refusal == 0 {
            self.taken += 1;
            let line = (call.writer.mode, call.writer.stream);
            *self.lines.entry(line).or_default() += 1;
        } else {
            *self.refused.entry(answer.refusal).or_default() += 1;
            if let [cause] = answer.causes[..] {
                *self.alone.entry(cause).or_default() += 1;
            }
        }
    }

    /// Counts what a written PDU looks like.
    fn look(&mut self, call: &Call, reading: &Reading) {
        let word = &reading.control;
        let nop = usize::from(word.nop);
        let line = modes::line_for(word.mode, word.stream).expect("a line");
        let more = nop < call.lengths.len();
        let limit = calls::count_limit(&line, call.psd_and_expansion());
        let wide = line.locator_bits == 16;
        for (look, is_so) in [
            ("no piece", nop == 0),
            ("one piece", nop == 1),
            (
                "both flags on one piece",
                nop == 1 && word.pfirst && word.plast,
            ),
            ("Pfirst", word.pfirst),
            ("Plast", word.plast),
            ("Plast with more offered", word.plast && more),
            ("no Plast with more offered", !word.plast && more),
            ("42 pieces of 16 bits or more", wide && nop > 41),
            ("55 pieces of 12 bits or more", !wide && nop > 54),
            ("63 pieces of 16 bits", wide && nop == 63),
            ("63 pieces of 12 bits", !wide && nop == 63),
            ("limit under 63", nop == limit && limit < 63),
            ("limit, more offered", nop == limit && more),
            ("limit, Plast", nop == limit && word.plast),
            ("odd locators of 12 bits", !wide && nop % 2 == 1),
            ("expansion", word.expansion),
            ("displacement", call.settings.displaced),
            ("class", call.settings.class_code.is_some()),
            ("PSD", !call.psd.is_empty()),
            (
                "numbers back to 0",
                usize::from(call.writer.number) + nop > 64,
            ),
            ("96 bytes", call.length == 96),
            ("over 16,384 bytes", call.length > 16_384),
        ] {
            *self.looks.entry(look).or_default() += u64::from(is_so);
        }
    }

    fn add(&mut self, other: &Outcomes) {
        self.calls += other.calls;
        self.taken += other.taken;
        add(&mut self.refused, &other.refused);
        add(&mut self.alone, &other.alone);
        add(&mut self.lines, &other.lines);
        add(&mut self.looks, &other.looks);
    }

    pub fn refused_with(&self, number: u32) -> u64 {
        self.refused.get(&number).copied().unwrap_or(0)
    }
}

/// Adds counts.
fn add<K: Copy + Ord>(to: &mut BTreeMap<K, u64>, other: &BTreeMap<K, u64>) {
    for (&key, &count) in other {
        *to.entry(key).or_default() += count;
    }
}

/// A class of calls with its seed, and what came out so far.
pub struct Class {
    name: &'static str,
    seed: u64,
    pub rng: Rng,
    pub outcomes: Outcomes,
}

/// What came of a call.
pub struct Tried {
    pub answer: Answer,
    /// The lent PDU after the call.
    pub pdu: Vec<u8>,
    /// What it says, if the call was accepted.
    pub reading: Option<Reading>,
}

impl Class {
    pub fn new(name: &'static str, seed: u64) -> Class {
        Class {
            name,
            seed,
            rng: Rng::new(seed),
            outcomes: Outcomes::default(),
        }
    }

    /// A right call that has what is wished for.
    pub fn call(&mut self, wish: &Wish) -> Call {
        Call::new(&mut self.rng, wish)
    }

    /// Makes the call and compares.
    pub fn check(&mut self, call: &Call, known: Known) -> Tried {
        let before = Lent::random(&mut self.rng, call.length);
        let psd = Lent::of(&mut self.rng, &call.psd);
        let bytes = Lent::of(&mut self.rng, &call.bytes);
        let lengths = LentLengths::of(&mut self.rng, &call.lengths);
        let unasked = self.rng.bits();
        let loan = (psd, lengths, bytes, before);
        let tried = catch_unwind(AssertUnwindSafe(|| tried(call, known, unasked, &loan)));
        let tried = tried.unwrap_or_else(|cause| {
            println!("{}", self.case(call, known));
            resume_unwind(cause)
        });
        self.outcomes.count(call, &tried.answer);
        if let Some(reading) = &tried.reading {
            self.outcomes.look(call, reading);
        }
        tried
    }

    /// Which call this is, for messages.
    fn case(&self, call: &Call, known: Known) -> String {
        let shown = &call.lengths[..call.lengths.len().min(80)];
        format!(
            "{}: seed {:#x}, call {}, known {known:?}: {:?}, {:?}, PSD of {}, {} packets with \
             lengths {shown:?}, {} bytes, PDU of {}",
            self.name,
            self.seed,
            self.outcomes.calls,
            call.writer,
            call.settings,
            call.psd.len(),
            call.lengths.len(),
            call.bytes.len(),
            call.length
        )
    }

    /// Prints what came out and adds it to the total.
    pub fn report(&self, total: &mut Outcomes) {
        println!(
            "{}: seed {:#x}, {} calls: {} accepted, refused by number {:?}",
            self.name, self.seed, self.outcomes.calls, self.outcomes.taken, self.outcomes.refused
        );
        total.add(&self.outcomes);
    }
}

/// What is lent to a call: PSD, lengths, bytes and the PDU.
type Loan = (Lent, LentLengths, Lent, Lent);

/// Makes the call with these buffers and compares.
fn tried(call: &Call, known: Known, unasked: u64, loan: &Loan) -> Tried {
    let (psd, lengths, bytes, before) = loan;
    let offer = Offer {
        settings: call.settings,
        psd: psd.bytes(),
        lengths: lengths.words(),
        bytes: bytes.bytes(),
    };
    let mut wanted = before.clone();
    let answer = writer::write(call.writer, &offer, wanted.bytes_mut());
    let reading = check_reference(call, &answer, before, &wanted, known);
    compare(call, unasked, loan, &answer, &wanted);
    Tried {
        answer,
        pdu: wanted.bytes().to_vec(),
        reading,
    }
}

/// Compares the reference's answer with what is known about the call, and an
/// accepted PDU with what it has to say.
fn check_reference(
    call: &Call,
    answer: &Answer,
    before: &Lent,
    after: &Lent,
    known: Known,
) -> Option<Reading> {
    match known {
        Known::Nothing => {}
        Known::Taken => assert_eq!((answer.refusal, &answer.causes[..]), (0, &[][..])),
        Known::Only(cause) => {
            assert_eq!(
                (answer.refusal, &answer.causes[..]),
                (cause.number(), &[cause][..])
            );
        }
        Known::Number(number) => assert_eq!(answer.refusal, number, "{:?}", answer.causes),
    }
    if answer.refusal == 0 {
        return Some(readback::check(call, answer, after.bytes()));
    }
    assert!(after == before);
    assert_eq!((answer.ended, answer.writer), (0, call.writer));
    None
}

/// Makes the call of the product and compares its answer, the PDU byte by
/// byte, the other lent buffers, which it only reads, and all guards.
fn compare(call: &Call, unasked: u64, loan: &Loan, wanted: &Answer, wanted_pdu: &Lent) {
    let (psd, lengths, bytes, before) = loan.clone();
    let mut lent = product::Loan {
        psd,
        lengths,
        bytes,
        pdu: before,
    };
    let settings = settings_for(call, unasked);
    let answer = product::write(writer_for(&call.writer), settings, &mut lent);
    let right = product::Written {
        refusal: wanted.refusal,
        ended: wanted.ended as u32,
        writer: writer_for(&wanted.writer),
    };
    assert_eq!(answer, right, "answer; the reference has {wanted:?}");
    assert!(
        lent.pdu == *wanted_pdu,
        "PDU after writing, answer {}: {}",
        answer.refusal,
        lent.pdu.differences(wanted_pdu)
    );
    assert!(lent.psd == loan.0, "PSD: {}", lent.psd.differences(&loan.0));
    assert!(lent.lengths == loan.1, "lengths changed");
    assert!(
        lent.bytes == loan.2,
        "bytes: {}",
        lent.bytes.differences(&loan.2)
    );
}

/// The product's writer that says what the reference's says.
pub fn writer_for(writer: &writer::Writer) -> product::Writer {
    product::Writer {
        mode: writer.mode,
        stream: writer.stream,
        register: writer.register,
        sequence: writer.sequence,
        number: writer.number,
        sent: writer.sent,
    }
}

/// The product's settings. What isn't asked for has any value.
fn settings_for(call: &Call, unasked: u64) -> product::Settings {
    let settings = &call.settings;
    let any = unasked.to_le_bytes();
    let any_marker = (unasked >> 32) as u32;
    let program_type = settings.program_type;
    let applied = settings.applied;
    product::Settings {
        blend: settings.blend,
        gain: settings.gain,
        common_delay: settings.common_delay,
        latency: settings.latency,
        classed: settings.class_code.is_some(),
        class_code: settings.class_code.unwrap_or(any[0] & 3),
        programmed: settings.program.is_some(),
        program: settings.program.unwrap_or(any[1] & 15),
        displaced: settings.displaced,
        typed: program_type.is_some(),
        access: program_type.map_or(any[2] & 3, |field| field.access),
        type_code: program_type.map_or(any[3], |field| field.code),
        serviced: applied.is_some(),
        services: applied.map_or(any[2] >> 4, |field| field.services),
        marker: applied.map_or(any_marker, |field| field.marker),
    }
}
