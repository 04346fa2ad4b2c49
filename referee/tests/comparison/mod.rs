//! Compares the product's answer to reading a PDU with the reference's: every
//! field, the refusal and its k, each byte of the lent PDU after the call, and
//! the guards around it. The same for listing its pieces, with every entry of
//! the lent list.

use crate::lent::Lent;
use crate::lists::{self, Counts, LentList};
use crate::product;
use crate::samples::{Sample, Wish};
use referee::control::ControlWord;
use referee::expansion::Fields;
use referee::header::{self, PLACES};
use referee::reading::{self, Reading, Refusal};
use referee::refusal::Cause;
use referee::rng::Rng;
use std::collections::BTreeMap;

/// What is known about a case from how it was made, besides what the
/// reference answers.
pub enum Known {
    Nothing,
    /// Is accepted with this answer.
    Taken(Reading),
    /// Is refused for this cause alone.
    Only(Cause),
    /// Is refused with this number.
    Number(u32),
}

/// How often each outcome came.
#[derive(Default)]
pub struct Outcomes {
    pub cases: u64,
    pub taken: u64,
    /// By number.
    refused: BTreeMap<u32, u64>,
    /// Refused for one cause alone, by cause; k is left out.
    pub alone: BTreeMap<Cause, u64>,
    /// What came of listing the pieces.
    pub lists: Counts,
}

impl Outcomes {
    fn count(&mut self, outcome: &Result<Reading, Refusal>) {
        self.cases += 1;
        match outcome {
            Ok(_) => self.taken += 1,
            Err(refusal) => {
                *self.refused.entry(refusal.number).or_default() += 1;
                if let [cause] = refusal.causes[..] {
                    *self.alone.entry(without_k(cause)).or_default() += 1;
                }
            }
        }
    }

    fn add(&mut self, other: &Outcomes) {
        self.cases += other.cases;
        self.taken += other.taken;
        for (&number, &cases) in &other.refused {
            *self.refused.entry(number).or_default() += cases;
        }
        for (&cause, &cases) in &other.alone {
            *self.alone.entry(cause).or_default() += cases;
        }
        self.lists.add(&other.lists);
    }

    pub fn refused_with(&self, number: u32) -> u64 {
        self.refused.get(&number).copied().unwrap_or(0)
    }
}

/// The cause with the k of the first locator, if it has one.
fn without_k(cause: Cause) -> Cause {
    match cause {
        Cause::LocatorUnderStart(_) => Cause::LocatorUnderStart(0),
        Cause::LocatorNotBelowLength(_) => Cause::LocatorNotBelowLength(0),
        other => other,
    }
}

/// A class of cases with its seed, and what came out so far.
pub struct Class {
    name: &'static str,
    seed: u64,
    pub rng: Rng,
    /// For the lent lists, so that the PDUs don't depend on them.
    list_rng: Rng,
    /// What lists are told that the register of the CRCs starts at.
    pub register: u8,
    pub outcomes: Outcomes,
}

impl Class {
    pub fn new(name: &'static str, seed: u64) -> Class {
        Class {
            name,
            seed,
            rng: Rng::new(seed),
            list_rng: Rng::new(!seed),
            register: 0,
            outcomes: Outcomes::default(),
        }
    }

    pub fn sample(&mut self, wish: &Wish) -> Sample {
        Sample::new(&mut self.rng, wish)
    }

    /// Compares on this sample, at times with up to four bytes of the header
    /// altered.
    pub fn check(&mut self, sample: &Sample, known: Known) {
        let altered = match self.rng.below(3) {
            0 => self.rng.within(1, 4),
            _ => 0,
        };
        self.check_altered(sample, altered, known);
    }

    /// Compares on this sample, accepted with the answer it has.
    pub fn check_taken(&mut self, sample: &Sample) {
        let known = Known::Taken(sample.reading());
        self.check(sample, known);
    }

    /// Compares on this sample with so many bytes of the header altered.
    pub fn check_altered(&mut self, sample: &Sample, altered: usize, known: Known) {
        let mut lent = Lent::random(&mut self.rng, sample.length);
        if self.rng.below(4) == 0 {
            lent.bytes_mut().fill(0);
        }
        let pdu = sample.encode(lent.bytes());
        lent.bytes_mut().copy_from_slice(&pdu);
        self.alter(&mut lent, altered);
        self.compare(&lent, known);
    }

    /// Alters so many bytes of the header.
    pub fn alter(&mut self, lent: &mut Lent, altered: usize) {
        for place in self.rng.places(altered, 0, PLACES - 1) {
            lent.bytes_mut()[place] ^= self.rng.nonzero_byte();
        }
    }

    /// Compares on this PDU, with a list of any of the lengths, and hands the
    /// product's answer to reading back.
    pub fn compare(&mut self, before: &Lent, known: Known) -> product::Reading {
        let mut wanted = before.clone();
        let outcome = reading::read(wanted.bytes_mut());
        self.check_reference(&outcome, before, &wanted, known);
        let mut lent = before.clone();
        let answer = product::read(lent.bytes_mut());
        let number = lists::number(&outcome, usize::MAX);
        self.check_answer(&answer, number, &outcome, before);
        self.check_pdu(&lent, &wanted, number, before);
        self.outcomes.count(&outcome);
        let count = lists::lengths(&outcome, before)[self.list_rng.below(5)];
        self.compare_list(before, &wanted, &outcome, count);
        answer
    }

    /// Lists the pieces of this PDU in lists of all the lengths and compares;
    /// whether each CRC is right, as a list that is filled says it.
    #[allow(dead_code)]
    pub fn compare_lists(&mut self, before: &Lent) -> Vec<bool> {
        let mut wanted = before.clone();
        let outcome = reading::read(wanted.bytes_mut());
        let mut verdicts = Vec::new();
        for count in lists::lengths(&outcome, before) {
            let list = self.compare_list(before, &wanted, &outcome, count);
            if lists::number(&outcome, count) == 0 {
                let nop = outcome.as_ref().map_or(0, |reading| reading.pieces.len());
                let filled = &list.entries()[..nop];
                verdicts = filled.iter().map(|entry| entry.right == 1).collect();
            }
        }
        self.outcomes.count(&outcome);
        verdicts
    }

    /// Lists the pieces of this PDU in a list of so many entries, compares, and
    /// hands the list back. The reference read the PDU with this outcome, and
    /// left it as wanted.
    fn compare_list(
        &mut self,
        before: &Lent,
        wanted: &Lent,
        outcome: &Result<Reading, Refusal>,
        count: usize,
    ) -> LentList {
        let number = lists::number(outcome, count);
        let list_before = LentList::random(&mut self.list_rng, count);
        let (right, pieces) = match (number, outcome) {
            (0, Ok(reading)) => {
                let pieces = lists::pieces(wanted.bytes(), self.register, reading);
                (wanted, pieces)
            }
            _ => (before, Vec::new()),
        };
        let mut lent = before.clone();
        let mut list = list_before.clone();
        let answer = product::list_pieces(lent.bytes_mut(), self.register, list.entries_mut());
        self.check_answer(&answer, number, outcome, before);
        self.check_pdu(&lent, right, number, before);
        let filled = list_before.filled(&pieces);
        assert!(
            list == filled,
            "list of {count}, answer {number}: {}; {}",
            list.differences(&filled),
            self.case(before)
        );
        self.outcomes.lists.count(number, &pieces, count);
        list
    }

    /// The product's answer, refused with this number or accepted.
    fn check_answer(
        &self,
        answer: &product::Reading,
        number: u32,
        outcome: &Result<Reading, Refusal>,
        before: &Lent,
    ) {
        assert_eq!(
            answer.refusal,
            number,
            "refusal, the reference has {outcome:?}; {}",
            self.case(before)
        );
        let right = match (number, outcome) {
            (0, Ok(reading)) => answer_for(reading),
            _ => product::Reading {
                refusal: number,
                wrong_locator: outcome.as_ref().err().map_or(0, Refusal::k) as u32,
                ..product::Reading::zero()
            },
        };
        assert_eq!(*answer, right, "answer; {}", self.case(before));
    }

    /// The PDU after a call that was answered with this number.
    fn check_pdu(&self, lent: &Lent, right: &Lent, number: u32, before: &Lent) {
        assert!(
            lent == right,
            "PDU after the call, answer {number}: {}; {}",
            lent.differences(right),
            self.case(before)
        );
    }

    /// Compares the reference's outcome with what is known about the case.
    fn check_reference(
        &self,
        outcome: &Result<Reading, Refusal>,
        before: &Lent,
        after: &Lent,
        known: Known,
    ) {
        let told = || format!("the reference; {}", self.case(before));
        match outcome {
            Ok(_) => {
                assert!(header::is_code_word(&header::header_of(after.bytes())));
                assert_eq!(after.bytes()[PLACES..], before.bytes()[PLACES..]);
            }
            Err(_) => assert!(after == before, "{}", told()),
        }
        match known {
            Known::Nothing => {}
            Known::Taken(reading) => assert_eq!(*outcome, Ok(reading), "{}", told()),
            Known::Only(cause) => {
                let number = cause.number();
                let causes = vec![cause];
                let wanted = Err(Refusal { number, causes });
                assert_eq!(*outcome, wanted, "{}", told());
            }
            Known::Number(number) => {
                let answered = outcome.as_ref().map_err(|refusal| refusal.number);
                assert_eq!(answered.err(), Some(number), "{outcome:?}; {}", told());
            }
        }
    }

    /// Which case this is, for messages, with the PDU's first bytes.
    fn case(&self, before: &Lent) -> String {
        let shown = &before.bytes()[..before.bytes().len().min(128)];
        let hex: String = shown.iter().map(|byte| format!("{byte:02x}")).collect();
        format!(
            "{}: seed {:#x}, case {}, register {}, length {}, PDU {hex}",
            self.name,
            self.seed,
            self.outcomes.cases,
            self.register,
            before.bytes().len()
        )
    }

    /// Prints what came out and adds it to the total.
    pub fn report(&self, total: &mut Outcomes) {
        println!(
            "{}: seed {:#x}, {} cases: {} accepted, refused by number {:?}",
            self.name, self.seed, self.outcomes.cases, self.outcomes.taken, self.outcomes.refused
        );
        total.add(&self.outcomes);
    }
}

/// The product's answer that says what the reference's says.
fn answer_for(reading: &Reading) -> product::Reading {
    let mut answer = product::Reading {
        control: control_for(&reading.control),
        expansion: expansion_for(&reading.expansion),
        psd_start: reading.psd_start as u32,
        psd_length: reading.psd_length as u32,
        ..product::Reading::zero()
    };
    for (k, piece) in reading.pieces.iter().enumerate() {
        answer.starts[k] = piece.start as u16;
        answer.lengths[k] = piece.length as u16;
    }
    answer
}

fn control_for(word: &ControlWord) -> product::ControlWord {
    product::ControlWord {
        mode: word.mode,
        stream: word.stream,
        sequence: word.sequence,
        blend: word.blend,
        gain: word.gain,
        common_delay: word.common_delay,
        latency: word.latency,
        pfirst: u8::from(word.pfirst),
        plast: u8::from(word.plast),
        start: word.start,
        nop: word.nop,
        expansion: u8::from(word.expansion),
        la: word.la,
    }
}

fn expansion_for(fields: &Fields) -> product::Expansion {
    product::Expansion {
        class_code: fields.class_code,
        program: fields.program,
        displacement: fields.displacement.unwrap_or(0),
        access: fields.access,
        type_code: fields.type_code,
        services: fields.services,
        marker: fields.marker,
    }
}
