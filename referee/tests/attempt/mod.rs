//! Tries receiving calls and marking lost: the reference's answer and lent
//! buffers against what is known about the call, and the product's against the
//! reference's, with every lent byte and word after the call and the guards.
//! The product's calls are made twice, by value and in place; those with a list
//! of marked places by value, and with an empty list as those without one too.

use crate::lent::{Lent, LentLog};
use referee::erasures;
use referee::header::{self, PLACES};
use referee::log::{self, Entry, Note};
use referee::receiver::{self, Answer, Receiver};
use referee::refusal::{self, Cause, ReceiverCause};
use referee::rng::Rng;
use std::collections::BTreeMap;
use std::panic::{catch_unwind, resume_unwind, AssertUnwindSafe};

/// What is lent to a receiving call.
#[derive(Clone, PartialEq, Eq)]
pub struct Loan {
    pub carry: Lent,
    pub pdu: Lent,
    /// The list of marked places; none for a call that takes no list.
    pub marks: Option<Lent>,
    pub log: LentLog,
}

impl Loan {
    /// The places that are marked.
    pub fn marks(&self) -> &[u8] {
        self.marks.as_ref().map_or(&[], |marks| marks.bytes())
    }
}

/// What an accepted call has to answer and to leave.
#[derive(Clone, Debug)]
pub struct Wanted {
    pub words: Vec<u32>,
    pub receiver: Receiver,
    pub carry: Vec<u8>,
    pub pdu: Vec<u8>,
}

/// What is known about a call from how it was made, besides what the
/// reference answers.
#[derive(Clone, Debug)]
pub enum Known {
    Nothing,
    /// Is accepted.
    Accepted,
    /// Is accepted with this answer.
    Taken(Wanted),
    /// Is refused for this cause alone.
    Only(ReceiverCause),
    /// Is refused with this number.
    Number(u32),
}

/// How often each outcome came.
#[derive(Default)]
pub struct Outcomes {
    pub calls: u64,
    pub taken: u64,
    /// By number.
    refused: BTreeMap<u32, u64>,
    /// Refused for one cause alone, by cause; k is left out.
    pub alone: BTreeMap<ReceiverCause, u64>,
    /// Notes, by cause.
    pub notes: BTreeMap<u32, u64>,
    /// Notes that follow each other in one log, by their causes; none before
    /// the first is 0.
    pub orders: BTreeMap<(u32, u32), u64>,
    /// Accepted, by mode and stream.
    pub lines: BTreeMap<(u8, u8), u64>,
    /// Accepted, by what came of it.
    pub looks: BTreeMap<&'static str, u64>,
}

impl Outcomes {
    fn count(&mut self, answer: &Answer) {
        self.calls += 1;
        if answer.refusal == 0 {
            self.taken += 1;
            let line = (answer.receiver.mode, answer.receiver.stream);
            *self.lines.entry(line).or_default() += 1;
        } else {
            *self.refused.entry(answer.refusal).or_default() += 1;
            if let [cause] = answer.causes[..] {
                *self.alone.entry(without_k(cause)).or_default() += 1;
            }
        }
    }

    /// Counts the notes of an accepted call.
    fn count_notes(&mut self, entries: &[Entry]) {
        let mut before = 0;
        for entry in entries {
            if let Entry::Note(note) = entry {
                *self.notes.entry(note.cause()).or_default() += 1;
                *self.orders.entry((before, note.cause())).or_default() += 1;
                before = note.cause();
            }
        }
    }

    /// Counts what came of an accepted PDU.
    fn look(&mut self, receiver: &Receiver, loan: &Loan, tried: &Tried, entries: &[Entry]) {
        let next = &tried.answer.receiver;
        let noted = |wanted: fn(&Note) -> bool| {
            let is_so = |entry: &Entry| matches!(entry, Entry::Note(note) if wanted(note));
            entries.iter().any(is_so)
        };
        let whole =
            |entry: &Entry| matches!(entry, Entry::Packet(_, bytes) if bytes.len() == 4_096);
        let altered = altered(loan, tried);
        let joined_on = next.held > receiver.held && receiver.held > 0 && entries.is_empty();
        let words = tried.answer.words;
        for (look, is_so) in [
            ("header unaltered", altered == 0),
            ("header altered in one", altered == 1),
            ("header altered in two", altered == 2),
            ("header altered in three", altered == 3),
            ("header altered in four", altered == 4),
            ("sequence not known", !receiver.known),
            ("sequence back to 0", {
                let next = next.sequence == 0 && receiver.sequence > 0;
                next && !noted(|note| *note == Note::NotTheNext)
            }),
            ("nothing held before", receiver.held == 0),
            ("held 1 before", receiver.held == 1),
            ("held 4,095 before", receiver.held == 4_095),
            ("held 4,096 before", receiver.held == 4_096),
            (
                "held under 63 before",
                receiver.held > 0 && receiver.number == 63,
            ),
            ("nothing held after", next.held == 0),
            ("held 4,096 after", next.held == 4_096),
            ("held under 63 after", next.held > 0 && next.number == 63),
            ("held under 0 after", next.held > 0 && next.number == 0),
            ("held, continued, held on", joined_on),
            ("4,096 bytes delivered", entries.iter().any(whole)),
            ("wrong CRC behind the first", {
                noted(|note| matches!(note, Note::WrongCrc(k) if *k > 0))
            }),
            ("too long behind the first", {
                noted(|note| matches!(note, Note::TooLong(k) if *k > 0))
            }),
            ("log just long enough", words == loan.log.words().len()),
            ("no words", words == 0),
            ("carry of 4,096", loan.carry.bytes().len() == 4_096),
        ] {
            *self.looks.entry(look).or_default() += u64::from(is_so);
        }
    }

    fn add(&mut self, other: &Outcomes) {
        self.calls += other.calls;
        self.taken += other.taken;
        add(&mut self.refused, &other.refused);
        add(&mut self.alone, &other.alone);
        add(&mut self.notes, &other.notes);
        add(&mut self.orders, &other.orders);
        add(&mut self.lines, &other.lines);
        add(&mut self.looks, &other.looks);
    }

    pub fn refused_with(&self, number: u32) -> u64 {
        self.refused.get(&number).copied().unwrap_or(0)
    }
}

/// Adds counts.
fn add<K: Copy + Ord>(to: &mut BTreeMap<K, u64>, other: &BTreeMap<K, u64>) {
    for (&key, &count) in other {
        *to.entry(key).or_default() += count;
    }
}

/// The cause with the k of the first locator, if it has one.
fn without_k(cause: ReceiverCause) -> ReceiverCause {
    match cause {
        ReceiverCause::Pdu(Cause::LocatorUnderStart(_)) => {
            ReceiverCause::Pdu(Cause::LocatorUnderStart(0))
        }
        ReceiverCause::Pdu(Cause::LocatorNotBelowLength(_)) => {
            ReceiverCause::Pdu(Cause::LocatorNotBelowLength(0))
        }
        other => other,
    }
}

/// In how many bytes the header of an accepted PDU was altered.
fn altered(loan: &Loan, tried: &Tried) -> usize {
    let before = header::header_of(loan.pdu.bytes());
    let after = header::header_of(tried.loan.pdu.bytes());
    header::differing(&before, &after)
}

/// A class of calls with its seed, and what came out so far.
pub struct Class {
    name: &'static str,
    seed: u64,
    pub rng: Rng,
    pub outcomes: Outcomes,
}

/// What came of a receiving call.
pub struct Tried {
    pub answer: Answer,
    /// What was lent, after the call.
    pub loan: Loan,
}

impl Class {
    pub fn new(name: &'static str, seed: u64) -> Class {
        Class {
            name,
            seed,
            rng: Rng::new(seed),
            outcomes: Outcomes::default(),
        }
    }

    /// Makes the receiving call and compares.
    pub fn receive(&mut self, receiver: Receiver, loan: Loan, known: &Known) -> Tried {
        let tried = catch_unwind(AssertUnwindSafe(|| received(receiver, &loan, known)));
        let tried = tried.unwrap_or_else(|cause| {
            println!("{}", self.case(&receiver, Some(&loan), known));
            resume_unwind(cause)
        });
        self.outcomes.count(&tried.answer);
        if tried.answer.refusal == 0 {
            let words = &tried.loan.log.words()[..tried.answer.words];
            let entries = log::entries(words).expect("entries");
            self.outcomes.count_notes(&entries);
            self.outcomes.look(&receiver, &loan, &tried, &entries);
        }
        tried
    }

    /// Marks a PDU lost and compares; the log afterwards.
    pub fn mark_lost(
        &mut self,
        receiver: Receiver,
        log: LentLog,
        known: &Known,
    ) -> (Answer, LentLog) {
        let tried = catch_unwind(AssertUnwindSafe(|| marked(receiver, &log, known)));
        let (answer, after) = tried.unwrap_or_else(|cause| {
            println!("marking lost: {}", self.case(&receiver, None, known));
            resume_unwind(cause)
        });
        self.outcomes.count(&answer);
        if answer.refusal == 0 {
            self.outcomes.count_notes(&[Entry::Note(Note::Lost)]);
        }
        (answer, after)
    }

    /// Which call this is, for messages, with the PDU's first bytes.
    fn case(&self, receiver: &Receiver, loan: Option<&Loan>, known: &Known) -> String {
        let known = format!("{known:?}");
        let known: String = known.chars().take(300).collect();
        let lent = loan.map_or_else(String::new, |loan| {
            let pdu = loan.pdu.bytes();
            let shown = &pdu[..pdu.len().min(128)];
            let hex: String = shown.iter().map(|byte| format!("{byte:02x}")).collect();
            let marks = loan.marks.as_ref().map(|marks| marks.bytes());
            format!(
                ", carry of {}, log of {}, marks {marks:?}, PDU of {}: {hex}",
                loan.carry.bytes().len(),
                loan.log.words().len(),
                pdu.len()
            )
        });
        format!(
            "{}: seed {:#x}, call {}, known {known}: {receiver:?}{lent}",
            self.name, self.seed, self.outcomes.calls
        )
    }

    /// Prints what came out and adds it to the total.
    pub fn report(&self, total: &mut Outcomes) {
        println!(
            "{}: seed {:#x}, {} calls: {} accepted, refused by number {:?}, notes {:?}",
            self.name,
            self.seed,
            self.outcomes.calls,
            self.outcomes.taken,
            self.outcomes.refused,
            self.outcomes.notes
        );
        total.add(&self.outcomes);
    }
}

/// Makes the receiving call and compares.
fn received(receiver: Receiver, before: &Loan, known: &Known) -> Tried {
    let mut loan = before.clone();
    let answer = receiver::receive_marked(
        receiver,
        loan.carry.bytes_mut(),
        loan.pdu.bytes_mut(),
        before.marks(),
        loan.log.words_mut(),
    );
    let tried = Tried { answer, loan };
    check_answer(&receiver, &tried.answer, known);
    if tried.answer.refusal == 0 {
        check_accepted(before, &tried);
    } else {
        assert!(tried.loan == *before, "the reference changed a buffer");
    }
    if let Known::Taken(wanted) = known {
        check_wanted(wanted, &tried);
    }
    match &before.marks {
        None => against_product::receive(receiver, before, &tried),
        Some(marks) => against_product::receive_marked(receiver, before, marks, &tried),
    }
    tried
}

/// Marks a PDU lost and compares.
fn marked(receiver: Receiver, before: &LentLog, known: &Known) -> (Answer, LentLog) {
    let mut log = before.clone();
    let answer = receiver::mark_lost(receiver, log.words_mut());
    check_answer(&receiver, &answer, known);
    if answer.refusal == 0 {
        let fresh = receiver::open_with(receiver.mode, receiver.stream, receiver.register);
        let fresh = fresh.map(|fresh| Receiver {
            entitled: receiver.entitled,
            delivered: receiver.delivered,
            missing: receiver.missing,
            last: receiver.last,
            ..fresh
        });
        assert_eq!(Ok(answer.receiver), fresh);
        assert_eq!(answer.words, 1);
        assert_eq!(log.words()[0], 0xC006_0000);
        assert_eq!(log.words()[1..], before.words()[1..]);
    } else {
        assert!(log == *before, "the reference changed the log");
    }
    against_product::mark_lost(receiver, before, &answer, &log);
    (answer, log)
}

/// Compares the reference's answer with what is known about the call.
fn check_answer(receiver: &Receiver, answer: &Answer, known: &Known) {
    let first = refusal::first(answer.causes.iter().map(|cause| cause.number()));
    assert_eq!(answer.refusal, first.unwrap_or(0));
    if answer.refusal != 0 {
        assert_eq!((answer.words, answer.receiver), (0, *receiver));
    }
    match known {
        Known::Nothing => {}
        Known::Accepted | Known::Taken(_) => assert_eq!(answer.causes, []),
        Known::Only(cause) => assert_eq!(answer.causes, [*cause]),
        Known::Number(number) => assert_eq!(answer.refusal, *number, "{:?}", answer.causes),
    }
}

/// What holds for every accepted PDU: what may change, and how the log looks.
fn check_accepted(before: &Loan, tried: &Tried) {
    let Tried { answer, loan } = tried;
    let pdu = loan.pdu.bytes();
    assert!(header::is_code_word(&header::header_of(pdu)));
    assert!(erasures::within_bound(
        &header::header_of(before.pdu.bytes()),
        &header::header_of(pdu),
        before.marks()
    ));
    assert_eq!(pdu[PLACES..], before.pdu.bytes()[PLACES..]);
    assert!(answer.words <= 8_230, "more than the worst case");
    let words = loan.log.words();
    assert_eq!(words[answer.words..], before.log.words()[answer.words..]);
    let entries = log::entries(&words[..answer.words]).expect("entries");
    assert_eq!(log::words(&entries), words[..answer.words]);
    let next = answer.receiver;
    assert!(next.known);
    assert_eq!(receiver::mark_lost(next, &mut [0]).causes, []);
    let held = usize::from(next.held);
    let carry = loan.carry.bytes();
    assert_eq!(carry[held..], before.carry.bytes()[held..]);
}

/// Compares an accepted call with what it has to answer and to leave.
fn check_wanted(wanted: &Wanted, tried: &Tried) {
    let Tried { answer, loan } = tried;
    assert_eq!(loan.log.words()[..answer.words], wanted.words);
    assert_eq!(answer.receiver, wanted.receiver);
    assert!(loan.carry.bytes() == wanted.carry, "carry");
    assert!(loan.pdu.bytes() == wanted.pdu, "PDU");
}

/// Compares the product's calls with the reference's.
pub mod against_product {
    use super::{Answer, Lent, LentLog, Loan, Receiver, Tried};
    use crate::product::receiver::{self as product, Place};

    /// Opens a receiver.
    pub fn open(mode: u8, stream: u8, wanted: Result<Receiver, u32>) {
        let right = product::Opened {
            refusal: wanted.err().unwrap_or(0),
            receiver: receiver_for(&wanted.unwrap_or(Receiver {
                mode: 255,
                ..Receiver::default()
            })),
        };
        let answer = product::open(mode, stream);
        assert_eq!(answer, right, "mode {mode}, stream {stream}");
    }

    /// Makes the receiving call, by value and in place, and compares answer,
    /// carry, PDU and log, with all guards.
    pub fn receive(receiver: Receiver, before: &Loan, wanted: &Tried) {
        let mut loan = before.clone();
        let answer = product::receive(
            receiver_for(&receiver),
            &mut loan.carry,
            &mut loan.pdu,
            &mut loan.log,
        );
        compare_answers("by value", answer, &wanted.answer);
        compare_loans("by value", &loan, &wanted.loan, answer);
        let mut loan = before.clone();
        let mut place = Place::of(receiver_for(&receiver));
        let stepped =
            product::receive_in_place(&mut place, &mut loan.carry, &mut loan.pdu, &mut loan.log);
        let answer = answer_in_place(stepped, &place);
        compare_answers("in place", answer, &wanted.answer);
        compare_loans("in place", &loan, &wanted.loan, answer);
    }

    /// Makes the receiving call with marks, by value, and compares as above; an
    /// empty list is compared with the call that takes none as well.
    pub fn receive_marked(receiver: Receiver, before: &Loan, marks: &Lent, wanted: &Tried) {
        let receiver = receiver_for(&receiver);
        let mut loan = before.clone();
        let Loan {
            carry, pdu, log, ..
        } = &mut loan;
        let answer = product::receive_marked(receiver, carry, pdu, marks, log);
        compare_answers("with marks", answer, &wanted.answer);
        compare_loans("with marks", &loan, &wanted.loan, answer);
        if marks.bytes().is_empty() {
            let mut loan = before.clone();
            let Loan {
                carry, pdu, log, ..
            } = &mut loan;
            let answer = product::receive(receiver, carry, pdu, log);
            compare_answers("without a list", answer, &wanted.answer);
            compare_loans("without a list", &loan, &wanted.loan, answer);
        }
    }

    /// Marks a PDU lost, by value and in place, and compares answer and log.
    pub fn mark_lost(receiver: Receiver, before: &LentLog, wanted: &Answer, right: &LentLog) {
        let mut log = before.clone();
        let answer = product::mark_lost(receiver_for(&receiver), &mut log);
        compare_answers("by value", answer, wanted);
        compare_logs("by value", &log, right, answer);
        let mut log = before.clone();
        let mut place = Place::of(receiver_for(&receiver));
        let stepped = product::mark_lost_in_place(&mut place, &mut log);
        let answer = answer_in_place(stepped, &place);
        compare_answers("in place", answer, wanted);
        compare_logs("in place", &log, right, answer);
    }

    /// The answer to a call in place as a call by value gives it, with the
    /// receiver taken from its place. What stands around it is as it was.
    fn answer_in_place(stepped: product::Stepped, place: &Place) -> product::Received {
        let receiver = place.receiver;
        assert_eq!(*place, Place::of(receiver), "around the receiver");
        product::Received {
            refusal: stepped.refusal,
            wrong_locator: stepped.wrong_locator,
            words: stepped.words,
            receiver,
        }
    }

    fn compare_answers(how: &str, answer: product::Received, wanted: &Answer) {
        let right = product::Received {
            refusal: wanted.refusal,
            wrong_locator: wanted.k() as u32,
            words: wanted.words as u32,
            receiver: receiver_for(&wanted.receiver),
        };
        assert_eq!(answer, right, "answer {how}; the reference has {wanted:?}");
    }

    fn compare_loans(how: &str, loan: &Loan, right: &Loan, answer: product::Received) {
        assert!(
            loan.carry == right.carry,
            "carry {how}, answer {answer:?}: {}",
            loan.carry.differences(&right.carry)
        );
        assert!(
            loan.pdu == right.pdu,
            "PDU {how}, answer {answer:?}: {}",
            loan.pdu.differences(&right.pdu)
        );
        assert!(loan.marks == right.marks, "marks {how}, answer {answer:?}");
        compare_logs(how, &loan.log, &right.log, answer);
    }

    fn compare_logs(how: &str, log: &LentLog, right: &LentLog, answer: product::Received) {
        assert!(
            log == right,
            "log {how}, answer {answer:?}: {}",
            log.differences(right)
        );
    }

    /// The product's receiver that says what the reference's says.
    pub fn receiver_for(receiver: &Receiver) -> product::Receiver {
        let bits = receiver.entitled.iter().enumerate();
        product::Receiver {
            mode: receiver.mode,
            stream: receiver.stream,
            register: receiver.register,
            entitled: bits
                .map(|(program, &listed)| u8::from(listed) << program)
                .sum(),
            known: u8::from(receiver.known),
            sequence: receiver.sequence,
            held: receiver.held,
            number: receiver.number,
            serviced: u8::from(receiver.serviced),
            services: receiver.services,
            delivered: receiver.delivered,
            missing: receiver.missing,
            last: receiver.last,
        }
    }
}
