//! Compares the product with the reference where the register of the CRCs
//! starts at another value than 0 (document 02, Ask 2): opening with each of the
//! 256 values; writing, receiving, marking lost and listing pieces with each;
//! whole drives with equal values at both ends; and what comes of unequal ones.
//! What a call has to answer is told from how it was made, what a drive has to
//! log from the writing calls.

#[allow(dead_code)]
mod attempt;
#[allow(dead_code)]
mod calls;
mod chains;
#[allow(dead_code)]
mod comparison;
mod drives;
mod lent;
#[allow(dead_code)]
mod lists;
mod noise;
mod product;
mod readback;
#[allow(dead_code)]
mod receptions;
#[allow(dead_code)]
mod samples;
#[allow(dead_code)]
mod spoiling;
mod told;
#[allow(dead_code)]
mod trial;

use attempt::{against_product, Known};
use calls::Call;
use chains::Chain;
use drives::Seen;
use lent::{Lent, LentLog};
use noise::Noise;
use receptions::{right_crcs, some_line, spoil, spoilable, Reception, NUMBERS};
use referee::control;
use referee::header::{LONGEST, PLACES};
use referee::modes::{self, Line, TABLE};
use referee::receiver::{self, Receiver};
use referee::refusal::{self, ReceiverCause};
use referee::rng::Rng;
use referee::writer::{self, Writer};
use samples::{Sample, Wish};
use std::collections::BTreeMap;
use std::ops::Range;
use trial::Tried;

/// How often each register came.
#[derive(Default)]
struct Registers(BTreeMap<u8, u64>);

impl Registers {
    fn count(&mut self, register: u8) {
        *self.0.entry(register).or_default() += 1;
    }

    fn add(&mut self, other: &BTreeMap<u8, u64>) {
        for (&register, &count) in other {
            *self.0.entry(register).or_default() += count;
        }
    }

    /// Prints how many there were and how often the rarest came, and asks for
    /// all of them, each at least so often.
    fn all(&self, what: &str, at_least: u64) {
        let rarest = self.0.values().min().copied().unwrap_or(0);
        println!(
            "{what}: {} registers, the rarest {rarest} times",
            self.0.len()
        );
        assert_eq!(self.0.len(), 256);
        assert!(rarest >= at_least);
    }
}

/// A register other than this: a bit turned, all of them, or any.
fn another(rng: &mut Rng, register: u8) -> u8 {
    register ^ [1, 0x80, 1 << rng.below(8), 0xFF, rng.nonzero_byte()][rng.below(5)]
}

/// Every mode and stream that bytes can say with every register: refused with 5
/// by mode and stream only, and then of mode 255 with 0 everywhere else.
#[test]
fn opening() {
    let mut opened = 0;
    for mode in 0..=255 {
        for stream in 0..=255 {
            for register in 0..=255 {
                let answer = writer::open_with(mode, stream, register);
                let there = modes::line_for(mode, stream).is_some();
                assert_eq!(answer.is_ok(), there);
                opened += u32::from(there);
                check_opening(mode, stream, register, answer);
            }
        }
    }
    assert_eq!(opened, 10 * 256);
    println!(
        "opening: 16,777,216 modes, streams and registers, {opened} opened, as a writer and as a \
         receiver each"
    );
}

/// Compares the product's opening of a writer and of a receiver with the
/// reference's.
fn check_opening(mode: u8, stream: u8, register: u8, answer: Result<Writer, u32>) {
    let refused = answer.err().unwrap_or(0);
    let nobody = Writer {
        mode: 255,
        ..Writer::default()
    };
    let right = product::writer::Opened {
        refusal: refused,
        writer: trial::writer_for(&answer.unwrap_or(nobody)),
    };
    assert_eq!(product::writer::open_with(mode, stream, register), right);
    let answer = receiver::open_with(mode, stream, register);
    assert_eq!(answer.err().unwrap_or(0), refused);
    let nobody = Receiver {
        mode: 255,
        ..Receiver::default()
    };
    let right = product::receiver::Opened {
        refusal: refused,
        receiver: against_product::receiver_for(&answer.unwrap_or(nobody)),
    };
    assert_eq!(product::receiver::open_with(mode, stream, register), right);
    if register == 0 {
        assert_eq!(product::receiver::open(mode, stream), right);
    }
}

// Writing.

/// Makes a writing call, which counts for its register if it is accepted.
fn write(
    class: &mut trial::Class,
    registers: &mut Registers,
    call: &Call,
    known: trial::Known,
) -> Tried {
    let tried = class.check(call, known);
    assert_eq!(tried.answer.writer.register, call.writer.register);
    if tried.answer.refusal == 0 {
        registers.count(call.writer.register);
    }
    tried
}

/// Right writing calls with each register, half of them once more with another:
/// the PDUs differ in each CRC, and else in parity alone.
fn right_calls(total: &mut trial::Outcomes, registers: &mut Registers) {
    let mut class = trial::Class::new("right calls with each register", 0x4E61_0001);
    for case in 0..256 * 120 {
        let register = (case % 256) as u8;
        let wish = calls::Wish {
            line: Some(TABLE[case / 256 % TABLE.len()]),
            register: Some(register),
            ..calls::Wish::default()
        };
        let mut call = class.call(&wish);
        let one = write(&mut class, registers, &call, trial::Known::Taken);
        if class.rng.below(2) == 0 {
            call.writer.register = another(&mut class.rng, register);
            let other = write(&mut class, registers, &call, trial::Known::Taken);
            check_alike(&one, &other);
        }
    }
    class.report(total);
}

/// Two PDUs of one call with unequal registers.
fn check_alike(one: &Tried, other: &Tried) {
    let reading = one.reading.as_ref().expect("an accepted call");
    assert_eq!(Some(reading), other.reading.as_ref());
    let ends = reading
        .pieces
        .iter()
        .map(|piece| piece.start + piece.length);
    let differing =
        (control::FIRST..one.pdu.len()).filter(|&place| one.pdu[place] != other.pdu[place]);
    assert!(differing.eq(ends));
}

/// Chains of calls on one writer, refused ones among them: each PDU has its
/// CRCs from the register that the writer was opened with.
fn chains(total: &mut trial::Outcomes, registers: &mut Registers) {
    let mut class = trial::Class::new("chains from each register", 0x4E61_0002);
    for register in 0..=255 {
        let line = TABLE[usize::from(register) % TABLE.len()];
        // Those of few long PDUs less often.
        let style = chains::STYLES[[2, 3, 4, 5, 5, 6, 4, 0][usize::from(register) % 8]];
        let before = class.outcomes.taken;
        Chain::new(&mut class.rng, line, style, register).run(&mut class);
        let taken = class.outcomes.taken - before;
        registers.add(&BTreeMap::from([(register, taken)]));
    }
    class.report(total);
}

/// Every set of refusals at once with any register: the lowest is answered, as
/// without one.
fn refused_calls(total: &mut trial::Outcomes, registers: &mut Registers) {
    let mut class = trial::Class::new("refused calls with any register", 0x4E61_0003);
    for set in 1u32..1 << spoiling::NUMBERS.len() {
        let numbers: Vec<u32> = (0..spoiling::NUMBERS.len())
            .filter(|index| (set >> index) & 1 != 0)
            .map(|index| spoiling::NUMBERS[index])
            .collect();
        for _ in 0..100 {
            check_refused(&mut class, registers, &numbers);
        }
    }
    class.report(total);
}

/// Compares on a call with these refusals, lowest first.
fn check_refused(class: &mut trial::Class, registers: &mut Registers, numbers: &[u32]) {
    let lines: Vec<Line> = TABLE
        .into_iter()
        .filter(|line| line.psd_and_expansion == 128)
        .collect();
    let wish = calls::Wish {
        line: Some(lines[class.rng.below(lines.len())]),
        length: Some(class.rng.within(PLACES, 400)),
        register: Some(class.rng.byte()),
        ..calls::Wish::default()
    };
    let mut call = class.call(&wish);
    for &number in numbers.iter().rev() {
        spoiling::spoil(&mut class.rng, &mut call, number);
    }
    // No overhead is too much for a PDU that is too long.
    if numbers.contains(&refusal::OVERHEAD) && call.length > LONGEST {
        call.length = class.rng.below(PLACES);
    }
    write(class, registers, &call, trial::Known::Number(numbers[0]));
}

/// Calls with anything in them, the register too.
fn any_calls(total: &mut trial::Outcomes, registers: &mut Registers) {
    let mut class = trial::Class::new("any calls with any register", 0x4E61_0004);
    for _ in 0..24_000 {
        let mut call = class.call(&calls::Wish::default());
        call.writer.register = class.rng.byte();
        for _ in 0..class.rng.within(1, 3) {
            spoiling::disturb(&mut class.rng, &mut call);
        }
        write(&mut class, registers, &call, trial::Known::Nothing);
    }
    class.report(total);
}

/// The writing classes all together: at least 100,000 calls.
#[test]
fn writing() {
    let mut total = trial::Outcomes::default();
    let mut registers = Registers::default();
    for class in [right_calls, chains, refused_calls, any_calls] {
        class(&mut total, &mut registers);
    }
    println!(
        "in all {} writing calls, {} accepted",
        total.calls, total.taken
    );
    registers.all("PDUs written", 200);
    for number in spoiling::NUMBERS {
        let calls = total.refused_with(number);
        println!("refused with {number}: {calls}");
        assert!(calls >= 100, "{number}");
    }
    println!("accepted by mode and stream: {:?}", total.lines);
    assert_eq!(total.lines.len(), TABLE.len());
    println!("accepted by what the PDU looks like: {:?}", total.looks);
    // How the limit of pieces is reached is for the tests of many pieces.
    let often = |(look, calls): (&&str, &u64)| *calls >= 10 || look.starts_with("limit");
    assert!(total.looks.iter().all(often));
    assert!(total.calls >= 100_000);
}

// Receiving.

/// What came of receiving besides what its classes count.
#[derive(Default)]
struct Heard {
    /// Accepted calls by the receiver's register.
    registers: Registers,
    /// Pieces received from equal registers, by whether their CRC is right.
    equal: BTreeMap<bool, u64>,
    /// The same from unequal ones.
    unequal: BTreeMap<bool, u64>,
}

/// Makes a call that is right, and compares with what it has to answer.
fn take(class: &mut attempt::Class, heard: &mut Heard, reception: &Reception) {
    let wanted = reception.wanted();
    let loan = reception.loan(&mut class.rng, wanted.words.len());
    let register = reception.receiver.register;
    let tried = class.receive(reception.receiver, loan, &Known::Taken(wanted));
    assert_eq!(tried.answer.receiver.register, register);
    heard.registers.count(register);
    let pieces = match register == reception.sample.parts.register {
        true => &mut heard.equal,
        false => &mut heard.unequal,
    };
    for piece in &reception.sample.parts.pieces {
        *pieces.entry(reception.is_right(piece)).or_default() += 1;
    }
}

/// A right call of a mode and stream with this register at both ends.
fn some_reception(rng: &mut Rng, case: usize, register: u8) -> Reception {
    let wish = Wish {
        line: Some(TABLE[case % TABLE.len()]),
        ..Wish::default()
    };
    let mut sample = Sample::new(rng, &wish);
    sample.parts.register = register;
    if rng.below(2) == 0 {
        right_crcs(&mut sample);
    }
    Reception::of(rng, sample)
}

/// Equal registers, each of them: CRCs that are right and such as are wrong.
fn equal(total: &mut attempt::Outcomes, heard: &mut Heard) {
    let mut class = attempt::Class::new("equal registers", 0x4E61_0011);
    for case in 0..256 * 160 {
        let reception = some_reception(&mut class.rng, case / 256, (case % 256) as u8);
        take(&mut class, heard, &reception);
    }
    class.report(total);
    assert_eq!(class.outcomes.taken, class.outcomes.calls);
}

/// A byte of a piece that is another than its CRC was made of, with equal
/// registers: the CRC is off by what the difference adds to it.
fn altered_pieces(total: &mut attempt::Outcomes, heard: &mut Heard) {
    let mut class = attempt::Class::new("equal registers, a byte of a piece altered", 0x4E61_0012);
    for case in 0..256 * 30 {
        let mut reception = some_reception(&mut class.rng, case / 256, (case % 256) as u8);
        right_crcs(&mut reception.sample);
        let pieces = &mut reception.sample.parts.pieces;
        if pieces.is_empty() {
            continue;
        }
        let k = class.rng.below(pieces.len());
        let piece = &mut pieces[k];
        let length = piece.bytes.len();
        let place = class.rng.below(length);
        let by = class.rng.nonzero_byte();
        piece.bytes[place] ^= by;
        piece.crc_error = told::added(by, length - place);
        take(&mut class, heard, &reception);
    }
    class.report(total);
}

/// Unequal registers: each piece has a wrong CRC, but where what is added to it
/// is just what the two registers differ by.
fn unequal(total: &mut attempt::Outcomes, heard: &mut Heard) {
    let mut class = attempt::Class::new("unequal registers", 0x4E61_0013);
    let mut all_noted = 0;
    for case in 0..256 * 160 {
        let register = (case % 256) as u8;
        let mut reception = some_reception(&mut class.rng, case / 256, register);
        let other = another(&mut class.rng, register);
        reception.receiver.register = other;
        if case % 3 == 0 {
            right_crcs(&mut reception.sample);
            let notes = noted(&reception);
            assert_eq!(notes, reception.sample.parts.pieces.len());
            all_noted += usize::from(notes > 0);
        } else {
            for piece in &mut reception.sample.parts.pieces {
                if class.rng.below(3) > 0 {
                    piece.crc_error = told::added(register ^ other, piece.bytes.len());
                }
            }
        }
        take(&mut class, heard, &reception);
    }
    class.report(total);
    println!("a note for each piece, all sent with right CRCs: {all_noted} calls");
    assert!(all_noted >= 5_000);
}

/// How many notes 2 a call has to log.
fn noted(reception: &Reception) -> usize {
    let words = reception.wanted().words;
    let notes = told::Kinds::of(&words).notes;
    notes.iter().filter(|&&note| note >> 16 == 0xC002).count()
}

/// Places of the header marked, with equal registers and unequal ones.
fn marked(total: &mut attempt::Outcomes, heard: &mut Heard) {
    let mut class = attempt::Class::new("any registers, with marks", 0x4E61_0014);
    for case in 0..256 * 20 {
        let register = (case % 256) as u8;
        let mut reception = some_reception(&mut class.rng, case / 256, register);
        reception.noise = Noise::within_bound(&mut class.rng);
        if class.rng.below(4) == 0 {
            reception.receiver.register = another(&mut class.rng, register);
        }
        take(&mut class, heard, &reception);
    }
    class.report(total);
}

/// Every set of refusals at once, and each alone more often, with any register:
/// the lowest is answered, as without one, and the register is as it came.
fn refused(total: &mut attempt::Outcomes, _: &mut Heard) {
    let mut class = attempt::Class::new("refused PDUs with any register", 0x4E61_0015);
    for set in 1u32..1 << NUMBERS.len() {
        let numbers: Vec<u32> = (0..NUMBERS.len())
            .filter(|index| (set >> index) & 1 != 0)
            .map(|index| NUMBERS[index])
            .collect();
        for _ in 0..if numbers.len() == 1 { 256 } else { 1 } {
            refuse(&mut class, &numbers);
        }
    }
    class.report(total);
}

/// Compares on a call with these refusals, lowest first.
fn refuse(class: &mut attempt::Class, numbers: &[u32]) {
    let line = some_line(&mut class.rng, numbers);
    let mut reception = spoilable(&mut class.rng, line);
    reception.sample.parts.register = class.rng.byte();
    reception.receiver.register = class.rng.byte();
    for &number in numbers.iter().rev() {
        spoil(&mut class.rng, &mut reception, number);
    }
    let known = match numbers[0] {
        // A header altered in five bytes or more can be near another code
        // word.
        refusal::BEYOND_MENDING => Known::Nothing,
        lowest => Known::Number(lowest),
    };
    let words = class.rng.below(50);
    let loan = reception.loan(&mut class.rng, words);
    let tried = class.receive(reception.receiver, loan, &known);
    assert_eq!(tried.answer.receiver.register, reception.receiver.register);
}

/// Marking lost with each register, whatever is held or known: it is kept; with
/// no log it is refused.
fn marking_lost(total: &mut attempt::Outcomes, _: &mut Heard) {
    let mut class = attempt::Class::new("marking lost with each register", 0x4E61_0016);
    for case in 0..256 * 20 {
        let register = (case % 256) as u8;
        let receiver = some_reception(&mut class.rng, case / 256, register).receiver;
        let log = LentLog::random(&mut class.rng, 1);
        let (answer, _) = class.mark_lost(receiver, log, &Known::Accepted);
        assert_eq!(answer.receiver.register, register);
        let none = LentLog::random(&mut class.rng, 0);
        let no_room = Known::Only(ReceiverCause::LogTooShort);
        class.mark_lost(receiver, none, &no_room);
    }
    class.report(total);
}

/// The receiving classes all together: at least 100,000 calls.
#[test]
fn receiving() {
    let mut total = attempt::Outcomes::default();
    let mut heard = Heard::default();
    for class in [
        equal,
        altered_pieces,
        unequal,
        marked,
        refused,
        marking_lost,
    ] {
        class(&mut total, &mut heard);
    }
    println!("in all {} calls, {} accepted", total.calls, total.taken);
    heard.registers.all("PDUs received", 200);
    println!(
        "pieces by whether the CRC is right: equal registers {:?}, unequal {:?}",
        heard.equal, heard.unequal
    );
    for pieces in [&heard.equal, &heard.unequal] {
        assert!([false, true].iter().all(|right| pieces[right] >= 10_000));
    }
    for number in NUMBERS {
        let calls = total.refused_with(number);
        println!("refused with {number}: {calls}");
        assert!(calls >= 200, "{number}");
    }
    for note in 1..=6 {
        let notes = total.notes.get(&note).copied().unwrap_or(0);
        println!("note {note}: {notes}");
        assert!(notes >= 1_000, "{note}");
    }
    assert_eq!(total.lines.len(), TABLE.len());
    assert!(total.calls >= 100_000);
}

// Lists of pieces.

/// PDUs of each register, listed with that and with others: the verdicts are
/// told from how they were made. At least 100,000 lists.
#[test]
fn listing() {
    let mut total = comparison::Outcomes::default();
    let mut class = comparison::Class::new("lists with each register", 0x4E61_0021);
    let mut verdicts = BTreeMap::new();
    let mut registers = Registers::default();
    for case in 0..256 * 80 {
        let sent = (case % 256) as u8;
        let unequal = case / 256 % 2 == 1;
        let given = match unequal {
            true => another(&mut class.rng, sent),
            false => sent,
        };
        let mut sample = class.sample(&Wish {
            line: Some(TABLE[case / 512 % TABLE.len()]),
            ..Wish::default()
        });
        sample.parts.register = sent;
        let known = some_verdicts(&mut class.rng, &mut sample, sent ^ given);
        class.register = given;
        let mut lent = Lent::random(&mut class.rng, sample.length);
        let pdu = sample.encode(lent.bytes());
        lent.bytes_mut().copy_from_slice(&pdu);
        let altered = [0, class.rng.below(5)][class.rng.below(2)];
        class.alter(&mut lent, altered);
        assert_eq!(class.compare_lists(&lent), known);
        registers.count(given);
        for right in known {
            *verdicts.entry((unequal, right)).or_insert(0u64) += 1;
        }
    }
    class.report(&mut total);
    total.lists.report();
    registers.all("PDUs listed", 40);
    println!("verdicts by whether the registers are unequal and the CRC is right: {verdicts:?}");
    assert_eq!(verdicts.len(), 4);
    assert!(verdicts.values().all(|&pieces| pieces >= 10_000));
    assert!(total.lists.calls >= 100_000);
}

/// Gives each piece a CRC that is right where the registers are equal, one that
/// is right where they differ by this, or any; which ones are right.
fn some_verdicts(rng: &mut Rng, sample: &mut Sample, differ: u8) -> Vec<bool> {
    let pieces = sample.parts.pieces.iter_mut();
    pieces
        .map(|piece| {
            let added = told::added(differ, piece.bytes.len());
            piece.crc_error = [0, added, rng.byte()][rng.below(3)];
            piece.crc_error == added
        })
        .collect()
}

// Drives.

/// Whole drives with each register at both ends: PDUs lost, headers altered in
/// up to four bytes, refused calls in between. The log is what demand 3 says.
#[test]
fn driving() {
    let mut class = attempt::Class::new("drives with each register", 0x4E61_0031);
    let mut seen = Seen::default();
    for case in 0..256 * 20 {
        let register = (case % 256) as u8;
        let line = TABLE[case / 256 % TABLE.len()];
        let list = some_list(&mut class.rng, line, register);
        let (run, lost) = some_run(&mut class.rng, &list, line);
        drives::drive(&mut class, &mut seen, &list, run, &lost);
    }
    for case in 0..256 {
        // What stands before and behind the lost ones seems to belong together.
        let line = TABLE[case % TABLE.len()];
        let (list, in_a_row) = drives::trap(&mut class.rng, line, case % 2 == 0, case as u8);
        let count = list.pdus.len();
        let mut lost = vec![false; count];
        lost[1..=in_a_row].fill(true);
        drives::drive(&mut class, &mut seen, &list, 0..count, &lost);
    }
    report_drives(&class, &seen);
    assert!(seen.logged >= 10_000);
    // Nothing but marks and pieces whose beginning is missing.
    let notes: Vec<u32> = class.outcomes.notes.keys().copied().collect();
    assert_eq!(notes, [3, 6]);
    assert!((0..=4).all(|altered| seen.altered[&altered] >= 1_000));
    assert!((1..=13).all(|number| seen.refused[&number] >= 20));
}

/// The same with marks.
#[test]
fn runs_with_marks() {
    let mut class = attempt::Class::new("runs with marks and each register", 0x4E61_0032);
    let mut seen = Seen::default();
    for case in 0..256 * 8 {
        let register = (case % 256) as u8;
        let line = TABLE[case % TABLE.len()];
        let list = some_list(&mut class.rng, line, register);
        let (run, lost) = some_run(&mut class.rng, &list, line);
        drives::run_with_marks(&mut class, &mut seen, &list, run, &lost);
    }
    report_drives(&class, &seen);
    let notes: Vec<u32> = class.outcomes.notes.keys().copied().collect();
    assert_eq!(notes, [3, 6]);
    assert!((0..=8).all(|altered| seen.altered[&altered] >= 100));
}

/// Drives with unequal registers: no packet is logged, and each piece is noted.
#[test]
fn driving_with_unequal_registers() {
    let mut class = attempt::Class::new("drives with unequal registers", 0x4E61_0033);
    let mut seen = Seen::default();
    for case in 0..256 * 8 {
        let register = (case % 256) as u8;
        let line = TABLE[case % TABLE.len()];
        let list = some_list(&mut class.rng, line, register);
        let (run, lost) = some_run(&mut class.rng, &list, line);
        let other = another(&mut class.rng, register);
        drives::drive_from(&mut class, &mut seen, &list, run, &lost, other);
    }
    report_drives(&class, &seen);
    assert_eq!(seen.logged, 0);
    let notes: Vec<u32> = class.outcomes.notes.keys().copied().collect();
    assert_eq!(notes, [2, 6]);
    assert!(class.outcomes.notes[&2] >= 10_000);
}

/// A list of packets sent from this register.
fn some_list(rng: &mut Rng, line: Line, register: u8) -> drives::List {
    let style = drives::STYLES[rng.below(drives::STYLES.len())];
    drives::List::random(rng, line, style, register)
}

/// Any run of its PDUs, and which of them are lost.
fn some_run(rng: &mut Rng, list: &drives::List, line: Line) -> (Range<usize>, Vec<bool>) {
    let run = drives::some_run(rng, list.pdus.len());
    let lost = drives::some_lost(rng, run.len(), usize::from(line.sequences));
    (run, lost)
}

fn report_drives(class: &attempt::Class, seen: &Seen) {
    class.report(&mut attempt::Outcomes::default());
    println!(
        "{} drives by mode and stream {:?}; {} PDUs received, by altered bytes {:?}, {} lost; \
         {} packets, {} of them logged; refused calls by number {:?}; {} calls in place all the way",
        seen.drives,
        seen.lines,
        seen.received,
        seen.altered,
        seen.lost,
        seen.packets,
        seen.logged,
        seen.refused,
        seen.stepped
    );
    let mut registers = Registers::default();
    seen.sums.report("drives with registers");
    registers.add(&seen.registers);
    registers.all("drives", 8);
    assert_eq!(seen.lines.len(), TABLE.len());
}
