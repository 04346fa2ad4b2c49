//! Compares the product's receiver with the reference: single receiving calls
//! of all modes and streams, made for each note and each cause of the refusals
//! 1 to 13, marking lost, and whole drives (demand 3). What a call has to
//! answer is told from how it was made, what a drive has to log from the
//! writing calls. Each of the product's calls is made by value and in place.

mod attempt;
#[allow(dead_code)]
mod calls;
mod drives;
mod lent;
mod noise;
mod product;
mod receptions;
#[allow(dead_code)]
mod samples;
#[allow(dead_code)]
mod spoiling;
mod told;

use attempt::{against_product, Class, Known, Outcomes};
use drives::{Seen, STYLES};
use lent::{Lent, LentLog};
use product::receiver::calls_in_place;
use receptions::{right_crcs, some_line, spoil, spoilable, with_lengths, Held, Reception, NUMBERS};
use referee::control::{self, MOST_PIECES};
use referee::header::{self, LONGEST};
use referee::modes::{self, Line, TABLE};
use referee::receiver::{self, Receiver};
use referee::refusal::{self, Cause, ReceiverCause};
use referee::rng::Rng;
use samples::{Sample, Wish};

/// Makes a call that is right, and compares with what it has to answer.
fn take(class: &mut Class, reception: &Reception) {
    let wanted = reception.wanted();
    let loan = reception.loan(&mut class.rng, wanted.words.len());
    class.receive(reception.receiver, loan, &Known::Taken(wanted));
}

/// Makes a call that has been spoiled.
fn refuse(class: &mut Class, reception: &Reception, known: &Known) {
    let words = class.rng.below(50);
    let loan = reception.loan(&mut class.rng, words);
    class.receive(reception.receiver, loan, known);
}

/// Right calls of all modes and streams.
fn right(total: &mut Outcomes) {
    let mut class = Class::new("right", 0x4EC0_0001);
    for case in 0..60_000 {
        let wish = Wish {
            line: Some(TABLE[case % TABLE.len()]),
            ..Wish::default()
        };
        let reception = Reception::new(&mut class.rng, &wish);
        take(&mut class, &reception);
    }
    class.report(total);
    assert_eq!(class.outcomes.taken, class.outcomes.calls);
}

/// A PDU of a few pieces; those of 16 bits can be too long by themselves.
fn some_pieces(rng: &mut Rng, line: Line, longest: usize) -> Sample {
    let count = rng.within(1, 5);
    let most = match line.locator_bits {
        16 => 20_200 / count,
        _ => 3_700 / count,
    };
    let lengths: Vec<usize> = (0..count)
        .map(|_| match rng.below(5) {
            0 => 4_096.min(most),
            1 => 4_097.min(most),
            2 => rng.within(1, most.min(longest)),
            _ => rng.within(1, 40),
        })
        .collect();
    let psd = [0, 0, 1, rng.below(100)][rng.below(4)];
    with_lengths(rng, line, psd, &lengths)
}

/// Pieces of which about half are too long by themselves, in 16 bits.
fn long_pieces(rng: &mut Rng, line: Line) -> Sample {
    let lengths: Vec<usize> = (0..rng.within(1, 4))
        .map(|_| match rng.below(4) {
            0 => 4_097,
            1 => rng.within(4_097, 5_000),
            2 => 4_096,
            _ => rng.within(1, 40),
        })
        .collect();
    let psd = rng.below(3);
    with_lengths(rng, line, psd, &lengths)
}

/// Every order of notes: 1 or 4 or none, then 2, 3, 5 or none for the first
/// piece, then 2, 5 or none for each other.
fn notes(total: &mut Outcomes) {
    let mut class = Class::new("notes", 0x4EC0_0002);
    for case in 0..30_000 {
        let line = TABLE[case % TABLE.len()];
        let longest = [200, 6_000][case % 2];
        let sample = some_pieces(&mut class.rng, line, longest);
        check_notes(&mut class, sample);
    }
    let wide = |line: &Line| line.locator_bits == 16;
    let lines: Vec<Line> = TABLE.into_iter().filter(wide).collect();
    for case in 0..12_000 {
        let sample = long_pieces(&mut class.rng, lines[case % lines.len()]);
        check_notes(&mut class, sample);
    }
    class.report(total);
}

/// The pieces with some wrong CRCs, after any sequence.
fn check_notes(class: &mut Class, mut sample: Sample) {
    for piece in &mut sample.parts.pieces {
        if class.rng.below(4) == 0 {
            piece.crc_error = [1, 0x80, class.rng.nonzero_byte()][class.rng.below(3)];
        }
    }
    let range = usize::from(sample.line.sequences);
    let mut reception = Reception::of(&mut class.rng, sample);
    match class.rng.below(4) {
        0 => {
            // Not the next: the same one, or any other.
            let sent = usize::from(reception.sample.parts.control.sequence);
            let back = [0, class.rng.below(range - 1)][class.rng.below(2)];
            reception.know(((sent + back) % range) as u8);
        }
        1 => reception.forget(),
        _ => reception.know_the_one_before(),
    }
    take(class, &reception);
}

/// Beginnings and pieces that make about 4,096 bytes, delivered and held.
fn totals(total: &mut Outcomes) {
    let mut class = Class::new("4,096 and 4,097 bytes", 0x4EC0_0003);
    for case in 0..15_000 {
        let line = TABLE[case % TABLE.len()];
        let joined = [4_095, 4_096, 4_097, 4_098][class.rng.below(4)];
        let held = match class.rng.below(6) {
            0 => 0,
            1 => 1,
            2 => 4_095,
            3 => 4_096,
            _ => class.rng.within(1, 4_096),
        };
        // Locators of 12 bits can't tell so long a piece.
        let held = match line.locator_bits {
            16 => held.min(joined - 1),
            _ => held.clamp(joined - 3_500, joined - 1),
        };
        let first = joined - held;
        let lengths = [vec![first], vec![3; class.rng.below(3)]].concat();
        let mut sample = with_lengths(&mut class.rng, line, case % 3, &lengths);
        sample.parts.control.pfirst = held > 0;
        sample.parts.control.plast = class.rng.below(2) == 0;
        let mut reception = Reception::of(&mut class.rng, sample);
        reception.know_the_one_before();
        let fitting = match held {
            0 => Held::Nothing,
            held => Held::Fitting(held),
        };
        reception.hold(&mut class.rng, fitting);
        take(&mut class, &reception);
    }
    class.report(total);
}

/// A small PDU with the first piece continuing, or any.
fn small(rng: &mut Rng, line: Line) -> Reception {
    let wish = Wish {
        line: Some(line),
        nop: Some(rng.below(4)),
        length: Some(rng.within(96, 140)),
        ..Wish::default()
    };
    let mut reception = Reception::new(rng, &wish);
    right_crcs(&mut reception.sample);
    reception
}

/// Every last sequence with every sequence, in each mode and stream.
fn sequences(total: &mut Outcomes) {
    let mut class = Class::new("sequences", 0x4EC0_0004);
    for line in TABLE {
        for last in 0..line.sequences {
            for sent in 0..line.sequences {
                for _ in 0..24 {
                    let mut reception = small(&mut class.rng, line);
                    reception.sample.parts.control.sequence = sent;
                    reception.know(last);
                    take(&mut class, &reception);
                    reception.forget();
                    take(&mut class, &reception);
                }
            }
        }
    }
    class.report(total);
}

/// Every number of a beginning with every starting number, Pfirst set and
/// clear.
fn numbers(total: &mut Outcomes) {
    let mut class = Class::new("numbers", 0x4EC0_0005);
    for number in 0..64 {
        for start in 0..64 {
            for pfirst in [false, true] {
                let line = TABLE[class.rng.below(TABLE.len())];
                let mut reception = small(&mut class.rng, line);
                let word = &mut reception.sample.parts.control;
                word.start = start;
                word.pfirst = pfirst && word.nop > 0;
                reception.know_the_one_before();
                reception.receiver.held = [1, 7, 4_090][class.rng.below(3)];
                reception.receiver.number = number;
                take(&mut class, &reception);
            }
        }
    }
    // Those next to each other, across 63 and 0.
    for case in 0..8_000 {
        let mut reception = small(&mut class.rng, TABLE[case % TABLE.len()]);
        let start = [62, 63, 0, 1][class.rng.below(4)];
        reception.sample.parts.control.start = start;
        reception.know_the_one_before();
        let before = (start + 61 + class.rng.below(5) as u8) % 64;
        reception.receiver.held = class.rng.within(1, 9) as u16;
        reception.receiver.number = before;
        take(&mut class, &reception);
    }
    class.report(total);
}

/// Headers altered in none to four bytes, and in five.
fn altered(total: &mut Outcomes) {
    let mut class = Class::new("altered headers", 0x4EC0_0006);
    for case in 0..24_000 {
        let wish = Wish {
            line: Some(TABLE[case % TABLE.len()]),
            length: Some(class.rng.within(96, 400)),
            ..Wish::default()
        };
        let mut reception = Reception::new(&mut class.rng, &wish);
        reception.noise.altered = case / TABLE.len() % 6;
        if reception.noise.altered <= 4 {
            take(&mut class, &reception);
        } else {
            // Few of these are near another code word.
            refuse(&mut class, &reception, &Known::Nothing);
        }
    }
    class.report(total);
    assert!(class.outcomes.refused_with(refusal::BEYOND_MENDING) >= 3_900);
}

/// Refusal 1, with receiving and marking lost: each field around its range.
fn states(total: &mut Outcomes) {
    let mut class = Class::new("states", 0x4EC0_0007);
    let others = [32, 64, 128, 224, 255];
    for mode in (0..=17).chain(others) {
        for stream in (0..=4).chain(others) {
            let line = TABLE[class.rng.below(TABLE.len())];
            let mut reception = small(&mut class.rng, line);
            reception.receiver.mode = mode;
            reception.receiver.stream = stream;
            reception.forget();
            let there = modes::line_for(mode, stream).is_some();
            if !there {
                refuse(&mut class, &reception, &Known::Number(refusal::STATE));
            }
            let known = match there {
                true => Known::Accepted,
                false => Known::Only(ReceiverCause::ModeAndStream),
            };
            mark(&mut class, reception.receiver, &known);
        }
    }
    for line in TABLE {
        for _ in 0..12 {
            for sequence in (0..=9).chain([16, 64, 128, 254, 255]) {
                let mut reception = small(&mut class.rng, line);
                reception.know(sequence);
                let wrong = (sequence >= line.sequences).then_some(ReceiverCause::Sequence);
                both(&mut class, &reception, wrong);
                if sequence < line.sequences {
                    reception.receiver.known = false;
                    let wrong = (sequence > 0).then_some(ReceiverCause::SequenceNotKnown);
                    both(&mut class, &reception, wrong);
                }
            }
            for held in [0, 1, 4_095, 4_096, 4_097, 4_098, 8_192, 65_535] {
                let mut reception = small(&mut class.rng, line);
                reception.receiver.held = held;
                reception.receiver.number = u8::from(held > 0) * class.rng.below(64) as u8;
                let wrong = (held > 4_096).then_some(ReceiverCause::Held);
                both(&mut class, &reception, wrong);
            }
            for number in [0, 1, 62, 63, 64, 65, 127, 128, 192, 255] {
                let mut reception = small(&mut class.rng, line);
                reception.receiver.held = class.rng.within(1, 4_096) as u16;
                reception.receiver.number = number;
                let wrong = (number > 63).then_some(ReceiverCause::Number);
                both(&mut class, &reception, wrong);
                if number < 64 {
                    reception.receiver.held = 0;
                    let wrong = (number > 0).then_some(ReceiverCause::NumberNotHeld);
                    both(&mut class, &reception, wrong);
                }
            }
        }
    }
    class.report(total);
}

/// Receives, and marks lost, with this cause or none.
fn both(class: &mut Class, reception: &Reception, wrong: Option<ReceiverCause>) {
    match wrong {
        None => {
            take(class, reception);
            mark(class, reception.receiver, &Known::Accepted);
        }
        Some(cause) => {
            refuse(class, reception, &Known::Only(cause));
            mark(class, reception.receiver, &Known::Only(cause));
        }
    }
}

/// Marks a PDU lost, with a log of some words.
fn mark(class: &mut Class, receiver: Receiver, known: &Known) {
    let words = [1, 2, class.rng.within(1, 40)][class.rng.below(3)];
    let log = LentLog::random(&mut class.rng, words);
    class.mark_lost(receiver, log, known);
}

/// Marking lost whatever is held or known; with no log it is refused.
fn marking_lost(total: &mut Outcomes) {
    let mut class = Class::new("marking lost", 0x4EC0_0008);
    for case in 0..8_000 {
        let mut receiver = small(&mut class.rng, TABLE[case % TABLE.len()]).receiver;
        mark(&mut class, receiver, &Known::Accepted);
        let none = LentLog::random(&mut class.rng, 0);
        let no_room = Known::Only(ReceiverCause::LogTooShort);
        class.mark_lost(receiver, none.clone(), &no_room);
        receptions::spoil_state(&mut class.rng, &mut receiver);
        class.mark_lost(receiver, none, &Known::Number(refusal::STATE));
        mark(&mut class, receiver, &Known::Number(refusal::STATE));
    }
    class.report(total);
}

/// Refusal 2: carries around 4,096 bytes, whatever is held.
fn carries(total: &mut Outcomes) {
    let mut class = Class::new("carries", 0x4EC0_0009);
    for case in 0..600 {
        let reception = small(&mut class.rng, TABLE[case % TABLE.len()]);
        for length in [0, 1, 95, 2_048, 4_094, 4_095, 4_096, 4_097, 5_000, 65_536] {
            let mut reception = reception.clone();
            reception.carry.resize(length, 0x5C);
            if length < 4_096 {
                let known = Known::Only(ReceiverCause::CarryUnder4096);
                refuse(&mut class, &reception, &known);
            } else {
                take(&mut class, &reception);
            }
        }
    }
    class.report(total);
}

/// Refusal 3: lengths around 96 and 20,480, with 12 bits as well.
fn lengths(total: &mut Outcomes) {
    let mut class = Class::new("lengths", 0x4EC0_000A);
    for line in TABLE {
        for _ in 0..12 {
            let mut reception = small(&mut class.rng, line);
            for length in [0, 1, 14, 50, 94, 95] {
                reception.cut = Some(length);
                let known = Known::Only(ReceiverCause::Pdu(Cause::Length));
                refuse(&mut class, &reception, &known);
            }
            for length in [4_095, 4_096, 4_097, 16_384, 20_479, 20_480] {
                reception.cut = Some(length);
                take(&mut class, &reception);
            }
            for length in [20_481, 20_482, 20_576, 32_768, 65_536, 65_632] {
                reception.cut = Some(length);
                let known = Known::Only(ReceiverCause::Pdu(Cause::Length));
                refuse(&mut class, &reception, &known);
            }
        }
    }
    class.report(total);
}

/// Refusals 5 and 6: every mode and stream sent, for each one opened.
fn modes_and_streams(total: &mut Outcomes) {
    let mut class = Class::new("modes and streams", 0x4EC0_000B);
    for opened in TABLE {
        let opened = (opened.mode, opened.stream);
        for mode in 0..16 {
            for stream in 0..4 {
                let line = modes::line_for(mode, stream);
                for _ in 0..if line.is_some() { 24 } else { 3 } {
                    let like = line.unwrap_or(TABLE[class.rng.below(TABLE.len())]);
                    let mut reception = small(&mut class.rng, like);
                    reception.sample.parts.control.mode = mode;
                    reception.sample.parts.control.stream = stream;
                    reception.receiver.mode = opened.0;
                    reception.receiver.stream = opened.1;
                    reception.receiver.sequence &= 1;
                    if (mode, stream) == opened {
                        take(&mut class, &reception);
                    } else if line.is_some() {
                        let known = Known::Only(ReceiverCause::NotThoseOpened);
                        refuse(&mut class, &reception, &known);
                    } else {
                        let known = Known::Number(refusal::MODE_AND_STREAM);
                        refuse(&mut class, &reception, &known);
                    }
                }
            }
        }
    }
    class.report(total);
}

/// Refusals 7 and 8, at their edges; the most pieces are taken (document 02, Ask
/// 9).
fn sequences_and_pieces(total: &mut Outcomes) {
    let mut class = Class::new("sequences and pieces of a PDU", 0x4EC0_000C);
    for line in TABLE {
        for _ in 0..40 {
            for sequence in line.sequences..8 {
                let mut reception = small(&mut class.rng, line);
                reception.sample.parts.control.sequence = sequence;
                let known = Known::Only(ReceiverCause::Pdu(Cause::Sequence));
                refuse(&mut class, &reception, &known);
            }
            for nop in [41, 42, 54, 55, MOST_PIECES - 1, MOST_PIECES] {
                let wish = Wish {
                    line: Some(line),
                    nop: Some(nop),
                    ..Wish::default()
                };
                let reception = Reception::new(&mut class.rng, &wish);
                take(&mut class, &reception);
            }
            for (pfirst, plast) in [(false, false), (true, false), (false, true), (true, true)] {
                check_flags(&mut class, line, pfirst, plast);
            }
        }
    }
    class.report(total);
}

/// These flags with NOP 0.
fn check_flags(class: &mut Class, line: Line, pfirst: bool, plast: bool) {
    let wish = Wish {
        line: Some(line),
        nop: Some(0),
        length: Some(100),
        ..Wish::default()
    };
    let mut reception = Reception::new(&mut class.rng, &wish);
    reception.sample.parts.control.pfirst = pfirst;
    reception.sample.parts.control.plast = plast;
    let only = |cause| Known::Only(ReceiverCause::Pdu(cause));
    match (pfirst, plast) {
        (false, false) => take(class, &reception),
        (true, false) => refuse(class, &reception, &only(Cause::PfirstWithoutPieces)),
        (false, true) => refuse(class, &reception, &only(Cause::PlastWithoutPieces)),
        (true, true) => refuse(class, &reception, &Known::Number(refusal::PIECES)),
    }
}

/// Refusal 9: La at the length's end, with PSD up to there.
fn places_of_la(total: &mut Outcomes) {
    let mut class = Class::new("La and the length", 0x4EC0_0015);
    for case in 0..2_000 {
        let length = match class.rng.below(4) {
            0 => 96,
            1 => 255,
            _ => class.rng.within(96, 255),
        };
        let wish = Wish {
            line: Some(TABLE[case % TABLE.len()]),
            nop: Some(0),
            fields: Some(Vec::new()),
            psd: Some(length - 14),
            length: Some(length),
            ..Wish::default()
        };
        let mut reception = Reception::new(&mut class.rng, &wish);
        assert_eq!(usize::from(reception.sample.parts.control.la), length - 1);
        take(&mut class, &reception);
        let past = [length, class.rng.within(length, 255)][class.rng.below(2)];
        reception.sample.parts.control.la = past as u8;
        let known = Known::Only(ReceiverCause::Pdu(Cause::LaNotBelowLength));
        refuse(&mut class, &reception, &known);
    }
    class.report(total);
}

/// Refusals 5 and 7 to 12, each alone in a call that is right otherwise.
fn pdus(total: &mut Outcomes) {
    let mut class = Class::new("refused PDUs", 0x4EC0_000D);
    for number in [5, 7, 8, 9, 10, 11, 12] {
        for _ in 0..3_000 {
            let line = some_line(&mut class.rng, &[number]);
            let mut reception = spoilable(&mut class.rng, line);
            take(&mut class, &reception);
            spoil(&mut class.rng, &mut reception, number);
            refuse(&mut class, &reception, &Known::Number(number));
        }
    }
    class.report(total);
}

/// Refusal 11 with locators that are wrong in several places, as sent.
fn locators(total: &mut Outcomes) {
    let mut class = Class::new("wrong locators", 0x4EC0_000E);
    for case in 0..6_000 {
        let line = TABLE[case % TABLE.len()];
        let wish = Wish {
            line: Some(line),
            nop: Some(class.rng.within(2, 12)),
            fields: Some(Vec::new()),
            length: Some(class.rng.within(96, 300)),
            ..Wish::default()
        };
        let mut reception = Reception::new(&mut class.rng, &wish);
        let length = reception.sample.length;
        let locators = &mut reception.sample.parts.locators;
        for _ in 0..class.rng.within(1, 3) {
            let k = class.rng.below(locators.len());
            let most = (1 << line.locator_bits) - 1;
            locators[k] = [0, length, most, most - 1, locators[k] + 1][class.rng.below(5)];
        }
        refuse(&mut class, &reception, &Known::Nothing);
    }
    class.report(total);
}

/// Refusal 13: logs of as many words as are written, of one more, of one less
/// and of none.
fn logs(total: &mut Outcomes) {
    let mut class = Class::new("logs", 0x4EC0_000F);
    for case in 0..5_000 {
        let wish = Wish {
            line: Some(TABLE[case % TABLE.len()]),
            ..Wish::default()
        };
        let mut reception = Reception::new(&mut class.rng, &wish);
        let words = reception.wanted().words.len();
        for more in [0, 1] {
            reception.log = Some(words + more);
            take(&mut class, &reception);
        }
        let Some(short) = words.checked_sub(1) else {
            continue;
        };
        for log in [short, class.rng.within(0, short), 0] {
            reception.log = Some(log);
            let known = Known::Only(ReceiverCause::LogTooShort);
            refuse(&mut class, &reception, &known);
        }
    }
    class.report(total);
}

/// Every set of refusals at once: the lowest is answered.
fn several_at_once(total: &mut Outcomes) {
    let mut class = Class::new("several refusals at once", 0x4EC0_0010);
    for set in 1u32..1 << NUMBERS.len() {
        let numbers: Vec<u32> = (0..NUMBERS.len())
            .filter(|index| (set >> index) & 1 != 0)
            .map(|index| NUMBERS[index])
            .collect();
        for _ in 0..3 {
            check_several(&mut class, &numbers);
        }
    }
    class.report(total);
}

/// Compares on a call with these refusals, lowest first.
fn check_several(class: &mut Class, numbers: &[u32]) {
    let line = some_line(&mut class.rng, numbers);
    let mut reception = spoilable(&mut class.rng, line);
    for &number in numbers.iter().rev() {
        spoil(&mut class.rng, &mut reception, number);
    }
    let known = match numbers[0] {
        // A header altered in five bytes or more can be near another code
        // word.
        refusal::BEYOND_MENDING => Known::Nothing,
        lowest => Known::Number(lowest),
    };
    refuse(class, &reception, &known);
}

/// Calls with anything in them, mostly near to what is right.
fn any_calls(total: &mut Outcomes) {
    let mut class = Class::new("any calls", 0x4EC0_0011);
    for _ in 0..40_000 {
        let wish = Wish {
            length: Some(class.rng.within(96, 500)),
            ..Wish::default()
        };
        let reception = Reception::new(&mut class.rng, &wish);
        let needed = reception.wanted().words.len();
        let mut loan = reception.loan(&mut class.rng, needed);
        let mut receiver = reception.receiver;
        disturb(&mut class.rng, &reception, &mut loan.pdu);
        match class.rng.below(16) {
            0 => receiver.sequence = class.rng.below(9) as u8,
            1 => receiver.number = class.rng.below(66) as u8,
            2 => receiver.held = class.rng.below(4_100) as u16,
            3 => receiver.known = !receiver.known,
            4 => receiver.mode = class.rng.below(16) as u8,
            _ => {}
        }
        class.receive(receiver, loan, &Known::Nothing);
    }
    class.report(total);
}

/// Turns some bits of the PDU, most of them with right parity then.
fn disturb(rng: &mut Rng, reception: &Reception, pdu: &mut Lent) {
    pdu.bytes_mut().copy_from_slice(&reception.pdu());
    let first_piece = usize::from(reception.sample.parts.control.la) + 1;
    let reach = [control::FIRST + control::BYTES - 1, first_piece.min(95)];
    let reach = [reach[0], reach[1], pdu.bytes().len() - 1][rng.below(3)];
    for _ in 0..rng.within(0, 2) {
        let place = rng.within(control::FIRST, reach);
        pdu.bytes_mut()[place] ^= 1 << rng.below(8);
    }
    if rng.below(8) > 0 {
        header::write_parity(pdu.bytes_mut()).expect("a right length");
    }
}

/// Calls one after another on one receiver: whatever comes, the next call
/// takes what the last one left.
fn one_after_another(total: &mut Outcomes) {
    let mut class = Class::new("one after another", 0x4EC0_0012);
    for case in 0..1_500 {
        let line = TABLE[case % TABLE.len()];
        let mut receiver = receiver::open(line.mode, line.stream).expect("a line of the table");
        let mut carry = receptions::some_carry(&mut class.rng);
        for _ in 0..class.rng.within(5, 25) {
            if class.rng.below(12) == 0 {
                let log = LentLog::random(&mut class.rng, 1);
                receiver = class.mark_lost(receiver, log, &Known::Accepted).0.receiver;
                continue;
            }
            let reception = following(&mut class.rng, line, receiver, &carry);
            let wanted = reception.wanted();
            let loan = reception.loan(&mut class.rng, wanted.words.len());
            let tried = class.receive(receiver, loan, &Known::Taken(wanted));
            receiver = tried.answer.receiver;
            carry = tried.loan.carry.bytes().to_vec();
        }
    }
    class.report(total);
}

/// A PDU for this receiver, most often one that goes on where it stands.
fn following(rng: &mut Rng, line: Line, receiver: Receiver, carry: &[u8]) -> Reception {
    let longest = [30, 1_000, 5_000][rng.below(3)];
    let mut reception = match rng.below(2) {
        0 => small(rng, line),
        _ => {
            let sample = some_pieces(rng, line, longest);
            Reception::of(rng, sample)
        }
    };
    if rng.below(6) == 0 {
        if let Some(piece) = reception.sample.parts.pieces.first_mut() {
            piece.crc_error = 1;
        }
    }
    let word = &mut reception.sample.parts.control;
    if rng.below(8) > 0 {
        word.sequence = (receiver.sequence + 1) % line.sequences;
    }
    if receiver.held > 0 && rng.below(8) > 0 {
        word.start = (receiver.number + 1) % 64;
        word.pfirst = word.nop > 0;
    }
    reception.receiver = receiver;
    reception.carry = carry.to_vec();
    reception
}

/// All classes of calls.
const CLASSES: [fn(&mut Outcomes); 19] = [
    right,
    notes,
    totals,
    sequences,
    numbers,
    altered,
    states,
    marking_lost,
    carries,
    lengths,
    modes_and_streams,
    sequences_and_pieces,
    places_of_la,
    pdus,
    locators,
    logs,
    several_at_once,
    any_calls,
    one_after_another,
];

/// Notes that can follow each other, and those that can come first.
const ORDERS: [(u32, u32); 18] = [
    (0, 1),
    (0, 2),
    (0, 3),
    (0, 4),
    (0, 5),
    (0, 6),
    (1, 2),
    (1, 3),
    (1, 5),
    (2, 2),
    (2, 5),
    (3, 2),
    (3, 5),
    (4, 2),
    (4, 3),
    (4, 5),
    (5, 2),
    (5, 5),
];

/// The classes all together: at least 200,000 calls, each refusal, each note
/// and each order of two notes at least 1,000 times.
#[test]
fn receiving() {
    let before = calls_in_place();
    let mut total = Outcomes::default();
    for class in CLASSES {
        class(&mut total);
    }
    println!("in all {} calls, {} accepted", total.calls, total.taken);
    let in_place = calls_in_place() - before;
    println!("made in place too: {in_place}");
    assert_eq!(in_place, total.calls);
    for number in NUMBERS {
        let calls = total.refused_with(number);
        println!("refused with {number}: {calls}");
        assert!(calls >= 1_000, "{number}");
    }
    for note in 1..=6 {
        let notes = total.notes.get(&note).copied().unwrap_or(0);
        println!("note {note}: {notes}");
        assert!(notes >= 1_000, "{note}");
    }
    println!("notes behind each other: {:?}", total.orders);
    let orders: Vec<(u32, u32)> = total.orders.keys().copied().collect();
    assert_eq!(orders, ORDERS);
    assert!(total.orders.values().all(|&notes| notes >= 1_000));
    println!("refused for one cause alone: {:?}", total.alone);
    // A mode and stream that aren't in the table are never those opened.
    assert_eq!(total.alone.len(), 28, "all causes that can be alone");
    assert!(total.alone.values().all(|&calls| calls >= 100));
    println!("accepted by mode and stream: {:?}", total.lines);
    assert_eq!(total.lines.len(), TABLE.len());
    println!("accepted by what came of it: {:?}", total.looks);
    assert!(total.looks.values().all(|&calls| calls >= 300));
    assert!(total.calls >= 200_000);
}

/// Whole drives over all modes and streams, with losses of every length.
#[test]
fn driving() {
    let before = calls_in_place();
    let mut class = Class::new("drives", 0x4EC0_0013);
    let mut seen = Seen::default();
    for case in 0..22_000 {
        let line = TABLE[case % TABLE.len()];
        let style = STYLES[case / TABLE.len() % STYLES.len()];
        let list = drives::List::random(&mut class.rng, line, style, 0);
        let run = drives::some_run(&mut class.rng, list.pdus.len());
        let range = usize::from(line.sequences);
        let lost = drives::some_lost(&mut class.rng, run.len(), range);
        drives::drive(&mut class, &mut seen, &list, run, &lost);
    }
    // What stands before and behind the lost ones seems to belong together.
    for case in 0..1_000 {
        let line = TABLE[case % TABLE.len()];
        let another = case % 20 < TABLE.len();
        let (list, in_a_row) = drives::trap(&mut class.rng, line, another, 0);
        let count = list.pdus.len();
        let mut lost = vec![false; count];
        lost[1..=in_a_row].fill(true);
        drives::drive(&mut class, &mut seen, &list, 0..count, &lost);
    }
    class.report(&mut Outcomes::default());
    report_drives(&seen);
    let in_place = calls_in_place() - before;
    println!(
        "made in place: {in_place} calls, {} of them on receivers stepped in place all the way",
        seen.stepped
    );
    assert_eq!(in_place, class.outcomes.calls + seen.stepped);
    assert!(seen.stepped >= 100_000);
    assert!(seen.drives >= 20_000);
    seen.sums.report("drives");
    assert!(seen.sums.with_missing >= 5_000 && seen.sums.far >= 100);
    assert_eq!(seen.lines.len(), TABLE.len());
    assert!((1..=13).all(|in_a_row| seen.in_a_row[&in_a_row] >= 50));
    assert!((0..=4).all(|altered| seen.altered[&altered] >= 5_000));
    assert!((1..=13).all(|number| seen.refused[&number] >= 500));
    let rare = [seen.begun_inside, seen.two_of_one_bit, seen.sequence_fits];
    assert!(rare.iter().all(|&drives| drives >= 1_000));
    assert!(seen.number_fits >= 1_000 && seen.another_packet >= 500);
    assert!(seen.empty_runs >= 100);
    // Nothing but marks and pieces whose beginning is missing.
    let notes: Vec<u32> = class.outcomes.notes.keys().copied().collect();
    assert_eq!(notes, [3, 6]);
}

fn report_drives(seen: &Seen) {
    println!(
        "{} drives by mode and stream {:?}, {} of them empty runs, {} begun inside a packet",
        seen.drives, seen.lines, seen.empty_runs, seen.begun_inside
    );
    println!(
        "{} PDUs received, by altered bytes {:?}, {} lost, in a row {:?}",
        seen.received, seen.altered, seen.lost, seen.in_a_row
    );
    println!(
        "two lost of a one-bit sequence {}; the sequence fits again {}, the number too {}, of \
         another packet {}",
        seen.two_of_one_bit, seen.sequence_fits, seen.number_fits, seen.another_packet
    );
    println!(
        "{} packets, {} of them logged; refused calls by number {:?}",
        seen.packets, seen.logged, seen.refused
    );
}

/// Every mode and stream that bytes can say; refused with 5, a receiver of
/// mode 255, which no call takes.
#[test]
fn opening() {
    let mut opened = 0;
    for mode in 0..=255 {
        for stream in 0..=255 {
            let answer = receiver::open(mode, stream);
            if let Ok(receiver) = answer {
                opened += 1;
                let wanted = Receiver {
                    mode,
                    stream,
                    register: 0,
                    entitled: [true; 8],
                    known: false,
                    sequence: 0,
                    held: 0,
                    number: 0,
                    serviced: false,
                    services: 0,
                    delivered: 0,
                    missing: 0,
                    last: 0,
                };
                assert_eq!(receiver, wanted);
            }
            against_product::open(mode, stream, answer);
        }
    }
    assert_eq!(opened, TABLE.len());
    println!("opening: 65,536 modes and streams, {opened} opened");
}

/// Example (n), the most words that a call can write, and two PDUs lost.
#[test]
fn examples() {
    let mut class = Class::new("examples", 0x4EC0_0014);
    let mode_0 = TABLE[0];
    let mut sample = with_lengths(&mut class.rng, mode_0, 0, &[4]);
    sample.parts.pieces[0].bytes = vec![0x11, 0x22, 0x33, 0x44];
    let word = &mut sample.parts.control;
    (word.pfirst, word.plast, word.start) = (false, false, 5);
    let mut reception = Reception::of(&mut class.rng, sample);
    reception.forget();
    reception.hold(&mut class.rng, Held::Nothing);
    let words = reception.wanted().words;
    assert_eq!(words, [0x0005_0004, 0x4311_2233, 0x4144_0000]);
    take(&mut class, &reception);
    let lengths = [vec![1], vec![325; 61], vec![450]].concat();
    let mut sample = with_lengths(&mut class.rng, mode_0, 1, &lengths);
    sample.length = LONGEST;
    let word = &mut sample.parts.control;
    (word.pfirst, word.plast) = (true, false);
    assert_eq!(word.la, 140);
    let mut reception = Reception::of(&mut class.rng, sample);
    reception.know_the_one_before();
    reception.hold(&mut class.rng, Held::Fitting(4_095));
    assert_eq!(reception.wanted().words.len(), 8_230);
    for log in [8_230, 8_400] {
        reception.log = Some(log);
        take(&mut class, &reception);
    }
    reception.log = Some(8_229);
    let known = Known::Only(ReceiverCause::LogTooShort);
    refuse(&mut class, &reception, &known);
    class.report(&mut Outcomes::default());
}
