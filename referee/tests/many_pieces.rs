//! Compares the product with the reference where a PDU has up to 63 pieces
//! (document 02, Ask 9). "The count limit becomes the largest k up to 63 for
//! which La is at most 255": writing with each length of PSD and expansion, at
//! the limit and one past it. "The reader takes any count. Number 8 now concerns
//! the two flags only": reading, listing and receiving every count in every mode
//! and stream, and counts whose locators the PDU is too short for, which are 9. "Locators
//! past byte 95 are outside the header code": they are taken as they come.
//! "Bytes from 96 on arrive as sent": whole drives with PDUs lost and headers
//! altered. What a call has to answer is told from how it was made, what a drive
//! has to log from the writing calls.

#[allow(dead_code)]
mod attempt;
#[allow(dead_code)]
mod calls;
mod chains;
#[allow(dead_code)]
mod comparison;
mod drives;
mod lent;
#[allow(dead_code)]
mod lists;
mod noise;
mod product;
mod readback;
#[allow(dead_code)]
mod receptions;
#[allow(dead_code)]
mod samples;
#[allow(dead_code)]
mod spoiling;
mod told;
#[allow(dead_code)]
mod trial;

use attempt::Known;
use calls::Call;
use chains::Chain;
use drives::Seen;
use lent::Lent;
use noise::Noise;
use receptions::{some_line, spoil, Reception, NUMBERS};
use referee::control::{ControlWord, MOST_PIECES};
use referee::encode::{Field, Parts};
use referee::header::PLACES;
use referee::locators;
use referee::modes::{Line, TABLE};
use referee::refusal::{self, Cause, ReceiverCause};
use referee::rng::Rng;
use referee::settings::{Applied, ProgramType, Settings};
use samples::{field, Sample, Wish};
use std::collections::BTreeMap;
use std::ops::RangeInclusive;

/// The counts past those at which all locators of 16 bits lie in the header.
const MANY: RangeInclusive<usize> = 42..=MOST_PIECES;

/// Which lengths of PSD and expansion together came, by the bits of a locator,
/// with what came of each.
type ByBits = BTreeMap<usize, BTreeMap<usize, u64>>;

fn count(counts: &mut ByBits, bits: usize, key: usize) {
    *counts.entry(bits).or_default().entry(key).or_default() += 1;
}

// Writing.

/// Settings with every set of expansion fields that a writer may send: ten sizes
/// from 0 to 10, all but 2.
fn each_expansion(rng: &mut Rng) -> Vec<Settings> {
    let mut all = Vec::new();
    for set in 0..20 {
        let classed = set >= 16;
        let asked = |bit: u32| (set >> bit) & 1 != 0;
        let nonzero = rng.within(1, 7) as u8;
        let program = match classed {
            true => Some(nonzero),
            false => asked(2).then_some(nonzero),
        };
        let typed = classed || asked(3);
        all.push(Settings {
            class_code: classed.then_some(1),
            program,
            displaced: asked(0),
            program_type: typed.then(|| ProgramType {
                access: u8::from(classed),
                code: rng.byte(),
            }),
            applied: asked(1).then(|| Applied {
                services: u8::from(classed) & rng.byte(),
                marker: rng.below(1 << 21) as u32,
            }),
            ..Settings::default()
        });
    }
    all
}

/// What is offered for a PDU of a length, and what has to come of it.
struct Edge {
    lengths: Vec<u16>,
    /// Bytes of the first packet that are sent already.
    sent: u16,
    length: usize,
    pieces: usize,
    ended: usize,
    plast: bool,
}

/// Packets of a byte around the limit, in PDUs in which just as many as the limit
/// find room, with a byte less, and with more room.
fn edges(limit: usize, near: usize) -> Vec<Edge> {
    let whole = |offered: usize, length: usize, pieces: usize| Edge {
        lengths: vec![1; offered],
        sent: 0,
        length,
        pieces,
        ended: pieces,
        plast: false,
    };
    let mut edges = vec![
        whole(limit, near, limit),
        whole(limit, near + 60, limit),
        // One past the limit: it waits, also where there is room.
        whole(limit + 1, near, limit),
        whole(limit + 1, near + 1, limit),
        whole(limit + 1, near + 4, limit),
        whole(limit + 1, near + 60, limit),
        whole(70, near + 200, limit),
        // No room for the last one, and one under the limit.
        whole(limit, near - 1, limit - 1),
        whole(limit + 1, near - 1, limit - 1),
        whole(limit - 1, near, limit - 1),
    ];
    // The last that may be placed is cut; the next one waits.
    for more in [0, 3] {
        let mut cut = whole(limit + 1, near + more, limit);
        cut.lengths[limit - 1] = 9;
        edges.push(Edge {
            ended: limit - 1,
            plast: true,
            ..cut
        });
    }
    // The first continues a packet, and ends it.
    let mut continued = whole(limit + 1, near + 30, limit);
    continued.lengths[0] = 5;
    edges.push(Edge {
        sent: 4,
        ..continued
    });
    edges
}

/// Makes the call of an edge and compares; what the PDU says has to be so.
fn check_edge(class: &mut trial::Class, line: Line, settings: Settings, psd: usize, edge: Edge) {
    let wish = calls::Wish {
        line: Some(line),
        register: Some(class.rng.byte()),
        length: Some(edge.length),
        settings: Some(settings),
        psd: Some(psd),
        lengths: Some(edge.lengths),
        sent: Some(edge.sent),
    };
    let call = class.call(&wish);
    let tried = class.check(&call, trial::Known::Taken);
    let word = tried.reading.expect("an accepted call").control;
    assert_eq!(usize::from(word.nop), edge.pieces);
    assert_eq!(tried.answer.ended, edge.ended);
    assert_eq!((word.pfirst, word.plast), (edge.sent > 0, edge.plast));
    let la = 13 + calls::locator_bytes(&line, edge.pieces) + call.psd_and_expansion();
    assert_eq!(usize::from(word.la), la);
}

/// Each length of PSD with each expansion in each mode and stream, at the limit
/// and one past it.
fn each_limit(total: &mut trial::Outcomes) {
    let mut class = trial::Class::new("each PSD and expansion at the limit", 0x63_0001);
    let mut lengths = ByBits::new();
    let mut limits = ByBits::new();
    for line in TABLE {
        for settings in each_expansion(&mut class.rng) {
            let expansion = calls::expansion_size(&settings);
            let most = calls::most_psd(&line, &settings, calls::longest(&line));
            for psd in 0..=most {
                let both = psd + expansion;
                let limit = calls::count_limit(&line, both);
                let near = 14 + calls::locator_bytes(&line, limit) + both + 2 * limit;
                for edge in edges(limit, near) {
                    count(&mut lengths, line.locator_bits, both);
                    count(&mut limits, line.locator_bits, limit);
                    check_edge(&mut class, line, settings, psd, edge);
                }
            }
        }
    }
    class.report(total);
    println!("calls by bits of a locator and limit: {limits:?}");
    let rarest = |bits: usize| lengths[&bits].values().min().copied();
    println!(
        "lengths of PSD and expansion together: 16 bits {}, the rarest {:?} times; 12 bits {}, \
         {:?} times",
        lengths[&16].len(),
        rarest(16),
        lengths[&12].len(),
        rarest(12)
    );
    assert!(lengths
        .values()
        .all(|lengths| lengths.keys().copied().eq(0..=128)));
    assert!(limits[&16].keys().copied().eq(57..=63));
    assert!(limits[&12].keys().copied().eq([63]));
}

/// 64 to 80 packets of any length in PDUs around where some of them just
/// fit.
fn many_packets(total: &mut trial::Outcomes) {
    let mut class = trial::Class::new("64 to 80 packets", 0x63_0002);
    for case in 0..2_500 {
        let line = TABLE[case % TABLE.len()];
        let mut call = some_many(&mut class.rng, line);
        let limit = calls::count_limit(&line, call.psd_and_expansion());
        let whole = [limit, limit - 1, class.rng.within(40, limit)][class.rng.below(3)];
        let bytes = calls::sum(&call.lengths[..whole]) - usize::from(call.writer.sent);
        let before = 14 + calls::locator_bytes(&line, whole) + call.psd_and_expansion();
        let near = before + bytes + whole;
        for length in near - 2..near + 6 {
            if length <= calls::longest(&line) {
                call.length = length;
                class.check(&call, trial::Known::Taken);
            }
        }
    }
    class.report(total);
}

/// A call that offers 64 to 80 packets, with any settings and PSD.
fn some_many(rng: &mut Rng, line: Line) -> Call {
    let longest = [1, 2, 5, 40][rng.below(4)];
    let count = rng.within(64, 80);
    let lengths: Vec<u16> = (0..count)
        .map(|_| calls::some_packet(rng, longest))
        .collect();
    let wish = calls::Wish {
        line: Some(line),
        register: Some(rng.byte()),
        length: Some(600),
        lengths: Some(lengths),
        ..calls::Wish::default()
    };
    Call::new(rng, &wish)
}

/// Chains of calls that send hundreds of short packets.
fn short_packets(total: &mut trial::Outcomes) {
    let mut class = trial::Class::new("chains of short packets", 0x63_0003);
    for line in TABLE {
        for style in [2, 3] {
            for _ in 0..30 {
                let register = class.rng.byte();
                Chain::new(&mut class.rng, line, chains::STYLES[style], register).run(&mut class);
            }
        }
    }
    class.report(total);
}

/// The writing classes all together: at least 100,000 calls.
#[test]
fn writing() {
    let mut total = trial::Outcomes::default();
    for class in [each_limit, many_packets, short_packets] {
        class(&mut total);
    }
    println!(
        "in all {} writing calls, {} accepted",
        total.calls, total.taken
    );
    println!("accepted by mode and stream: {:?}", total.lines);
    assert_eq!(total.lines.len(), TABLE.len());
    println!("accepted by what the PDU looks like: {:?}", total.looks);
    for look in [
        "42 pieces of 16 bits or more",
        "55 pieces of 12 bits or more",
        "63 pieces of 16 bits",
        "63 pieces of 12 bits",
        "limit under 63",
        "limit, more offered",
        "limit, Plast",
    ] {
        assert!(total.looks[look] >= 1_000, "{look}");
    }
    assert!(total.taken >= 100_000);
}

// Reading.

/// A wish for this count of pieces in this mode and stream.
fn wish(line: Line, nop: usize) -> Wish {
    Wish {
        line: Some(line),
        nop: Some(nop),
        ..Wish::default()
    }
}

/// Every count of pieces in each mode and stream.
fn every_count(total: &mut comparison::Outcomes) {
    let mut class = comparison::Class::new("every count of pieces", 0x63_0011);
    for line in TABLE {
        for nop in 0..=MOST_PIECES {
            for _ in 0..80 {
                let sample = class.sample(&wish(line, nop));
                class.check_taken(&sample);
            }
        }
    }
    class.report(total);
    assert_eq!(class.outcomes.taken, class.outcomes.cases);
}

/// The two flags with every count: number 8 without pieces only.
fn flags(total: &mut comparison::Outcomes) {
    use comparison::Known;
    let mut class = comparison::Class::new("the two flags with every count", 0x63_0012);
    for line in TABLE {
        for nop in 0..=MOST_PIECES {
            for case in 0..4 * 6 {
                let mut sample = class.sample(&wish(line, nop));
                let word = &mut sample.parts.control;
                (word.pfirst, word.plast) = (case & 1 != 0, case & 2 != 0);
                match (nop, word.pfirst, word.plast) {
                    (0, true, true) => class.check(&sample, Known::Number(refusal::PIECES)),
                    (0, true, _) => class.check(&sample, Known::Only(Cause::PfirstWithoutPieces)),
                    (0, _, true) => class.check(&sample, Known::Only(Cause::PlastWithoutPieces)),
                    _ => class.check_taken(&sample),
                }
            }
        }
    }
    class.report(total);
    // Three of four cases without pieces.
    let refused = class.outcomes.refused_with(refusal::PIECES);
    assert_eq!(refused, TABLE.len() as u64 * 18);
    assert_eq!(class.outcomes.taken + refused, class.outcomes.cases);
}

/// Forty-two pieces and more that something else is wrong with: 9 to 12, each for
/// one cause alone.
fn judged(total: &mut comparison::Outcomes) {
    let mut class = comparison::Class::new("42 pieces or more, refused", 0x63_0013);
    for line in TABLE {
        for nop in MANY {
            for case in 0..5 * 22 {
                check_judged(&mut class, line, nop, case % 5);
            }
        }
    }
    class.report(total);
    assert_eq!(class.outcomes.taken, 0);
    assert_eq!(class.outcomes.refused_with(refusal::PIECES), 0);
}

/// A PDU with so many pieces and this kind of cause.
fn check_judged(class: &mut comparison::Class, line: Line, nop: usize, kind: usize) {
    use comparison::Known;
    let fields = match kind {
        2 => vec![Field::Class(0)],
        4 => vec![field(&mut class.rng, 1, true)],
        _ => Vec::new(),
    };
    let wish = Wish {
        fields: Some(fields),
        psd: Some(class.rng.below(9)),
        length: Some(class.rng.within(PLACES, 900)),
        ..wish(line, nop)
    };
    let mut sample = class.sample(&wish);
    let last = sample.last_locator_byte();
    match kind {
        0 => {
            sample.parts.control.la = [last - 1, class.rng.below(last)][class.rng.below(2)] as u8;
            class.check(&sample, Known::Only(Cause::LaBeforeLastLocatorByte));
        }
        1 => {
            // Cut, and La not below the length; nor is any locator then.
            sample.length = class.rng.within(PLACES, 255);
            sample.parts.control.la = class.rng.within(sample.length, 255) as u8;
            class.check(&sample, Known::Number(refusal::LA));
        }
        2 => class.check(&sample, Known::Only(Cause::ClassZero)),
        3 => {
            let la = usize::from(sample.parts.control.la);
            let k = [nop - 1, class.rng.below(nop)][class.rng.below(2)];
            let start = locators::starts(la, &sample.parts.locators)[k];
            sample.parts.locators[k] = [start, class.rng.below(start)][class.rng.below(2)];
            class.check(&sample, Known::Only(Cause::LocatorUnderStart(k)));
        }
        _ => {
            sample.set_displacement(sample.end() - 1);
            class.check(&sample, Known::Only(Cause::DisplacementBeforeEnd));
        }
    }
}

/// A PDU of any bytes with so many pieces, a flag for expansion, and La.
fn any_bytes(rng: &mut Rng, line: Line, nop: usize, la: usize, length: usize) -> Lent {
    let parts = Parts {
        control: ControlWord {
            mode: line.mode,
            stream: line.stream,
            sequence: rng.below(usize::from(line.sequences)) as u8,
            pfirst: rng.below(2) == 0,
            plast: rng.below(2) == 0,
            start: rng.below(64) as u8,
            nop: nop as u8,
            expansion: rng.below(2) == 0,
            la: la as u8,
            ..ControlWord::default()
        },
        ..Parts::default()
    };
    let mut lent = Lent::random(rng, length);
    parts.encode(lent.bytes_mut());
    lent
}

/// PDUs that end before their last locator byte: 9, whatever La is and whatever
/// else they hold. With NOP 63 in 96 bytes every La is tried.
fn too_short(total: &mut comparison::Outcomes) {
    use comparison::Known;
    let mut class = comparison::Class::new("PDUs too short for their locators", 0x63_0014);
    let mut sixty_three = 0;
    for line in TABLE {
        for la in 0..=255 {
            for _ in 0..4 {
                let mut lent = any_bytes(&mut class.rng, line, MOST_PIECES, la, PLACES);
                let altered = class.rng.below(5);
                class.alter(&mut lent, altered);
                class.compare(&lent, Known::Number(refusal::LA));
                sixty_three += 1;
            }
        }
        for nop in MANY {
            let last = locators::last_byte(line.locator_bits, nop);
            for length in PLACES..=last {
                let anywhere = class.rng.below(256);
                for la in [13, length - 1, length, last - 1, last, 255, anywhere] {
                    let lent = any_bytes(&mut class.rng, line, nop, la, length);
                    class.compare(&lent, Known::Number(refusal::LA));
                }
            }
        }
    }
    class.report(total);
    println!("NOP 63 in 96 bytes: {sixty_three} PDUs, all refused with 9");
    assert_eq!(
        class.outcomes.refused_with(refusal::LA),
        class.outcomes.cases
    );
}

/// PDUs that end with their last locator byte, La there: no piece has room, and
/// the first locator is wrong.
fn just_the_locators(total: &mut comparison::Outcomes) {
    use comparison::Known;
    let mut class = comparison::Class::new("PDUs that end with their locators", 0x63_0015);
    for line in TABLE {
        for nop in MANY {
            let last = locators::last_byte(line.locator_bits, nop);
            for _ in 0..if last < PLACES { 0 } else { 12 } {
                let mut lent = any_bytes(&mut class.rng, line, nop, last, last + 1);
                // Without the flag, which is bit 7 of byte 12.
                lent.bytes_mut()[12] &= 0x7F;
                referee::header::write_parity(lent.bytes_mut()).expect("a right length");
                let answer = class.compare(&lent, Known::Number(refusal::LOCATOR));
                assert_eq!(answer.wrong_locator, 0);
            }
        }
    }
    class.report(total);
}

/// Locators past byte 95 altered, and up to four bytes of the header: these are
/// mended, and the locators behind the header are taken as they came.
fn behind_the_header(total: &mut comparison::Outcomes) {
    let mut class = comparison::Class::new("locators past byte 95 altered", 0x63_0016);
    let mut outcomes = BTreeMap::new();
    for case in 0..12_000 {
        let line = TABLE[case % TABLE.len()];
        let first = if line.locator_bits == 16 { 42 } else { 55 };
        let nop = class.rng.within(first, MOST_PIECES);
        let wish = Wish {
            fields: Some(Vec::new()),
            length: Some(class.rng.within(PLACES, 900)),
            ..wish(line, nop)
        };
        let sample = class.sample(&wish);
        let mut lent = Lent::random(&mut class.rng, sample.length);
        let pdu = sample.encode(lent.bytes());
        lent.bytes_mut().copy_from_slice(&pdu);
        for _ in 0..class.rng.within(1, 2) {
            let place = class.rng.within(PLACES, sample.last_locator_byte());
            let by = [1, 2, 1 << class.rng.below(8), class.rng.nonzero_byte()];
            lent.bytes_mut()[place] ^= by[class.rng.below(4)];
        }
        let came = locators::decode(lent.bytes(), line.locator_bits, nop);
        let altered = class.rng.below(5);
        class.alter(&mut lent, altered);
        let answer = class.compare(&lent, comparison::Known::Nothing);
        let wrong = first_wrong(usize::from(sample.parts.control.la), &came, sample.length);
        let wanted = match wrong {
            Some(k) => (refusal::LOCATOR, k as u32),
            None => (0, 0),
        };
        assert_eq!((answer.refusal, answer.wrong_locator), wanted);
        if wrong.is_none() {
            let ends = (0..nop).map(|k| usize::from(answer.starts[k] + answer.lengths[k]));
            assert!(ends.eq(came));
        }
        *outcomes.entry((answer.refusal, altered)).or_insert(0u64) += 1;
    }
    class.report(total);
    println!("by number and altered bytes of the header: {outcomes:?}");
    let often = |number| (0..=4).all(|altered| outcomes[&(number, altered)] >= 100);
    assert!(often(0) && often(refusal::LOCATOR));
}

/// The first locator that is under its start plus 1, or not below the length.
fn first_wrong(la: usize, locators: &[usize], length: usize) -> Option<usize> {
    let mut before = la;
    for (k, &locator) in locators.iter().enumerate() {
        if locator < before + 2 || locator >= length {
            return Some(k);
        }
        before = locator;
    }
    None
}

/// The reading classes all together: at least 100,000 PDUs.
#[test]
fn reading() {
    let mut total = comparison::Outcomes::default();
    for class in [
        every_count,
        flags,
        judged,
        too_short,
        just_the_locators,
        behind_the_header,
    ] {
        class(&mut total);
    }
    println!("in all {} PDUs read, {} accepted", total.cases, total.taken);
    for number in [8, 9, 10, 11, 12] {
        let cases = total.refused_with(number);
        println!("refused with {number}: {cases}");
        assert!(cases >= 100, "{number}");
    }
    total.lists.report();
    assert!(total.taken >= 50_000);
    assert!(total.cases >= 100_000);
}

// Lists of pieces.

/// Every count of pieces in each mode and stream, in lists of all lengths, one
/// too few among them; some CRCs are wrong. At least 100,000 lists.
#[test]
fn listing() {
    let mut class = comparison::Class::new("lists of every count of pieces", 0x63_0021);
    let mut counts = BTreeMap::new();
    for line in TABLE {
        for case in 0..(MOST_PIECES + 1) * 36 {
            let nop = case % (MOST_PIECES + 1);
            let mut sample = class.sample(&wish(line, nop));
            class.register = class.rng.byte();
            sample.parts.register = class.register;
            let pieces = &sample.parts.pieces;
            let known: Vec<bool> = pieces.iter().map(|piece| piece.crc_error == 0).collect();
            let mut lent = Lent::random(&mut class.rng, sample.length);
            let pdu = sample.encode(lent.bytes());
            lent.bytes_mut().copy_from_slice(&pdu);
            let altered = class.rng.below(5);
            class.alter(&mut lent, altered);
            assert_eq!(class.compare_lists(&lent), known);
            *counts.entry(nop).or_insert(0u64) += 1;
        }
    }
    let mut total = comparison::Outcomes::default();
    class.report(&mut total);
    total.lists.report();
    println!("PDUs listed by count of pieces: {counts:?}");
    assert!(counts.keys().copied().eq(0..=MOST_PIECES));
    assert!(total.lists.refused_with(refusal::LOG) >= 20_000);
    assert!(total.lists.calls >= 100_000);
}

// Receiving.

/// Makes a call that is right, and compares with what it has to answer.
fn take(class: &mut attempt::Class, reception: &Reception) {
    let wanted = reception.wanted();
    let loan = reception.loan(&mut class.rng, wanted.words.len());
    class.receive(reception.receiver, loan, &Known::Taken(wanted));
}

/// Makes a call that has been spoiled.
fn refuse(class: &mut attempt::Class, reception: &Reception, known: &Known) {
    let words = class.rng.below(50);
    let loan = reception.loan(&mut class.rng, words);
    class.receive(reception.receiver, loan, known);
}

/// A right call with so many pieces, from any register, with up to four bytes of
/// the header altered or with marks.
fn some_reception(rng: &mut Rng, line: Line, nop: usize) -> Reception {
    let mut sample = Sample::new(rng, &wish(line, nop));
    sample.parts.register = rng.byte();
    if rng.below(2) == 0 {
        receptions::right_crcs(&mut sample);
    }
    let mut reception = Reception::of(rng, sample);
    if rng.below(4) == 0 {
        reception.noise = Noise::within_bound(rng);
    }
    reception
}

/// Every count of pieces in each mode and stream.
fn every_count_received(total: &mut attempt::Outcomes) {
    let mut class = attempt::Class::new("every count of pieces", 0x63_0031);
    for line in TABLE {
        for nop in 0..=MOST_PIECES {
            for _ in 0..120 {
                let reception = some_reception(&mut class.rng, line, nop);
                take(&mut class, &reception);
            }
        }
    }
    class.report(total);
    assert_eq!(class.outcomes.taken, class.outcomes.calls);
}

/// Forty-two pieces and more in PDUs that are refused, by each number; 8 only
/// where the pieces are taken back and a flag is left.
fn refused(total: &mut attempt::Outcomes) {
    let mut class = attempt::Class::new("42 pieces or more, refused", 0x63_0032);
    for number in NUMBERS {
        for nop in MANY {
            for _ in 0..80 {
                let line = some_line(&mut class.rng, &[number]);
                let wish = Wish {
                    fields: Some(vec![field(&mut class.rng, 1, true)]),
                    psd: Some(class.rng.within(1, 30)),
                    length: Some(class.rng.within(PLACES, 700)),
                    ..wish(line, nop)
                };
                let mut reception = Reception::new(&mut class.rng, &wish);
                spoil(&mut class.rng, &mut reception, number);
                let known = match number {
                    // A header altered in five bytes or more can be near another
                    // code word.
                    refusal::BEYOND_MENDING => Known::Nothing,
                    number => Known::Number(number),
                };
                refuse(&mut class, &reception, &known);
            }
        }
    }
    class.report(total);
}

/// PDUs that end before their last locator byte: 9, and nothing is changed.
fn too_short_received(total: &mut attempt::Outcomes) {
    let mut class = attempt::Class::new("PDUs too short for their locators", 0x63_0033);
    for line in TABLE {
        for nop in MANY {
            let last = locators::last_byte(line.locator_bits, nop);
            for _ in 0..if last < PLACES { 0 } else { 20 } {
                let mut reception = some_reception(&mut class.rng, line, nop);
                reception.noise = Noise::unmarked(class.rng.below(5));
                let la = [last, PLACES - 1, class.rng.below(256)][class.rng.below(3)];
                reception.sample.parts.control.la = la as u8;
                reception.cut = Some([PLACES, class.rng.within(PLACES, last)][class.rng.below(2)]);
                refuse(&mut class, &reception, &Known::Number(refusal::LA));
            }
        }
    }
    class.report(total);
    assert_eq!(class.outcomes.taken, 0);
}

/// Forty-two pieces and more with a log of just as many words as are written, of
/// one more and of one less.
fn logs(total: &mut attempt::Outcomes) {
    let mut class = attempt::Class::new("42 pieces or more, logs", 0x63_0034);
    for line in TABLE {
        for nop in MANY {
            for _ in 0..12 {
                let mut reception = some_reception(&mut class.rng, line, nop);
                let words = reception.wanted().words.len();
                for more in [0, 1] {
                    reception.log = Some(words + more);
                    take(&mut class, &reception);
                }
                reception.log = Some(words - 1);
                let known = Known::Only(ReceiverCause::LogTooShort);
                refuse(&mut class, &reception, &known);
            }
        }
    }
    class.report(total);
}

/// The receiving classes all together: at least 100,000 calls.
#[test]
fn receiving() {
    let mut total = attempt::Outcomes::default();
    for class in [every_count_received, refused, too_short_received, logs] {
        class(&mut total);
    }
    println!("in all {} calls, {} accepted", total.calls, total.taken);
    for number in NUMBERS {
        let calls = total.refused_with(number);
        println!("refused with {number}: {calls}");
        assert!(calls >= 1_000, "{number}");
    }
    for note in 1..=5 {
        let notes = total.notes.get(&note).copied().unwrap_or(0);
        println!("note {note}: {notes}");
        assert!(notes >= 100, "{note}");
    }
    println!("accepted by mode and stream: {:?}", total.lines);
    assert_eq!(total.lines.len(), TABLE.len());
    println!("accepted by what came of it: {:?}", total.looks);
    assert!(total.taken >= 80_000);
    assert!(total.calls >= 100_000);
}

/// The most words that a call can write, 8,230: 4,095 bytes held, 63 pieces in
/// 20,480 bytes. A log of 8,400 suffices (document 01, "Receiver").
#[test]
fn most_words() {
    let mut class = attempt::Class::new("the most words", 0x63_0035);
    let lengths = [vec![1], vec![325; 61], vec![450]].concat();
    let mut sample = receptions::with_lengths(&mut class.rng, TABLE[0], 1, &lengths);
    sample.length = referee::header::LONGEST;
    let word = &mut sample.parts.control;
    (word.pfirst, word.plast) = (true, false);
    let mut reception = Reception::of(&mut class.rng, sample);
    reception.know_the_one_before();
    reception.hold(&mut class.rng, receptions::Held::Fitting(4_095));
    assert_eq!(reception.wanted().words.len(), 8_230);
    for log in [8_230, 8_400] {
        reception.log = Some(log);
        take(&mut class, &reception);
    }
    reception.log = Some(8_229);
    let known = Known::Only(ReceiverCause::LogTooShort);
    refuse(&mut class, &reception, &known);
    class.report(&mut attempt::Outcomes::default());
}

// Drives.

/// Whole drives of short packets: PDUs lost, headers altered in up to four bytes,
/// refused calls in between. The log is what demand 3 says.
#[test]
fn driving() {
    let mut class = attempt::Class::new("drives with many pieces", 0x63_0041);
    let mut seen = Seen::default();
    for case in 0..2_500 {
        let line = TABLE[case % TABLE.len()];
        let style = drives::MANY[case / TABLE.len() % drives::MANY.len()];
        let register = class.rng.byte();
        let list = drives::List::random(&mut class.rng, line, style, register);
        let run = drives::some_run(&mut class.rng, list.pdus.len());
        let lost = drives::some_lost(&mut class.rng, run.len(), usize::from(line.sequences));
        drives::drive(&mut class, &mut seen, &list, run, &lost);
    }
    report_drives(&class, &seen);
    for nop in MANY {
        assert!(seen.pieces[&nop] >= 100 && seen.lost_pieces[&nop] >= 30);
    }
    assert!((0..=4).all(|altered| seen.altered_many[&altered] >= 400));
    assert!((1..=13).all(|number| seen.refused[&number] >= 20));
}

/// The same with marks (document 02, Ask 3).
#[test]
fn runs_with_marks() {
    let mut class = attempt::Class::new("runs with marks and many pieces", 0x63_0042);
    let mut seen = Seen::default();
    for case in 0..600 {
        let line = TABLE[case % TABLE.len()];
        let style = drives::MANY[case / TABLE.len() % drives::MANY.len()];
        let list = drives::List::random(&mut class.rng, line, style, 0);
        let run = drives::some_run(&mut class.rng, list.pdus.len());
        let lost = drives::some_lost(&mut class.rng, run.len(), usize::from(line.sequences));
        drives::run_with_marks(&mut class, &mut seen, &list, run, &lost);
    }
    report_drives(&class, &seen);
    assert!((0..=8).all(|altered| seen.altered_many[&altered] >= 30));
}

fn report_drives(class: &attempt::Class, seen: &Seen) {
    class.report(&mut attempt::Outcomes::default());
    println!(
        "{} drives by mode and stream {:?}; {} PDUs received, {} lost; {} packets, {} of them \
         logged; refused calls by number {:?}; {} calls in place all the way",
        seen.drives,
        seen.lines,
        seen.received,
        seen.lost,
        seen.packets,
        seen.logged,
        seen.refused,
        seen.stepped
    );
    println!("received by count of pieces {:?}", seen.pieces);
    println!("lost by count of pieces {:?}", seen.lost_pieces);
    println!(
        "received with 42 pieces or more by altered bytes of the header {:?}",
        seen.altered_many
    );
    seen.sums.report("drives with many pieces");
    assert_eq!(seen.lines.len(), TABLE.len());
    // Nothing but marks of lost PDUs and pieces whose beginning is missing.
    let notes: Vec<u32> = class.outcomes.notes.keys().copied().collect();
    assert_eq!(notes, [3, 6]);
}
