//! Compares the product's lists of pieces with the reference on PDUs of all
//! modes and streams with wrong CRCs, in lists of several lengths. Which CRCs
//! are wrong is known from how a PDU was made. Lists of other PDUs, refused
//! ones among them, are compared where these are read.

#[allow(dead_code)]
mod comparison;
mod lent;
mod lists;
mod product;
#[allow(dead_code)]
mod samples;

use comparison::{Class, Outcomes};
use lent::Lent;
use referee::control::MOST_PIECES;
use referee::header::PLACES;
use referee::modes::TABLE;
use referee::refusal;
use referee::rng::Rng;
use samples::{Sample, Wish};

/// A random PDU with so many pieces, all CRCs right.
fn right(rng: &mut Rng, case: usize, nop: usize) -> Sample {
    let wish = Wish {
        line: Some(TABLE[case % TABLE.len()]),
        nop: Some(nop),
        ..Wish::default()
    };
    let mut sample = Sample::new(rng, &wish);
    for piece in &mut sample.parts.pieces {
        piece.crc_error = 0;
    }
    sample
}

/// The sample's PDU.
fn lend(class: &mut Class, sample: &Sample) -> Lent {
    let mut lent = Lent::random(&mut class.rng, sample.length);
    let pdu = sample.encode(lent.bytes());
    lent.bytes_mut().copy_from_slice(&pdu);
    lent
}

/// Compares lists of this PDU, at times with up to four bytes of the header
/// altered, and the verdicts with those that are known.
fn check(class: &mut Class, mut lent: Lent, known: &[bool]) {
    let altered = [0, class.rng.below(5)][class.rng.below(2)];
    class.alter(&mut lent, altered);
    assert_eq!(class.compare_lists(&lent), known);
}

/// Compares on a sample, of which the CRCs are wrong or right as it says.
fn check_sample(class: &mut Class, sample: &Sample) {
    let pieces = &sample.parts.pieces;
    let known: Vec<bool> = pieces.iter().map(|piece| piece.crc_error == 0).collect();
    let lent = lend(class, sample);
    check(class, lent, &known);
}

/// Each number of pieces in each mode and stream, all right and all wrong.
fn all_or_none(total: &mut Outcomes) {
    let mut class = Class::new("all CRCs right, all wrong", 0x1157_0001);
    for case in 0..TABLE.len() {
        for nop in 0..=MOST_PIECES {
            let mut sample = right(&mut class.rng, case, nop);
            check_sample(&mut class, &sample);
            for piece in &mut sample.parts.pieces {
                piece.crc_error = class.rng.nonzero_byte();
            }
            check_sample(&mut class, &sample);
        }
    }
    class.report(total);
}

/// Each piece of each number of pieces in each mode and stream alone.
fn one_of_all(total: &mut Outcomes) {
    let mut class = Class::new("one CRC wrong", 0x1157_0002);
    for case in 0..TABLE.len() {
        for nop in 1..=MOST_PIECES {
            let sample = right(&mut class.rng, case, nop);
            for k in 0..nop {
                let mut sample = sample.clone();
                let one_bit = 1 << class.rng.below(8);
                sample.parts.pieces[k].crc_error =
                    [one_bit, class.rng.nonzero_byte()][class.rng.below(2)];
                check_sample(&mut class, &sample);
            }
        }
    }
    class.report(total);
}

/// Any of the pieces.
fn some(total: &mut Outcomes) {
    let mut class = Class::new("some CRCs wrong", 0x1157_0003);
    for case in 0..3_000 {
        let nop = class.rng.within(0, MOST_PIECES);
        let mut sample = right(&mut class.rng, case, nop);
        for piece in &mut sample.parts.pieces {
            if class.rng.below(2) == 0 {
                piece.crc_error = class.rng.nonzero_byte();
            }
        }
        check_sample(&mut class, &sample);
    }
    class.report(total);
}

/// One bit turned behind the header, locators and expansion: in a piece or its
/// CRC, that one is wrong, and otherwise none.
fn turned_bits(total: &mut Outcomes) {
    let mut class = Class::new("one bit turned behind the header", 0x1157_0004);
    for case in 0..3_000 {
        let nop = class.rng.within(0, MOST_PIECES);
        let sample = right(&mut class.rng, case, nop);
        let first = PLACES.max(sample.reading().psd_start);
        if first >= sample.length {
            continue;
        }
        let mut lent = lend(&mut class, &sample);
        let place = class.rng.within(first, sample.length - 1);
        lent.bytes_mut()[place] ^= 1 << class.rng.below(8);
        let known: Vec<bool> = sample
            .parts
            .pieces
            .iter()
            .map(|piece| !(piece.start..=piece.start + piece.bytes.len()).contains(&place))
            .collect();
        check(&mut class, lent, &known);
    }
    class.report(total);
}

/// The classes all together: at least 60,000 lists.
#[test]
fn listing() {
    let mut total = Outcomes::default();
    for class in [all_or_none, one_of_all, some, turned_bits] {
        class(&mut total);
    }
    let lists = &total.lists;
    lists.report();
    assert!(lists.calls >= 60_000);
    assert_eq!(
        lists.taken + lists.refused_with(refusal::LOG),
        lists.calls,
        "no other refusal"
    );
    assert!(lists.refused_with(refusal::LOG) >= 20_000);
    assert!(lists.verdicts.values().all(|&entries| entries >= 50_000));
    assert!(lists.looks.values().all(|&calls| calls >= 20));
}
