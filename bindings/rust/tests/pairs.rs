//! Two copies of a PDU (document 02, Ask 5): the better one, and both received in one
//! call.

use barzhilup::{
    choose, crc8, read, write_parity, Cause, Entry, Mode, Receiver, Refusal, Settings, Stream,
    Writer,
};

mod common;
use common::{Random, Row, TABLE};

/// PDUs of one writer.
fn sent(random: &mut Random, row: Row, count: usize) -> Vec<Vec<u8>> {
    let mut writer = Writer::open(row.mode, row.stream).unwrap();
    let packets = random.packets(4 * count, 150);
    let (mut pdus, mut ended) = (Vec::new(), 0);
    for _ in 0..count {
        let mut pdu = vec![0; 96 + random.below(400)];
        let offered = &packets[ended..];
        ended += writer
            .write(&Settings::default(), b"", offered, &mut pdu)
            .unwrap();
        pdus.push(pdu);
    }
    pdus
}

/// A right PDU of mode 0, core: two pieces of one byte, at 18 and 20, in 96 bytes.
fn two_pieces(one: u8, other: u8) -> Vec<u8> {
    let mut pdu = vec![0; 96];
    pdu[12..22].copy_from_slice(&[
        4,
        17,
        19,
        0,
        21,
        0,
        one,
        crc8(&[one]),
        other,
        crc8(&[other]),
    ]);
    write_parity(&mut pdu).unwrap();
    pdu
}

/// The PDU with a byte of its header another one, and the parity of that.
fn with(pdu: &[u8], place: usize, byte: u8) -> Vec<u8> {
    let mut pdu = pdu.to_vec();
    pdu[place] = byte;
    write_parity(&mut pdu).unwrap();
    pdu
}

/// The PDU with a header that can't be corrected: five bytes altered, which leaves
/// no code word within four.
fn beyond(pdu: &[u8]) -> Vec<u8> {
    let mut pdu = pdu.to_vec();
    for place in [1, 20, 40, 60, 80] {
        pdu[place] ^= 0x5A;
    }
    assert_eq!(
        barzhilup::correct_header(&mut pdu.clone()),
        Err(Refusal::Uncorrectable)
    );
    pdu
}

fn core() -> Receiver {
    Receiver::open(Mode::M0, Stream::Core).unwrap()
}

/// The copy with so many bytes of its header altered, if it can be corrected.
fn altered(random: &mut Random, copy: &[u8], count: usize) -> Vec<u8> {
    let mut altered = copy.to_vec();
    if barzhilup::correct_header(&mut copy.to_vec()).is_ok() {
        random.alter(&mut altered, count);
    }
    altered
}

/// Receives the pair, which is refused so, with one to four bytes altered in each
/// header that can be corrected; nothing has changed.
fn refused(first: &[u8], second: &[u8]) -> Refusal {
    let mut random = Random::new(0x9A3);
    let refusals = [1, 2, 3, 4].map(|count| {
        let mut receiver = core();
        let lent = [first, second].map(|copy| altered(&mut random, copy, count));
        let [mut one, mut other] = lent.clone();
        let refusal = receiver.receive_pair(&mut one, &mut other).unwrap_err();
        assert_eq!([one, other], lent);
        assert_eq!(receiver, core());
        refusal
    });
    assert_eq!(refusals, [refusals[0]; 4]);
    refusals[0]
}

#[test]
fn the_better_copy() {
    let mut random = Random::new(0x9A1);
    for one in 0..=4 {
        for other in 0..=4 {
            for _ in 0..50 {
                let mut first = two_pieces(1, 2);
                let mut second = vec![0; 96 + random.below(300)];
                random.alter(&mut first, one);
                random.alter(&mut second, other);
                let before = (first.clone(), second.clone());
                let chosen = choose(&first, &second);
                let wanted = if other < one { &second } else { &first };
                assert_eq!(chosen.as_ptr_range(), wanted.as_ptr_range());
                assert_eq!((first, second), before);
            }
        }
    }
}

#[test]
fn copies_that_can_not_be_corrected() {
    let right = two_pieces(1, 2);
    let wrong = [
        beyond(&right),
        right[..95].to_vec(),
        vec![0; 20_481],
        vec![],
    ];
    for one in &wrong {
        assert_eq!(choose(one, &right).as_ptr(), right.as_ptr());
        assert_eq!(choose(&right, one).as_ptr_range(), right.as_ptr_range());
        for other in &wrong {
            let chosen = choose(one, other);
            assert_eq!((chosen.as_ptr(), chosen.len()), (one.as_ptr(), 0));
            assert_eq!(refused(one, other), Refusal::Uncorrectable);
        }
    }
}

/// Every piece is damaged in one copy or in none: the log of the PDUs as sent.
#[test]
fn drives() {
    let mut random = Random::new(0x9A2);
    for row in TABLE {
        for _ in 0..20 {
            let mut receiver = Receiver::open(row.mode, row.stream).unwrap();
            let mut beside = receiver.clone();
            for pdu in sent(&mut random, row, 10) {
                let mut copies = [pdu.clone(), pdu.clone()];
                for piece in read(&mut pdu.clone()).unwrap().pieces {
                    if piece.start >= 96 && random.below(3) > 0 {
                        let place = piece.start + random.below(piece.len());
                        copies[random.below(2)][place] ^= 0x11; // its CRC is wrong now
                    }
                }
                let left = copies.clone();
                for copy in &mut copies {
                    let altered = random.below(5);
                    random.alter(copy, altered);
                }
                let [first, second] = &mut copies;
                let words = receiver
                    .receive_pair(first, second)
                    .unwrap()
                    .words()
                    .to_vec();
                assert_eq!(copies, left);
                assert_eq!(beside.receive(&mut pdu.clone()).unwrap().words(), words);
                assert_eq!(receiver, beside);
            }
        }
    }
}

/// One copy alone, whichever can be corrected.
#[test]
fn alone() {
    let pdu = two_pieces(1, 2);
    let mut alone = core();
    let words = alone.receive(&mut pdu.clone()).unwrap().words().to_vec();
    for gone in [beyond(&pdu), pdu[..95].to_vec(), vec![]] {
        for first_gone in [false, true] {
            let (mut receiver, mut copy, mut lost) = (core(), pdu.clone(), gone.clone());
            copy[9] ^= 1;
            let log = match first_gone {
                true => receiver.receive_pair(&mut lost, &mut copy),
                false => receiver.receive_pair(&mut copy, &mut lost),
            };
            assert_eq!(log.unwrap().words(), words);
            assert_eq!(receiver, alone);
            assert_eq!((&copy, &lost), (&pdu, &gone));
        }
    }
}

#[test]
fn note_7() {
    let mut receiver = core();
    let log = receiver
        .receive_pair(&mut two_pieces(1, 2), &mut two_pieces(1, 3))
        .unwrap();
    let entries: Vec<Entry> = log.entries().collect();
    assert!(matches!(entries[0], Entry::Packet { number: 0, .. }));
    let note = Entry::Note {
        cause: Cause::CopiesDiffer,
        piece: Some(1),
    };
    assert_eq!(entries[1..], [note]);
    assert_eq!(Cause::CopiesDiffer.number(), 7);
    assert_eq!(log.words()[2], 0xC007_0001);
    // Wrong in both, and equal: note 2.
    let mut wrong = with(&two_pieces(1, 2), 21, 0);
    let log = receiver.receive_pair(&mut wrong.clone(), &mut wrong);
    let log = log.unwrap().words().to_vec();
    assert_eq!(*log.last().unwrap(), 0xC002_0001);
}

#[test]
fn n20_pair() {
    let pdu = two_pieces(1, 2);
    let longer = [&pdu[..], &[0]].concat();
    for other in [longer, with(&pdu, 9, 8), with(&pdu, 10, 1)] {
        assert_eq!(refused(&pdu, &other), Refusal::Pair);
        assert_eq!(refused(&other, &pdu), Refusal::Pair);
    }
    assert_eq!(Refusal::Pair.number(), 20);
    assert!(Refusal::Pair.to_string().starts_with("refusal 20: "));
    // A byte after La may differ.
    let mut other = with(&pdu, 95, 8);
    assert!(core().receive_pair(&mut pdu.clone(), &mut other).is_ok());
}

/// The least number over the copies that can be corrected.
#[test]
fn least_number() {
    let pdu = two_pieces(1, 2);
    let other_mode = with(&pdu, 8, 1);
    let sequence = with(&pdu, 9, 1);
    let first_wrong = with(&pdu, 14, 200);
    let second_wrong = with(&pdu, 16, 200);
    let locator = |k| Refusal::Locator { k };
    for (one, other, refusal) in [
        (&other_mode, &pdu, Refusal::OtherMode),
        (&sequence, &pdu, Refusal::Sequence),
        (&sequence, &other_mode, Refusal::OtherMode),
        (&second_wrong, &sequence, Refusal::Sequence),
        (&second_wrong, &beyond(&pdu), locator(1)),
        (&second_wrong, &first_wrong, locator(0)),
        (&second_wrong, &pdu, locator(1)),
    ] {
        assert_eq!(refused(one, other), refusal);
        assert_eq!(refused(other, one), refusal);
    }
}
