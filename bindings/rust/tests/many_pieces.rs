//! Up to 63 pieces in a PDU (document 02, Ask 9): as many as a writer places at
//! most, one more that waits, and PDUs with that many read, listed and received.

use barzhilup::{
    list_pieces, read, Entry, Piece, Receiver, Refusal, Settings, Writer, CRC_START, PIECES_MAX,
};

mod common;
use common::{Random, Row, TABLE};

/// La with so many pieces and bytes of PSD.
fn la(row: Row, pieces: usize, psd: usize) -> usize {
    13 + (pieces * row.locator_bits).div_ceil(8) + psd
}

/// The largest count up to 63 for which La is at most 255.
fn limit(row: Row, psd: usize) -> usize {
    (0..=PIECES_MAX)
        .rev()
        .find(|&pieces| la(row, pieces, psd) <= 255)
        .unwrap()
}

/// Writes one PDU of so many packets of a byte; answers the packets, the PDU and
/// how many ended.
fn write(row: Row, psd: usize, offered: usize, length: usize) -> (Vec<[u8; 1]>, Vec<u8>, usize) {
    let packets: Vec<[u8; 1]> = (0..offered).map(|k| [k as u8 ^ 0x5A]).collect();
    let mut pdu = vec![0xEE; length];
    let mut writer = Writer::open(row.mode, row.stream).unwrap();
    let ended = writer
        .write(&Settings::default(), &vec![3; psd], &packets, &mut pdu)
        .unwrap();
    assert_eq!(usize::from(writer.state().number), ended % 64);
    assert_eq!(writer.state().sent, 0);
    (packets, pdu, ended)
}

#[test]
fn limits() {
    let wide = [0, 116, 117, 118, 127, 128].map(|psd| limit(TABLE[0], psd));
    assert_eq!(wide, [63, 63, 62, 62, 57, 57]);
    assert_eq!(limit(TABLE[7], 128), 63);
}

/// Each length of PSD in each mode and stream: at the limit, and one past it.
#[test]
fn at_the_limit_and_one_past_it() {
    let mut random = Random::new(63);
    for row in TABLE {
        for psd in 0..=row.psd {
            let most = limit(row, psd);
            let near = la(row, most, psd) + 1 + 2 * most;
            for (offered, length, placed) in [
                (most, near, most),
                (most + 1, near, most),
                (most + 1, near + 60, most),
                (70, 4_096, most),
                (most, near - 1, most - 1),
            ] {
                let (packets, mut pdu, ended) = write(row, psd, offered, length);
                assert_eq!(ended, placed, "{row:?}, {psd}, {offered}, {length}");
                let count = random.below(5);
                random.alter(&mut pdu, count);
                let reading = read(&mut pdu).unwrap();
                assert_eq!(usize::from(reading.control.nop), placed);
                assert_eq!(usize::from(reading.control.la), la(row, placed, psd));
                let pieces = reading.pieces.iter().map(|piece| &pdu[piece.clone()]);
                assert!(pieces.eq(packets[..placed].iter().map(|packet| &packet[..])));
            }
        }
    }
}

/// Every count of pieces, received and listed; a list of one entry fewer is
/// refused.
#[test]
fn every_count() {
    for row in TABLE {
        for count in 0..=PIECES_MAX {
            let (packets, mut pdu, ended) = write(row, 0, count, 400);
            assert_eq!(ended, count);
            let mut receiver = Receiver::open(row.mode, row.stream).unwrap();
            let log = receiver.receive(&mut pdu).unwrap();
            let received: Vec<(u8, Vec<u8>)> = log
                .entries()
                .map(|entry| match entry {
                    Entry::Packet { number, data } => (number, data.to_vec()),
                    other => panic!("{other:?}"),
                })
                .collect();
            let sent = packets.iter().enumerate();
            assert!(received
                .into_iter()
                .eq(sent.map(|(k, byte)| (k as u8, byte.to_vec()))));
            let mut list = [Piece::default(); PIECES_MAX];
            let reading = list_pieces(&mut pdu, CRC_START, &mut list).unwrap();
            assert_eq!(reading.pieces.len(), count);
            assert!(list[..count].iter().all(|piece| piece.right));
            assert_eq!(list[count..], vec![Piece::default(); PIECES_MAX - count]);
            if let Some(short) = count.checked_sub(1) {
                let refused = list_pieces(&mut pdu, CRC_START, &mut list[..short]);
                assert_eq!(refused, Err(Refusal::LogLength));
            }
        }
    }
}

/// A locator past byte 95 is outside the header code: nothing corrects it. One in
/// the header is corrected.
#[test]
fn locators_behind_the_header() {
    let row = TABLE[0];
    let (_, clean, _) = write(row, 0, 63, 400);
    let reading = read(&mut clean.clone()).unwrap();
    for (k, place) in [(40, 94), (41, 96), (62, 138)] {
        let mut pdu = clean.clone();
        pdu[place] -= 1; // a piece of no bytes
        let altered = pdu.clone();
        if place < 96 {
            assert_eq!(read(&mut pdu).as_ref(), Ok(&reading));
            assert_eq!(pdu, clean);
        } else {
            assert_eq!(read(&mut pdu), Err(Refusal::Locator { k }));
            assert_eq!(pdu, altered);
        }
    }
}
