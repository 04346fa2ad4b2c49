//! CRCs whose register starts at another value than 0 (document 02, Ask 2): known
//! values, every value at opening and in the states that are kept, and PDUs that
//! are written with one value and received and listed with that and with others.

use barzhilup::{
    crc8, crc8_from, list_pieces, read, Cause, Entry, Log, Mode, Piece, Receiver, ReceiverState,
    Refusal, Settings, Stream, Writer, WriterState, CRC_START, CRC_START_OFF_AIR,
};

mod common;
use common::{Random, TABLE};

/// Known pieces, with their CRCs from 0 and from 255.
const KNOWN: [(&[u8], u8, u8); 4] = [
    (&[0x01], 0x31, 0x9D),
    (&[0x80], 0x7A, 0xD6),
    (&[0x01, 0x00], 0xF4, 0x75),
    (b"123456789", 0xA2, 0xF7),
];

/// The known pieces as packets.
fn known() -> Vec<&'static [u8]> {
    KNOWN.iter().map(|&(piece, ..)| piece).collect()
}

/// The known pieces in a PDU of mode 0, core, whose CRCs start at this value.
fn known_pdu(crc_start: u8) -> [u8; 96] {
    let mut writer = Writer::open_with(Mode::M0, Stream::Core, crc_start).unwrap();
    let mut pdu = [0; 96];
    let ended = writer.write(&Settings::default(), b"", &known(), &mut pdu);
    assert_eq!(ended, Ok(4));
    pdu
}

/// A receiver of mode 0, core, whose CRCs start at this value.
fn receiver(crc_start: u8) -> Receiver {
    Receiver::open_with(Mode::M0, Stream::Core, crc_start).unwrap()
}

/// The packets of a log, without their numbers.
fn packets_of(log: Log) -> Vec<Vec<u8>> {
    log.entries()
        .filter_map(|entry| match entry {
            Entry::Packet { data, .. } => Some(data.to_vec()),
            _ => None,
        })
        .collect()
}

/// A wrong CRC noted for each of so many pieces, and nothing else.
fn all_wrong(pieces: u16) -> Vec<Entry<'static>> {
    let note = |k| Entry::Note {
        cause: Cause::Crc,
        piece: Some(k),
    };
    (0..pieces).map(note).collect()
}

#[test]
fn known_crcs() {
    for (piece, from_0, off_air) in KNOWN {
        assert_eq!(crc8(piece), from_0);
        assert_eq!(crc8_from(CRC_START, piece), from_0);
        assert_eq!(crc8_from(CRC_START_OFF_AIR, piece), off_air);
    }
}

#[test]
fn known_crcs_in_a_pdu() {
    for (crc_start, crcs) in [
        (CRC_START, KNOWN.map(|(_, crc, _)| crc)),
        (CRC_START_OFF_AIR, KNOWN.map(|(_, _, crc)| crc)),
    ] {
        let mut pdu = known_pdu(crc_start);
        let pieces = read(&mut pdu).unwrap().pieces;
        let written: Vec<u8> = pieces.iter().map(|piece| pdu[piece.end]).collect();
        assert_eq!(written, crcs);
        let mut receiver = receiver(crc_start);
        assert_eq!(packets_of(receiver.receive(&mut pdu).unwrap()), known());
    }
}

/// The start is added to the first byte; the CRC of no bytes is the start.
#[test]
fn every_start() {
    let mut random = Random::new(8);
    for start in 0..=255 {
        assert_eq!(crc8_from(start, &[]), start);
        for length in 1..=100 {
            let mut piece = random.bytes(length);
            let crc = crc8_from(start, &piece);
            piece[0] ^= start;
            assert_eq!(crc8(&piece), crc);
        }
    }
}

/// Every value opens; the mode and stream alone can be refused.
#[test]
fn every_value_opens() {
    for crc_start in 0..=255 {
        for row in TABLE {
            let writer = Writer::open_with(row.mode, row.stream, crc_start).unwrap();
            let state = WriterState {
                mode: row.mode,
                stream: row.stream,
                crc_start,
                sequence: 0,
                number: 0,
                sent: 0,
            };
            assert_eq!(writer.state(), state);
            assert_eq!(Writer::resume(state), Ok(writer));
            let receiver = Receiver::open_with(row.mode, row.stream, crc_start).unwrap();
            let state = ReceiverState {
                mode: row.mode,
                stream: row.stream,
                crc_start,
                entitled: 255,
                sequence: None,
                held: 0,
                number: 0,
                services: None,
                delivered: 0,
                missing: 0,
                last: 0,
            };
            assert_eq!(receiver.state(), state);
            assert_eq!(Receiver::resume(state, receiver.carry()), Ok(receiver));
        }
        for mode in [Mode::M0, Mode::M13] {
            let writer = Writer::open_with(mode, Stream::Enhanced, crc_start);
            assert_eq!(writer, Err(Refusal::Mode));
            let receiver = Receiver::open_with(mode, Stream::Enhanced, crc_start);
            assert_eq!(receiver, Err(Refusal::Mode));
        }
    }
    for row in TABLE {
        let (mode, stream) = (row.mode, row.stream);
        let with_0 = Writer::open_with(mode, stream, CRC_START);
        assert_eq!(Writer::open(mode, stream), with_0);
        let with_0 = Receiver::open_with(mode, stream, CRC_START);
        assert_eq!(Receiver::open(mode, stream), with_0);
    }
}

/// Accepted calls, refused ones and marking lost keep the value.
#[test]
fn every_call_keeps_it() {
    for crc_start in 0..=255 {
        let mut writer = Writer::open_with(Mode::M0, Stream::Core, crc_start).unwrap();
        let mut receiver = receiver(crc_start);
        for _ in 0..3 {
            let mut pdu = [0; 96];
            let ended = writer.write(&Settings::default(), b"", &[[7; 20]], &mut pdu);
            assert_eq!((ended, writer.state().crc_start), (Ok(1), crc_start));
            let refused = writer.write(&Settings::default(), b"", &[[7; 20]], &mut pdu[..95]);
            assert_eq!(refused, Err(Refusal::PduLength));
            assert_eq!(writer.state().crc_start, crc_start);
            let log = receiver.receive_marked(&mut pdu, &[9, 40]).unwrap();
            assert_eq!(packets_of(log), [[7; 20]]);
            assert_eq!(receiver.receive(&mut pdu[..95]), Err(Refusal::PduLength));
            assert_eq!(receiver.state().crc_start, crc_start);
            receiver.mark_lost();
            assert_eq!(receiver.state().crc_start, crc_start);
        }
    }
}

/// A PDU of each value received and listed with that value, and with others: each
/// piece is noted then, nothing is held, and no verdict is right.
#[test]
fn equal_and_unequal_values() {
    let mut random = Random::new(22);
    let packets = [3, 1, 20, 9, 200].map(|length| random.bytes(length));
    for written in 0..=255 {
        let mut writer = Writer::open_with(Mode::M1, Stream::Core, written).unwrap();
        let mut pdu = [0; 96];
        let ended = writer.write(&Settings::default(), b"", &packets, &mut pdu);
        assert_eq!(ended, Ok(4));
        let others = [0, 1, 128, 255, random.below(256) as u8, written ^ 1];
        for crc_start in [written].into_iter().chain(others) {
            let right = crc_start == written;
            let mut receiver = Receiver::open_with(Mode::M1, Stream::Core, crc_start).unwrap();
            let log = receiver.receive(&mut pdu).unwrap();
            match right {
                true => assert_eq!(packets_of(log), packets[..4]),
                false => assert_eq!(log.entries().collect::<Vec<_>>(), all_wrong(5)),
            }
            assert_eq!(receiver.held().is_empty(), !right);
            let mut list = [Piece::default(); 5];
            list_pieces(&mut pdu, crc_start, &mut list).unwrap();
            assert!(list.iter().all(|piece| piece.right == right));
        }
    }
}
