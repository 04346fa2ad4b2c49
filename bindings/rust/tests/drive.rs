//! Drives: PDUs that are lost, damaged in up to four header bytes (with marks,
//! within their bound), or not what they should be, and the log that a receiver
//! makes of them (document 01, "Receiver"; demand 3; document 02, Asks 2 and 3).

use barzhilup::{
    read, Cause, Entry, Log, Mode, Receiver, ReceiverState, Refusal, Settings, Stream, Writer,
    WriterState, CARRY_BYTES, CRC_START, MARKS_MAX,
};
use std::ops::Range;

mod common;
use common::{Random, Row, TABLE};

/// A written PDU, and which of the joined packets' bytes lie in it.
struct Pdu {
    bytes: Vec<u8>,
    sent: Range<usize>,
}

/// Writes all packets, in PDUs of different lengths.
fn write_all(random: &mut Random, mut writer: Writer, packets: &[Vec<u8>]) -> Vec<Pdu> {
    let (mut ended, mut sent, mut pdus) = (0, 0, Vec::new());
    while ended < packets.len() {
        let mut bytes = vec![0; 96 + random.below(400)];
        let offered = &packets[ended..];
        ended += writer
            .write(&Settings::default(), b"", offered, &mut bytes)
            .unwrap();
        let finished: usize = packets[..ended].iter().map(Vec::len).sum();
        let now = finished + usize::from(writer.state().sent);
        pdus.push(Pdu {
            bytes,
            sent: sent..now,
        });
        sent = now;
    }
    pdus
}

/// The packets of a log.
fn packets_of(log: Log) -> Vec<(u8, Vec<u8>)> {
    log.entries()
        .filter_map(|entry| match entry {
            Entry::Packet { number, data } => Some((number, data.to_vec())),
            _ => None,
        })
        .collect()
}

/// The notes of a log.
fn notes_of(log: Log) -> Vec<(Cause, Option<u16>)> {
    log.entries()
        .filter_map(|entry| match entry {
            Entry::Note { cause, piece } => Some((cause, piece)),
            _ => None,
        })
        .collect()
}

/// The packets with every byte in a received PDU, with their numbers.
fn whole(packets: &[Vec<u8>], received: &[bool]) -> Vec<(u8, Vec<u8>)> {
    let mut start = 0;
    let mut found = Vec::new();
    for (i, packet) in packets.iter().enumerate() {
        let end = start + packet.len();
        if received[start..end].iter().all(|&byte| byte) {
            found.push((i as u8 % 64, packet.clone()));
        }
        start = end;
    }
    found
}

/// Receives a PDU with up to four bytes of its header altered.
fn receive<'a>(random: &mut Random, receiver: &'a mut Receiver, pdu: &mut [u8]) -> Log<'a> {
    let count = random.below(5);
    random.alter(pdu, count);
    receiver.receive(pdu).unwrap()
}

/// Receives a PDU with places of its header marked, and as many other bytes
/// altered as these marks leave room for.
fn receive_marked<'a>(random: &mut Random, receiver: &'a mut Receiver, pdu: &mut [u8]) -> Log<'a> {
    let sent = pdu.to_vec();
    let count = random.below(MARKS_MAX + 1);
    let (marks, _) = random.alter_marked(pdu, count, (MARKS_MAX - count) / 2);
    let twice = [&marks[..], &marks].concat();
    if !marks.is_empty() {
        let answer = receiver.receive_marked(pdu, &twice);
        assert_eq!(answer, Err(Refusal::Marks));
    }
    let log = receiver.receive_marked(pdu, &marks).unwrap();
    assert_eq!(pdu, sent);
    log
}

/// How a PDU of a drive is received.
type Receive = for<'a> fn(&mut Random, &'a mut Receiver, &mut [u8]) -> Log<'a>;

/// One drive, with a writer and a receiver that were opened with this value for
/// their CRCs; answers how many packets were offered and how many arrived.
fn drive(random: &mut Random, row: Row, crc_start: u8, receive: Receive) -> (usize, usize) {
    let packets = random.packets(150, 300);
    let writer = Writer::open_with(row.mode, row.stream, crc_start).unwrap();
    let pdus = write_all(random, writer, &packets);
    let mut received = vec![false; packets.iter().map(Vec::len).sum()];
    let mut receiver = Receiver::open_with(row.mode, row.stream, crc_start).unwrap();
    let mut words = Vec::new();
    for Pdu { mut bytes, sent } in pdus {
        if random.below(5) == 0 {
            words.extend_from_slice(receiver.mark_lost().words());
            continue;
        }
        assert_eq!(receiver.receive(&mut bytes[..95]), Err(Refusal::PduLength));
        words.extend_from_slice(receive(random, &mut receiver, &mut bytes).words());
        received[sent].fill(true);
    }
    let arrived = packets_of(Log::new(&words).unwrap());
    assert_eq!(arrived, whole(&packets, &received));
    assert_eq!(receiver.state().crc_start, crc_start);
    (packets.len(), arrived.len())
}

/// Drives in each mode and stream, some packets of which arrive and some don't.
fn drives(seed: u64, crc_start: fn(&mut Random) -> u8, receive: Receive) {
    let mut random = Random::new(seed);
    for row in TABLE {
        let (mut offered, mut arrived) = (0, 0);
        for _ in 0..10 {
            let crc_start = crc_start(&mut random);
            let (some, whole) = drive(&mut random, row, crc_start, receive);
            offered += some;
            arrived += whole;
        }
        assert!(arrived > offered / 4 && arrived < offered, "{row:?}");
    }
}

#[test]
fn the_log_holds_exactly_what_arrived_whole() {
    drives(3, |_| CRC_START, receive);
}

#[test]
fn so_it_does_with_marks() {
    drives(19, |_| CRC_START, receive_marked);
}

#[test]
fn so_it_does_from_any_crc_start() {
    drives(2, |random| random.below(256) as u8, receive);
    drives(255, |random| random.below(256) as u8, receive_marked);
}

/// A PDU of 96 bytes of mode 0, core, from this sequence, number and count of
/// bytes already sent.
fn pdu_from(sequence: u8, number: u8, sent: u16, packets: &[Vec<u8>]) -> Vec<u8> {
    pdu_of(96, sequence, number, sent, packets)
}

/// The same with another length.
fn pdu_of(length: usize, sequence: u8, number: u8, sent: u16, packets: &[Vec<u8>]) -> Vec<u8> {
    let state = WriterState {
        mode: Mode::M0,
        stream: Stream::Core,
        crc_start: CRC_START,
        sequence,
        number,
        sent,
    };
    let mut pdu = vec![0; length];
    let mut writer = Writer::resume(state).unwrap();
    writer
        .write(&Settings::default(), b"", packets, &mut pdu)
        .unwrap();
    pdu
}

/// A receiver that holds 79 bytes of packet 0, of 100 bytes 0x77, after a PDU
/// with sequence 0.
fn holding() -> Receiver {
    let mut receiver = Receiver::open(Mode::M0, Stream::Core).unwrap();
    let mut pdu = pdu_from(0, 0, 0, &[vec![0x77; 100]]);
    assert!(receiver.receive(&mut pdu).unwrap().words().is_empty());
    assert_eq!(receiver.held(), [0x77; 79]);
    receiver
}

#[test]
fn note_1_for_a_pdu_that_is_missing() {
    let mut receiver = holding();
    let log = receiver
        .receive(&mut pdu_from(0, 1, 0, &[vec![5; 3]]))
        .map(|log| {
            assert_eq!(notes_of(log), [(Cause::Sequence, None)]);
            packets_of(log)
        });
    assert_eq!(log, Ok(vec![(1, vec![5; 3])]));
    assert_eq!(
        (receiver.held(), receiver.state().sequence),
        (&[][..], Some(0))
    );
}

#[test]
fn note_2_for_a_wrong_crc() {
    let mut receiver = Receiver::open(Mode::M0, Stream::Core).unwrap();
    let mut pdu = pdu_of(200, 0, 8, 0, &[vec![1; 20], vec![2; 120], vec![3; 4]]);
    let second = read(&mut pdu).unwrap().pieces[1].clone();
    pdu[second.end] ^= 1;
    let log = receiver.receive(&mut pdu).unwrap();
    assert_eq!(notes_of(log), [(Cause::Crc, Some(1))]);
    assert_eq!(packets_of(log), [(8, vec![1; 20]), (10, vec![3; 4])]);
}

#[test]
fn note_3_for_an_end_without_its_beginning() {
    let mut receiver = Receiver::open(Mode::M0, Stream::Core).unwrap();
    let mut pdu = pdu_from(1, 9, 30, &[vec![1; 40], vec![2; 4]]);
    let log = receiver.receive(&mut pdu).unwrap();
    assert_eq!(notes_of(log), [(Cause::NothingHeld, Some(0))]);
    assert_eq!(packets_of(log), [(10, vec![2; 4])]);
}

#[test]
fn note_4_for_a_beginning_that_is_not_continued() {
    let mut receiver = holding();
    let mut other = pdu_from(1, 5, 30, &[vec![1; 40]]);
    let log = receiver.receive(&mut other).unwrap();
    let notes = [(Cause::NotContinued, None), (Cause::NothingHeld, Some(0))];
    assert_eq!(notes_of(log), notes);
    let mut receiver = holding();
    let mut fresh = pdu_from(1, 0, 0, &[vec![1; 40]]);
    let log = receiver.receive(&mut fresh).unwrap();
    assert_eq!(notes_of(log), [(Cause::NotContinued, None)]);
    assert_eq!(packets_of(log), [(0, vec![1; 40])]);
}

#[test]
fn note_5_for_a_packet_that_is_too_long() {
    for (sent, fits) in [(79, true), (78, false)] {
        let mut receiver = holding();
        let mut pdu = pdu_of(5000, 1, 0, sent, &[vec![0x77; 4096]]);
        let log = receiver.receive(&mut pdu).unwrap();
        if fits {
            assert_eq!(packets_of(log), [(0, vec![0x77; 4096])]);
        } else {
            assert_eq!(notes_of(log), [(Cause::TooLong, Some(0))]);
        }
        assert_eq!(log.entries().count(), 1);
    }
}

#[test]
fn note_6_for_a_pdu_marked_lost() {
    let mut receiver = holding();
    let log = receiver.mark_lost();
    assert_eq!(log.words(), [0xC006_0000]);
    assert_eq!(notes_of(log), [(Cause::Lost, None)]);
    assert_eq!(receiver, Receiver::open(Mode::M0, Stream::Core).unwrap());
    let mut end = pdu_from(1, 0, 79, &[vec![0x77; 100]]);
    let log = receiver.receive(&mut end).unwrap();
    assert_eq!(notes_of(log), [(Cause::NothingHeld, Some(0))]);
}

/// Marking lost is never refused, whatever the receiver remembers: at the ends of
/// every range it logs its one note, and keeps the counts.
#[test]
fn marking_lost_from_every_state() {
    let carry = vec![7; CARRY_BYTES];
    let mut states = 0;
    for row in TABLE {
        let opened = Receiver::open(row.mode, row.stream).unwrap().state();
        for (sequence, held, counts) in [
            (None, 0, (0, 0, 0)),
            (Some(0), 1, (1, u32::MAX, 0)),
            (Some(row.sequences - 1), 4_096, (u32::MAX, u32::MAX, 63)),
        ] {
            let state = ReceiverState {
                sequence,
                held,
                number: if held > 0 { 63 } else { 0 },
                entitled: held as u8,
                delivered: counts.0,
                missing: counts.1,
                last: counts.2,
                ..opened
            };
            let mut receiver = Receiver::resume(state, &carry).unwrap();
            assert_eq!(receiver.mark_lost().words(), [0xC006_0000]);
            let wanted = ReceiverState {
                sequence: None,
                held: 0,
                number: 0,
                ..state
            };
            assert_eq!(receiver.state(), wanted);
            states += 1;
        }
    }
    assert_eq!(states, 30);
}

#[test]
fn psd_is_logged_before_packets() {
    let mut writer = Writer::open(Mode::M13, Stream::Core).unwrap();
    let mut pdu = [0; 96];
    writer
        .write(&Settings::default(), b"a title", &[b"audio"], &mut pdu)
        .unwrap();
    let mut receiver = Receiver::open(Mode::M13, Stream::Core).unwrap();
    let mut entries = receiver.receive(&mut pdu).unwrap().into_iter();
    let Some(Entry::Psd(psd)) = entries.next() else {
        panic!("PSD comes first");
    };
    assert_eq!(psd.to_vec(), b"a title");
    let Some(Entry::Packet { number: 0, data }) = entries.next() else {
        panic!("then the packet");
    };
    assert_eq!((data.to_vec(), entries.next()), (b"audio".to_vec(), None));
}

#[test]
fn a_kept_receiver_goes_on() {
    let stopped = holding();
    let mut receiver = Receiver::resume(stopped.state(), stopped.carry()).unwrap();
    drop(stopped);
    let mut end = pdu_from(1, 0, 79, &[vec![0x77; 100]]);
    let log = receiver.receive(&mut end).unwrap();
    assert_eq!(packets_of(log), [(0, vec![0x77; 100])]);
    assert_eq!(log.entries().count(), 1);
}

#[test]
fn receivers_differ_by_what_they_remember_and_hold() {
    let receiver = holding();
    let mut carry = receiver.carry().to_vec();
    carry[79] ^= 1;
    assert_eq!(
        Receiver::resume(receiver.state(), &carry).unwrap(),
        receiver
    );
    carry[78] ^= 1;
    assert_ne!(
        Receiver::resume(receiver.state(), &carry).unwrap(),
        receiver
    );
    let mut state = receiver.state();
    state.number = 1;
    assert_ne!(Receiver::resume(state, receiver.carry()).unwrap(), receiver);
}
