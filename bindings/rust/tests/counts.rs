//! Packets delivered and missing (document 02, Ask 14): each number after each other,
//! refusal 27 by each call, PDUs that deliver nothing, marking lost, and drives over which
//! delivered and missing are together the packets from the first delivered to the last.

use barzhilup::{Entry, Mode, Receiver, ReceiverState, Refusal, Settings, Stream, Writer};

mod common;
use common::{Random, Row, TABLE};

/// A receiver of this row with these counts.
fn counted(row: Row, delivered: u32, missing: u32, last: u8) -> Receiver {
    let opened = Receiver::open(row.mode, row.stream).unwrap();
    let state = ReceiverState {
        delivered,
        missing,
        last,
        ..opened.state()
    };
    Receiver::resume(state, opened.carry()).unwrap()
}

/// A PDU of this row with so many packets of one byte, the first with this number.
fn pdu_with(row: Row, number: u8, packets: usize) -> Vec<u8> {
    let opened = Writer::open(row.mode, row.stream).unwrap();
    let mut state = opened.state();
    state.number = number;
    let mut pdu = vec![0; 120];
    let ended = Writer::resume(state)
        .unwrap()
        .write(&Settings::default(), b"", &vec![[7]; packets], &mut pdu)
        .unwrap();
    assert_eq!(ended, packets);
    pdu
}

/// What a receiver says of its counts.
fn says(receiver: &Receiver) -> (u32, u32, Option<u8>) {
    let counts = (receiver.delivered(), receiver.missing());
    (counts.0, counts.1, receiver.last_number())
}

#[test]
fn each_number_after_each() {
    for number in 0..64 {
        let pdu = pdu_with(TABLE[0], number, 1);
        let mut first = Receiver::open(Mode::M0, Stream::Core).unwrap();
        assert_eq!(says(&first), (0, 0, None));
        first.receive(&mut pdu.clone()).unwrap();
        assert_eq!(says(&first), (1, 0, Some(number)));
        for last in 0..64 {
            let mut receiver = counted(TABLE[0], 9, 100, last);
            receiver.receive(&mut pdu.clone()).unwrap();
            let between = u32::from(number + 64 - last - 1) % 64;
            assert_eq!(says(&receiver), (10, 100 + between, Some(number)));
        }
        let mut again = counted(TABLE[0], 1, 0, number);
        again.receive(&mut pdu.clone()).unwrap();
        assert_eq!(says(&again), (2, 63, Some(number)));
    }
}

/// A call that receives a PDU: why it is refused, if it is.
type Call = fn(&mut Receiver, &mut [u8]) -> Option<Refusal>;

/// A PDU by each of the receiving calls: why it is refused, if it is.
fn each_call(receiver: &Receiver, pdu: &[u8]) -> [(Receiver, Option<Refusal>); 4] {
    let calls: [Call; 4] = [
        |receiver, pdu| receiver.receive(pdu).err(),
        |receiver, pdu| receiver.receive_marked(pdu, &[5, 95]).err(),
        |receiver, pdu| {
            let length = pdu.len();
            let batch = receiver.receive_batch(pdu, &[length]).unwrap();
            assert_eq!(batch.taken, usize::from(batch.refusal.is_none()));
            batch.refusal
        },
        |receiver, pdu| receiver.receive_pair(&mut pdu.to_vec(), pdu).err(),
    ];
    calls.map(|call| {
        let (mut after, mut lent) = (receiver.clone(), pdu.to_vec());
        lent[20] ^= 1;
        let damaged = lent.clone();
        let refusal = call(&mut after, &mut lent);
        if refusal.is_some() {
            assert_eq!((&after, &lent), (receiver, &damaged));
        }
        (after, refusal)
    })
}

#[test]
fn n27_count_limit() {
    const MOST: u32 = u32::MAX;
    let limit = Some(Refusal::CountLimit);
    for row in TABLE {
        let pdu = pdu_with(row, 10, 3);
        let empty = pdu_with(row, 10, 0);
        for (delivered, missing, last, wanted) in [
            (MOST - 3, 0, 9, None),
            (MOST - 2, 0, 9, limit),
            (MOST, 0, 9, limit),
            (1, MOST - 5, 4, None),
            (1, MOST - 4, 4, limit),
            (1, MOST, 9, None),
            (1, MOST - 63, 10, None),
            (1, MOST - 62, 10, limit),
        ] {
            let receiver = counted(row, delivered, missing, last);
            for (after, refusal) in each_call(&receiver, &pdu) {
                assert_eq!(refusal, wanted);
                if refusal.is_none() {
                    assert_eq!(after.delivered(), delivered + 3);
                    assert_eq!(after.last_number(), Some(12));
                    assert!(delivered > 1 || after.missing() == MOST);
                }
            }
            // Where nothing is delivered, the counts stay.
            for (after, refusal) in each_call(&receiver, &empty) {
                assert_eq!((says(&after), refusal), (says(&receiver), None));
            }
        }
    }
    assert_eq!(Refusal::CountLimit.number(), 27);
    let words = Refusal::CountLimit.to_string();
    assert!(words.starts_with("refusal 27: "));
}

/// A batch stops where a count would pass; those before are received.
#[test]
fn a_batch_stops() {
    for row in TABLE {
        let mut frame = Vec::new();
        for turn in 0..3_u8 {
            let opened = Writer::open(row.mode, row.stream).unwrap();
            let mut state = opened.state();
            (state.number, state.sequence) = (10 + 2 * turn, turn % row.sequences);
            let mut pdu = vec![0; 120];
            let mut writer = Writer::resume(state).unwrap();
            writer
                .write(&Settings::default(), b"", &[[1], [2]], &mut pdu)
                .unwrap();
            frame.extend(pdu);
        }
        for taken in 0..3 {
            let mut receiver = counted(row, u32::MAX - 2 * taken - 1, 0, 9);
            let sent = frame.clone();
            let batch = receiver.receive_batch(&mut frame, &[120; 3]).unwrap();
            assert_eq!(batch.taken, taken as usize);
            assert_eq!(batch.refusal, Some(Refusal::CountLimit));
            assert_eq!(batch.log.entries().count(), 2 * taken as usize);
            assert_eq!(frame, sent);
            let last = Some(9 + 2 * taken as u8);
            assert_eq!(says(&receiver), (u32::MAX - 1, 0, last));
        }
    }
}

#[test]
fn lost_keeps_counts() {
    for row in TABLE {
        for receiver in [
            counted(row, 0, 0, 0),
            counted(row, 7, 0, 3),
            counted(row, u32::MAX, u32::MAX, 63),
        ] {
            let mut lost = receiver.clone();
            lost.mark_lost();
            assert_eq!(says(&lost), says(&receiver));
        }
    }
}

/// Over drives with lost PDUs, saved and loaded at times.
#[test]
fn drives() {
    let mut random = Random::new(14);
    let (mut due, mut words) = (0, [0; barzhilup::SNAPSHOT_WORDS]);
    for turn in 0..200 {
        let row = TABLE[turn % TABLE.len()];
        // The first byte tells which packet it is.
        let mut packets = random.packets(150, 60);
        for (place, packet) in packets.iter_mut().enumerate() {
            packet[0] = place as u8;
        }
        let mut writer = Writer::open(row.mode, row.stream).unwrap();
        let mut receiver = Receiver::open(row.mode, row.stream).unwrap();
        let loss = random.below(60);
        let (mut ended, mut delivered) = (0, Vec::new());
        while ended < packets.len() {
            let mut pdu = vec![0; 96 + random.below(60)];
            let offered = &packets[ended..];
            ended += writer
                .write(&Settings::default(), b"", offered, &mut pdu)
                .unwrap();
            let log = match random.below(100) < loss {
                true => receiver.mark_lost(),
                false => receiver.receive(&mut pdu).unwrap(),
            };
            for entry in &log {
                if let Entry::Packet { data, .. } = entry {
                    delivered.push(usize::from(data.to_vec()[0]));
                }
            }
            if random.below(8) == 0 {
                let count = receiver.save(&mut words).unwrap();
                receiver = Receiver::load(&words[..count]).unwrap();
            }
        }
        let sum = receiver.delivered() as usize + receiver.missing() as usize;
        assert_eq!(receiver.delivered() as usize, delivered.len());
        let near = delivered.windows(2).all(|two| two[1] - two[0] <= 64);
        if let (Some(first), Some(last)) = (delivered.first(), delivered.last()) {
            assert_eq!(receiver.last_number(), Some((last % 64) as u8));
            assert!(!near || sum == last + 1 - first, "turn {turn}");
            due += usize::from(near);
        }
    }
    assert!(due >= 150, "{due}");
}
