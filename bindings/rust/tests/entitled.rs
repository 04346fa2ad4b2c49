//! Receivers with entitled programs (document 02, Ask 10): opening with lists of
//! programs, the state that is kept, and what a withheld PDU logs, in each mode and
//! stream.

use barzhilup::{
    Cause, Entry, Mode, ProgramType, Receiver, Refusal, Services, Settings, Stream, Writer,
};

mod common;
use common::{Random, TABLE};

/// Settings of this program, with these applied services.
fn settings(program: u8, applied: u8) -> Settings {
    Settings {
        class: Some(1),
        program: Some(program),
        program_type: Some(ProgramType {
            access: 1,
            type_code: 9,
        }),
        services: Some(Services { applied, marker: 7 }),
        ..Settings::default()
    }
}

/// The entries of a log, its packets by their numbers.
#[derive(Debug, PartialEq, Eq)]
enum Plain {
    Packet(u8),
    Psd,
    Note(u16),
}

fn plain(receiver: &mut Receiver, pdu: &[u8]) -> Vec<Plain> {
    let mut lent = pdu.to_vec();
    let log = receiver.receive(&mut lent).unwrap();
    log.entries()
        .map(|entry| match entry {
            Entry::Packet { number, .. } => Plain::Packet(number),
            Entry::Psd(_) => Plain::Psd,
            Entry::Note { cause, .. } => Plain::Note(cause.number()),
        })
        .collect()
}

#[test]
fn opening() {
    for row in TABLE {
        for set in 0..=255u8 {
            let programs: Vec<u8> = (0..8).filter(|p| set >> p & 1 != 0).rev().collect();
            let receiver = Receiver::open_entitled(row.mode, row.stream, 5, &programs).unwrap();
            let state = receiver.state();
            assert_eq!((state.entitled, state.crc_start), (set, 5));
            assert_eq!(
                (state.sequence, state.services, state.held),
                (None, None, 0)
            );
            for wrong in [8, 255, *programs.first().unwrap_or(&9)] {
                let programs = [&programs[..], &[wrong]].concat();
                let refused = Receiver::open_entitled(row.mode, row.stream, 5, &programs);
                assert_eq!(refused, Err(Refusal::Programs), "{programs:?}");
            }
        }
        let all = Receiver::open_entitled(row.mode, row.stream, 0, &[0, 1, 2, 3, 4, 5, 6, 7]);
        assert_eq!(all, Receiver::open(row.mode, row.stream));
        assert_eq!(all, Receiver::open_with(row.mode, row.stream, 0));
    }
    // 5 before 22.
    let refused = Receiver::open_entitled(Mode::M0, Stream::Enhanced, 0, &[9]);
    assert_eq!(refused, Err(Refusal::Mode));
    assert_eq!(Refusal::Programs.number(), 22);
    assert!(Refusal::Programs.to_string().starts_with("refusal 22: "));
    assert_eq!(Cause::Withheld.number(), 8);
}

/// A packet follows the right of the PDU in which it began: packet 0 begins in a free
/// PDU and ends in a withheld one, packet 1 begins there and ends in a free one.
#[test]
fn packets_follow_their_beginning() {
    for row in TABLE {
        let mut writer = Writer::open(row.mode, row.stream).unwrap();
        let mut random = Random::new(10);
        let packets = [150, 90, 10].map(|length| random.bytes(length));
        let keeps = row.stream == Stream::Core && row.sequences == 8;
        let mut pdus = Vec::new();
        let mut ended = 0;
        for applied in [0, 1, 0, 0] {
            let mut pdu = [0; 120];
            let psd: &[u8] = if row.psd > 0 { b"P" } else { b"" };
            ended += writer
                .write(&settings(3, applied), psd, &packets[ended..], &mut pdu)
                .unwrap();
            pdus.push(pdu);
        }
        let mut receiver = Receiver::open_entitled(row.mode, row.stream, 0, &[1, 2]).unwrap();
        let mut listed = Receiver::open_entitled(row.mode, row.stream, 0, &[3]).unwrap();
        let psd = || (row.psd > 0).then_some(Plain::Psd);
        let with_psd = |rest: Vec<Plain>| psd().into_iter().chain(rest).collect::<Vec<_>>();
        assert_eq!(plain(&mut receiver, &pdus[0]), with_psd(vec![]));
        assert_eq!(plain(&mut listed, &pdus[0]), with_psd(vec![]));
        let second = plain(&mut receiver, &pdus[1]);
        let third = plain(&mut receiver, &pdus[2]);
        if keeps {
            // The value sent with sequence 0 holds: nothing is withheld.
            assert_eq!(second, with_psd(vec![Plain::Packet(0)]));
            assert_eq!(third, with_psd(vec![Plain::Packet(1), Plain::Packet(2)]));
            assert_eq!(receiver.state().services, Some(0));
        } else {
            assert_eq!(second, [Plain::Note(8), Plain::Packet(0)]);
            assert_eq!(third, with_psd(vec![Plain::Note(3), Plain::Packet(2)]));
            assert_eq!(receiver.state().services, None);
        }
        assert_eq!(
            plain(&mut listed, &pdus[1]),
            with_psd(vec![Plain::Packet(0)])
        );
        // Marking lost keeps the programs and forgets the value.
        receiver.mark_lost();
        let state = receiver.state();
        assert_eq!((state.entitled, state.services), (6, None));
        let wanted = match keeps {
            true => vec![Plain::Note(8)],
            false => with_psd(vec![]),
        };
        assert_eq!(plain(&mut receiver, &pdus[3]), wanted);
    }
}

/// The state with the programs and the value in force is kept and gone on from.
#[test]
fn going_on() {
    let mut writer = Writer::open(Mode::M1, Stream::Core).unwrap();
    let mut receiver = Receiver::open_entitled(Mode::M1, Stream::Core, 0, &[4]).unwrap();
    for applied in [1, 0, 0] {
        let mut pdu = [0; 96];
        writer
            .write(&settings(3, applied), b"", &[[7; 5]], &mut pdu)
            .unwrap();
        let mut again = Receiver::resume(receiver.state(), receiver.carry()).unwrap();
        assert_eq!(plain(&mut receiver, &pdu), [Plain::Note(8)]);
        assert_eq!(plain(&mut again, &pdu), [Plain::Note(8)]);
        assert_eq!(again, receiver);
        assert_eq!(
            (receiver.state().services, receiver.state().entitled),
            (Some(1), 16)
        );
    }
}
