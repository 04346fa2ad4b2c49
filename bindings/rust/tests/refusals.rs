//! Each refusal of document 01, "What is turned down", and of document 02: its
//! number, and that a refused call changes nothing.

use barzhilup::{
    correct_header, correct_header_marked, list_pieces, read, write_parity, Mode, Piece,
    ProgramType, Reading, Receiver, ReceiverState, Refusal, Services, Settings, Stream, Writer,
    WriterState, CRC_START, CRC_START_OFF_AIR,
};

mod common;
use common::Random;

const NO_PACKETS: [&[u8]; 0] = [];

/// Settings with nothing in them.
fn plain() -> Settings {
    Settings::default()
}

/// Settings with this change.
fn with(mut settings: Settings, change: impl FnOnce(&mut Settings)) -> Settings {
    change(&mut settings);
    settings
}

/// A writer of this mode and stream.
fn writer(mode: Mode, stream: Stream) -> Writer {
    Writer::open(mode, stream).unwrap()
}

/// Offers packets of these lengths, and looks that a refusal changes nothing.
fn offer(
    writer: &mut Writer,
    settings: Settings,
    psd: usize,
    lengths: &[usize],
    pdu: usize,
) -> Result<usize, Refusal> {
    let packets: Vec<Vec<u8>> = lengths.iter().map(|&length| vec![9; length]).collect();
    let mut bytes = vec![0x5A; pdu];
    let before = writer.clone();
    let answer = writer.write(&settings, &vec![3; psd], &packets, &mut bytes);
    if answer.is_err() {
        assert_eq!(*writer, before);
        assert!(bytes.iter().all(|&byte| byte == 0x5A));
    }
    answer
}

/// The answer of one call with fresh writer, one packet of a byte and 96 bytes.
fn set(mode: Mode, stream: Stream, settings: Settings) -> Result<usize, Refusal> {
    offer(&mut writer(mode, stream), settings, 0, &[1], 96)
}

/// A PDU of mode 0, core, of 96 bytes with two pieces of two bytes, from 18 and
/// 21 on, and 24 the first reserved byte.
fn two_pieces(settings: Settings) -> [u8; 96] {
    let mut pdu = [0; 96];
    let packets = [[1, 2], [3, 4]];
    let ended = writer(Mode::M0, Stream::Core).write(&settings, b"", &packets, &mut pdu);
    assert_eq!(ended, Ok(2));
    pdu
}

/// Changes a PDU and gives it a right parity again.
fn changed(mut pdu: [u8; 96], change: impl FnOnce(&mut [u8; 96])) -> [u8; 96] {
    change(&mut pdu);
    write_parity(&mut pdu).unwrap();
    pdu
}

/// The refusal that reading, listing and receiving this PDU answer alike, with
/// nothing changed.
fn refused(mut pdu: Vec<u8>) -> Refusal {
    let before = pdu.clone();
    let refusal = read(&mut pdu).unwrap_err();
    let mut list = [Piece::default(); 64];
    for crc_start in [CRC_START, CRC_START_OFF_AIR] {
        assert_eq!(list_pieces(&mut pdu, crc_start, &mut list), Err(refusal));
    }
    assert_eq!(list, [Piece::default(); 64]);
    let mut receiver = receiver_in_the_midst();
    let kept = receiver.clone();
    assert_eq!(receiver.receive(&mut pdu), Err(refusal));
    assert_eq!(receiver, kept);
    assert_eq!(receiver.carry(), kept.carry());
    assert_eq!(pdu, before);
    refusal
}

/// A receiver of mode 0, core, that holds the beginning of packet 0.
fn receiver_in_the_midst() -> Receiver {
    let mut pdu = [0; 96];
    let mut receiver = Receiver::open(Mode::M0, Stream::Core).unwrap();
    let mut writer = writer(Mode::M0, Stream::Core);
    writer.write(&plain(), b"", &[[8; 100]], &mut pdu).unwrap();
    receiver.receive(&mut pdu).unwrap();
    assert_eq!(receiver.held(), [8; 79]);
    receiver
}

#[test]
fn n1_writer_state() {
    let right = WriterState {
        mode: Mode::M1,
        stream: Stream::Core,
        crc_start: CRC_START,
        sequence: 7,
        number: 63,
        sent: 4095,
    };
    assert_eq!(Writer::resume(right).unwrap().state(), right);
    let wrong = [
        WriterState {
            sequence: 8,
            ..right
        },
        WriterState {
            number: 64,
            ..right
        },
        WriterState {
            sent: 4096,
            ..right
        },
        WriterState {
            stream: Stream::Enhanced,
            ..right
        },
        WriterState {
            mode: Mode::M13,
            stream: Stream::Enhanced,
            ..right
        },
    ];
    for state in wrong {
        assert_eq!(Writer::resume(state), Err(Refusal::State), "{state:?}");
    }
}

#[test]
fn n1_receiver_state() {
    let right = ReceiverState {
        mode: Mode::M0,
        stream: Stream::Core,
        crc_start: CRC_START,
        entitled: 255,
        sequence: Some(1),
        held: 4096,
        number: 63,
        services: None,
        delivered: 1,
        missing: u32::MAX,
        last: 63,
    };
    let carry = [6; 4096];
    let receiver = Receiver::resume(right, &carry).unwrap();
    assert_eq!((receiver.state(), receiver.held()), (right, &carry[..]));
    let wrong = [
        ReceiverState {
            sequence: Some(2),
            ..right
        },
        ReceiverState {
            held: 4097,
            ..right
        },
        ReceiverState {
            number: 64,
            ..right
        },
        ReceiverState { held: 0, ..right },
        ReceiverState {
            stream: Stream::Enhanced,
            ..right
        },
        // Applied services are kept by core streams of PDU sequences 0 to 7 only.
        ReceiverState {
            services: Some(0),
            ..right
        },
        ReceiverState {
            mode: Mode::M1,
            services: Some(8),
            ..right
        },
        ReceiverState { last: 64, ..right },
        // Where nothing is delivered, nothing is missing and there is no last number.
        ReceiverState {
            delivered: 0,
            last: 0,
            ..right
        },
        ReceiverState {
            delivered: 0,
            missing: 0,
            ..right
        },
    ];
    for state in wrong {
        let answer = Receiver::resume(state, &carry);
        assert_eq!(answer, Err(Refusal::State), "{state:?}");
        let answer = Receiver::resume(state, &carry[1..]);
        assert_eq!(answer, Err(Refusal::State), "1 is lower than 2: {state:?}");
    }
}

#[test]
fn n2_carry() {
    let state = receiver_in_the_midst().state();
    let answer = Receiver::resume(state, &[0; 4095]);
    assert_eq!(answer, Err(Refusal::CarryLength));
    assert!(Receiver::resume(state, &[0; 5000]).is_ok());
}

#[test]
fn n3_pdu_length() {
    for length in [0, 95, 20_481] {
        assert_eq!(refused(vec![0; length]), Refusal::PduLength);
        let mut pdu = vec![0xFF; length];
        assert_eq!(correct_header(&mut pdu), Err(Refusal::PduLength));
        assert_eq!(write_parity(&mut pdu), Err(Refusal::PduLength));
        assert_eq!(pdu, vec![0xFF; length]);
    }
    let lengths = [
        (Mode::M0, 95, Err(Refusal::PduLength)),
        (Mode::M0, 20_480, Ok(1)),
        (Mode::M0, 20_481, Err(Refusal::PduLength)),
        (Mode::M1, 4_096, Ok(1)),
        (Mode::M1, 4_097, Err(Refusal::PduLength)),
    ];
    for (mode, length, answer) in lengths {
        let given = offer(&mut writer(mode, Stream::Core), plain(), 0, &[1], length);
        assert_eq!(given, answer, "{mode}, {length}");
    }
}

#[test]
fn n4_uncorrectable() {
    let clean = two_pieces(plain());
    let mut random = Random::new(4);
    let mut uncorrectable = 0;
    for _ in 0..100 {
        let mut pdu = clean;
        random.alter(&mut pdu, 5);
        let damaged = pdu;
        match correct_header(&mut pdu) {
            Ok(_) => assert_ne!(pdu, clean),
            Err(refusal) => {
                assert_eq!(refusal, Refusal::Uncorrectable);
                assert_eq!(pdu, damaged);
                assert_eq!(refused(pdu.to_vec()), refusal);
                uncorrectable += 1;
            }
        }
    }
    assert!(uncorrectable >= 90);
}

/// The refusal that correcting and receiving this PDU with these marks answer
/// alike, with nothing changed.
fn refused_marked(pdu: &[u8], marks: &[u8]) -> Refusal {
    let mut lent = pdu.to_vec();
    let refusal = correct_header_marked(&mut lent, marks).unwrap_err();
    let mut receiver = receiver_in_the_midst();
    let kept = receiver.clone();
    assert_eq!(receiver.receive_marked(&mut lent, marks), Err(refusal));
    assert_eq!(receiver, kept);
    assert_eq!(receiver.carry(), kept.carry());
    assert_eq!(lent, pdu);
    refusal
}

/// Each count of marks with as many other bytes altered as the bound allows; of
/// an odd count one more is always too much.
#[test]
fn n4_with_marks() {
    let clean = two_pieces(plain());
    let mut random = Random::new(34);
    for marks in 0..=8 {
        let most = (8 - marks) / 2;
        for _ in 0..50 {
            let mut pdu = clean;
            let (list, altered) = random.alter_marked(&mut pdu, marks, most);
            assert_eq!(correct_header_marked(&mut pdu, &list), Ok(altered));
            assert_eq!(pdu, clean);
            if marks % 2 == 1 {
                let (list, _) = random.alter_marked(&mut pdu, marks, most + 1);
                assert_eq!(refused_marked(&pdu, &list), Refusal::Uncorrectable);
            }
        }
    }
    // Marks on right bytes cost too.
    let mut pdu = clean;
    random.alter(&mut pdu, 4);
    let right = (0..96).find(|&place| pdu[place] == clean[place]).unwrap() as u8;
    assert_eq!(refused_marked(&pdu, &[right]), Refusal::Uncorrectable);
    assert_eq!(correct_header(&mut pdu), Ok(4));
}

/// Nine marks, a place over 95, one repeated: directly after 3 and before 4, and
/// also where the header is a code word.
#[test]
fn n19_marks() {
    let clean = two_pieces(plain());
    let mut beyond = clean;
    beyond[20..60].fill(0xA7);
    assert_eq!(refused(beyond.into()), Refusal::Uncorrectable);
    let nine = [0, 1, 2, 3, 4, 5, 6, 7, 8];
    let wrong: [&[u8]; 8] = [
        &nine,
        &[96],
        &[255],
        &[0, 1, 2, 3, 4, 5, 6, 96],
        &[7, 7],
        &[95, 3, 4, 5, 6, 7, 8, 95],
        &[0, 9, 0],
        &[40; 300],
    ];
    for marks in wrong {
        for pdu in [clean, beyond] {
            assert_eq!(refused_marked(&pdu, marks), Refusal::Marks, "{marks:?}");
            let short = refused_marked(&pdu[..95], marks);
            assert_eq!(short, Refusal::PduLength, "{marks:?}");
        }
    }
    assert_eq!(refused_marked(&[1; 20_481], &nine), Refusal::PduLength);
    let mut pdu = clean;
    assert_eq!(correct_header_marked(&mut pdu, &nine[1..]), Ok(0));
    assert_eq!(correct_header_marked(&mut pdu, &[95, 0]), Ok(0));
    assert_eq!(Refusal::Marks.number(), 19);
    assert!(Refusal::Marks.to_string().starts_with("refusal 19: "));
}

#[test]
fn n5_mode() {
    for mode in [Mode::M0, Mode::M13] {
        assert_eq!(Writer::open(mode, Stream::Enhanced), Err(Refusal::Mode));
        assert_eq!(Receiver::open(mode, Stream::Enhanced), Err(Refusal::Mode));
    }
    let pdu = changed(two_pieces(plain()), |pdu| pdu[8] = 4);
    assert_eq!(refused(pdu.into()), Refusal::Mode);
    for number in [4, 9, 11, 14, 15, 255] {
        assert_eq!(Mode::try_from(number), Err(Refusal::Mode));
    }
    assert_eq!(Stream::try_from(2), Err(Refusal::Mode));
}

#[test]
fn n6_other_mode() {
    let clean = two_pieces(plain());
    for (mode, stream) in [(Mode::M1, Stream::Enhanced), (Mode::M10, Stream::Core)] {
        let mut receiver = Receiver::open(mode, stream).unwrap();
        let fresh = receiver.clone();
        let mut pdu = clean;
        pdu[50] ^= 1;
        let damaged = pdu;
        assert_eq!(receiver.receive(&mut pdu), Err(Refusal::OtherMode));
        assert_eq!(receiver, fresh);
        assert_eq!(pdu, damaged);
    }
}

#[test]
fn n7_sequence() {
    let pdu = changed(two_pieces(plain()), |pdu| pdu[8] |= 2 << 6);
    assert_eq!(refused(pdu.into()), Refusal::Sequence);
}

#[test]
fn n8_pieces() {
    let mut none = [0; 96];
    let ended = writer(Mode::M0, Stream::Core).write(&plain(), b"", &NO_PACKETS, &mut none);
    assert_eq!(ended, Ok(0));
    for flag in [2, 4] {
        let pdu = changed(none, |pdu| pdu[11] |= flag);
        assert_eq!(refused(pdu.into()), Refusal::Pieces);
    }
}

#[test]
fn n9_la() {
    for la in [16, 96] {
        let pdu = changed(two_pieces(plain()), |pdu| pdu[13] = la);
        assert_eq!(refused(pdu.into()), Refusal::La);
    }
    // More pieces than have room for their locators; 63 have none in 96 bytes,
    // whatever La is.
    for nop in 3..=63 {
        let pdu = changed(two_pieces(plain()), |pdu| pdu[12] = nop << 1);
        assert_eq!(refused(pdu.into()), Refusal::La, "{nop}");
    }
    for la in 0..=255 {
        let pdu = changed(two_pieces(plain()), |pdu| {
            (pdu[12], pdu[13]) = (63 << 1, la)
        });
        assert_eq!(refused(pdu.into()), Refusal::La, "{la}");
    }
}

#[test]
fn n10_expansion_read() {
    let class_0 = changed(two_pieces(plain()), |pdu| {
        pdu[12] |= 0x80;
        pdu[13] = 18;
        pdu[18] = 0;
    });
    assert_eq!(refused(class_0.into()), Refusal::Expansion);
}

#[test]
fn n10_expansion_written() {
    let right = Settings {
        class: Some(1),
        program: Some(3),
        program_type: Some(ProgramType {
            access: 1,
            type_code: 5,
        }),
        ..plain()
    };
    let services = |applied| Some(Services { applied, marker: 0 });
    assert_eq!(set(Mode::M0, Stream::Core, right), Ok(1));
    let wrong = [
        with(plain(), |s| s.class = Some(0)),
        with(right, |s| s.class = Some(2)),
        with(right, |s| s.class = None),
        with(right, |s| s.program = None),
        with(right, |s| s.program_type = None),
        with(right, |s| s.program_type = Some(ProgramType::default())),
        with(right, |s| s.services = services(2)),
        with(plain(), |s| s.services = services(1)),
    ];
    for settings in wrong {
        let answer = set(Mode::M0, Stream::Core, settings);
        assert_eq!(answer, Err(Refusal::Expansion), "{settings:?}");
    }
}

#[test]
fn n10_displacement_of_a_long_pdu() {
    let displaced = with(plain(), |s| s.displacement = true);
    for (length, answer) in [(16_384, Ok(1)), (16_385, Err(Refusal::Expansion))] {
        let mut writer = writer(Mode::M0, Stream::Core);
        assert_eq!(offer(&mut writer, displaced, 0, &[1], length), answer);
    }
}

#[test]
fn n11_locator_with_its_k() {
    let clean = two_pieces(plain());
    for (k, place, value) in [(0, 14, 18), (1, 16, 21), (1, 16, 96)] {
        let pdu = changed(clean, |pdu| pdu[place] = value);
        let refusal = refused(pdu.into());
        assert_eq!(refusal, Refusal::Locator { k });
        assert_eq!(refusal.number(), 11);
    }
    // Both are wrong: the first one's.
    let pdu = changed(clean, |pdu| (pdu[14], pdu[16]) = (18, 96));
    assert_eq!(refused(pdu.into()), Refusal::Locator { k: 0 });
}

#[test]
fn n12_displacement() {
    let displaced = two_pieces(with(plain(), |s| s.displacement = true));
    // Locators to 17, then ID 1 with the displacement in bytes 19 and 20.
    for (place, refusal) in [(25, Some(Refusal::Displacement)), (26, None)] {
        let mut pdu = changed(displaced, |pdu| pdu[20] = place);
        assert_eq!(read(&mut pdu).err(), refusal, "{place}");
    }
    let past = changed(displaced, |pdu| pdu[20] = 96);
    assert_eq!(refused(past.into()), Refusal::Displacement);
}

#[test]
fn n13_list_of_pieces() {
    let clean = two_pieces(plain());
    let mut pdu = clean;
    pdu[30] ^= 0xFF;
    let damaged = pdu;
    let mut list = [Piece::default(); 2];
    let answer: Result<Reading, Refusal> = list_pieces(&mut pdu, CRC_START, &mut list[..1]);
    assert_eq!(answer, Err(Refusal::LogLength));
    assert_eq!((pdu, list), (damaged, [Piece::default(); 2]));
    list_pieces(&mut pdu, CRC_START, &mut list).unwrap();
    assert_eq!(pdu, clean);
    assert_eq!([list[0].range(), list[1].range()], [18..20, 21..23]);
}

#[test]
fn n14_values() {
    let marker = |marker| Some(Services { applied: 0, marker });
    let wrong = [
        with(plain(), |s| s.blend = 3),
        with(plain(), |s| (s.blend, s.program) = (1, Some(1))),
        with(plain(), |s| s.gain = 7),
        with(plain(), |s| s.gain = 23),
        with(plain(), |s| s.gain = 32),
        with(plain(), |s| s.common_delay = 64),
        with(plain(), |s| s.latency = 8),
        with(plain(), |s| s.program = Some(8)),
        with(plain(), |s| s.services = marker(1 << 21)),
    ];
    for settings in wrong {
        let answer = set(Mode::M1, Stream::Core, settings);
        assert_eq!(answer, Err(Refusal::Value), "{settings:?}");
    }
    let delay = with(plain(), |s| s.gain = 7);
    assert_eq!(set(Mode::M1, Stream::Enhanced, delay), Ok(1));
}

#[test]
fn n15_packets() {
    for lengths in [&[0][..], &[4_097], &[1, 0], &[70_000], &[65_536], &[65_537]] {
        let mut writer = writer(Mode::M0, Stream::Core);
        let answer = offer(&mut writer, plain(), 0, lengths, 96);
        assert_eq!(answer, Err(Refusal::Packets), "{lengths:?}");
    }
    let mut writer = writer(Mode::M0, Stream::Core);
    assert_eq!(offer(&mut writer, plain(), 0, &[100], 96), Ok(0));
    for lengths in [&[][..], &[79]] {
        let answer = offer(&mut writer, plain(), 0, lengths, 96);
        assert_eq!(answer, Err(Refusal::Packets), "{lengths:?}");
    }
    assert_eq!(offer(&mut writer, plain(), 0, &[80], 96), Ok(1));
}

#[test]
fn n16_psd() {
    let cases = [
        (Mode::M0, Stream::Core, 128, Ok(1)),
        (Mode::M0, Stream::Core, 129, Err(Refusal::Psd)),
        (Mode::M13, Stream::Core, 21, Ok(1)),
        (Mode::M13, Stream::Core, 22, Err(Refusal::Psd)),
        (Mode::M10, Stream::Enhanced, 1, Err(Refusal::Psd)),
    ];
    for (mode, stream, psd, answer) in cases {
        let given = offer(&mut writer(mode, stream), plain(), psd, &[1], 200);
        assert_eq!(given, answer, "{mode}, {stream}, {psd}");
    }
}

#[test]
fn n17_room() {
    let mut core = writer(Mode::M0, Stream::Core);
    assert_eq!(offer(&mut core, plain(), 79, &[1], 96), Err(Refusal::Room));
    assert_eq!(offer(&mut core, plain(), 83, &[], 96), Err(Refusal::Room));
    assert_eq!(offer(&mut core, plain(), 82, &[], 96), Ok(0));
}

#[test]
fn the_lowest_number_is_returned() {
    let mut writer = writer(Mode::M0, Stream::Core);
    let gain = with(plain(), |s| s.gain = 7);
    let class = with(gain, |s| s.class = Some(2));
    assert_eq!(
        offer(&mut writer, plain(), 129, &[1], 96),
        Err(Refusal::Psd)
    );
    assert_eq!(
        offer(&mut writer, plain(), 129, &[0], 96),
        Err(Refusal::Packets)
    );
    assert_eq!(offer(&mut writer, gain, 129, &[0], 96), Err(Refusal::Value));
    assert_eq!(
        offer(&mut writer, class, 129, &[0], 96),
        Err(Refusal::Expansion)
    );
    assert_eq!(
        offer(&mut writer, class, 129, &[0], 95),
        Err(Refusal::PduLength)
    );
}

#[test]
fn a_refusal_is_an_error_with_words() {
    let error: Box<dyn std::error::Error> = Box::new(Refusal::Locator { k: 12 });
    let words = error.to_string();
    assert!(
        words.starts_with("refusal 11: ") && words.contains("locator 12"),
        "{words}"
    );
    assert!(Refusal::Room.to_string().starts_with("refusal 17: "));
}
