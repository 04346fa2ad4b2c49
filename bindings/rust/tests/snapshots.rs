//! Receivers saved as words and loaded again (document 02, Asks 13 and 14): their words in each
//! mode and stream, words of older firmware, refusals 25 and 26, and drives that are
//! interrupted beside the same ones that are not.

use barzhilup::{
    Mode, ProgramType, Receiver, ReceiverState, Refusal, Services, Settings, Stream, Writer,
    SNAPSHOT_WORDS,
};

mod common;
use common::{Random, Row, TABLE};

/// What buffers hold before a call.
const UNTOUCHED: u32 = 0xA5A5_A5A5;

/// Whether the applied services are kept.
fn keeps(row: Row) -> bool {
    row.stream == Stream::Core && row.sequences == 8
}

/// A count of packets: 0, small, any, or the largest.
fn some_count(random: &mut Random) -> u32 {
    let any = random.below(1 << 32) as u32;
    [0, random.below(100) as u32, any, u32::MAX][random.below(4)]
}

/// Any receiver of this row that holds so many bytes.
fn some_receiver(random: &mut Random, row: Row, held: usize) -> Receiver {
    let delivered = some_count(random);
    let counted = delivered > 0;
    let state = ReceiverState {
        mode: row.mode,
        stream: row.stream,
        crc_start: random.below(256) as u8,
        entitled: random.below(256) as u8,
        sequence: (random.below(3) > 0).then(|| random.below(usize::from(row.sequences)) as u8),
        held: held as u16,
        number: if held > 0 { random.below(64) as u8 } else { 0 },
        services: (keeps(row) && random.below(3) > 0).then(|| random.below(8) as u8),
        delivered,
        missing: if counted { some_count(random) } else { 0 },
        last: if counted { random.below(64) as u8 } else { 0 },
    };
    Receiver::resume(state, &random.bytes(4_096)).unwrap()
}

/// The words of a receiver, by the table of kinds; the register and the programs may be
/// left out.
fn words_of(receiver: &Receiver, register: bool, programs: bool) -> Vec<u32> {
    let state = receiver.state();
    let stream = u32::from(state.stream.number());
    let mut words = vec![stream << 4 | u32::from(state.mode.number())];
    if let Some(sequence) = state.sequence {
        words.push(1 << 28 | u32::from(sequence));
    }
    if state.held > 0 {
        words.push(2 << 28 | u32::from(state.number) << 16 | u32::from(state.held));
    }
    if register {
        words.push(3 << 28 | u32::from(state.crc_start));
    }
    if programs {
        let services = state.services.map_or(0, |value| 8 | u32::from(value));
        words.push(4 << 28 | services << 8 | u32::from(state.entitled));
    }
    for some in receiver.held().chunks(3) {
        let mut bytes = [0; 3];
        bytes[..some.len()].copy_from_slice(some);
        let [x, y, z] = bytes;
        words.push(u32::from_be_bytes([0x50 | some.len() as u8, x, y, z]));
    }
    if state.delivered > 0 {
        for count in [state.delivered, state.missing] {
            words.extend([6 << 28 | count >> 16, 6 << 28 | count & 0xFFFF]);
        }
        words.push(6 << 28 | u32::from(state.last));
    }
    words
}

/// The words that a receiver is saved as; the rest of the buffer stays.
fn saved(receiver: &Receiver) -> Vec<u32> {
    let mut words = [UNTOUCHED; SNAPSHOT_WORDS + 3];
    let count = receiver.save(&mut words).unwrap();
    assert!(words[count..].iter().all(|&word| word == UNTOUCHED));
    words[..count].to_vec()
}

const HELD: [usize; 11] = [0, 1, 2, 3, 4, 5, 300, 4_093, 4_094, 4_095, 4_096];

#[test]
fn there_and_back() {
    let mut random = Random::new(13);
    let mut most = 0;
    for row in TABLE {
        for held in HELD {
            for _ in 0..20 {
                let receiver = some_receiver(&mut random, row, held);
                let words = saved(&receiver);
                assert_eq!(words, words_of(&receiver, true, true));
                most = most.max(words.len());
                let loaded = Receiver::load(&words).unwrap();
                assert_eq!(loaded, receiver);
                assert!(loaded.carry()[held..].iter().all(|&byte| byte == 0));
                assert_eq!(saved(&loaded), words);
            }
        }
    }
    assert_eq!(most, SNAPSHOT_WORDS);
}

/// Words without kind 3 mean register 0, without kind 4 nothing entitled and services
/// unknown.
#[test]
fn older_words() {
    let mut random = Random::new(130);
    for row in TABLE {
        for held in HELD {
            let receiver = some_receiver(&mut random, row, held);
            for (register, programs) in [(false, true), (true, false), (false, false)] {
                let state = receiver.state();
                let wanted = ReceiverState {
                    crc_start: if register { state.crc_start } else { 0 },
                    entitled: if programs { state.entitled } else { 0 },
                    services: state.services.filter(|_| programs),
                    ..state
                };
                let loaded = Receiver::load(&words_of(&receiver, register, programs)).unwrap();
                assert_eq!((loaded.state(), loaded.held()), (wanted, receiver.held()));
            }
        }
    }
}

#[test]
fn n25_words() {
    const SIX: u32 = 6 << 28;
    let wrong: [&[u32]; 23] = [
        &[],
        &[4, 3 << 28, 4 << 28],
        &[0x10, 3 << 28, 4 << 28],
        &[0x40, 3 << 28, 4 << 28],
        &[3 << 28, 4 << 28],
        &[0, 0, 3 << 28, 4 << 28],
        &[0, 1 << 28 | 2, 3 << 28, 4 << 28],
        &[0, 2 << 28, 3 << 28, 4 << 28],
        &[0, 2 << 28 | 1, 3 << 28, 4 << 28],
        &[0, 3 << 28, 4 << 28, 0x5144_0000],
        &[0, 3 << 28 | 256, 4 << 28],
        &[0, 3 << 28, 4 << 28 | 0x800],
        &[1, 3 << 28, 4 << 28 | 0x100],
        &[0, 4 << 28, 3 << 28],
        &[0, 3 << 28, 4 << 28, 7 << 28],
        // Kind 6: one word, four and six; nothing delivered; a last number of 64; an
        // unused bit; before kind 4.
        &[0, 3 << 28, 4 << 28, SIX | 1],
        &[0, 3 << 28, 4 << 28, SIX, SIX | 1, SIX, SIX],
        &[0, 3 << 28, 4 << 28, SIX, SIX | 1, SIX, SIX, SIX, SIX],
        &[0, 3 << 28, 4 << 28, SIX, SIX, SIX, SIX, SIX],
        &[0, 3 << 28, 4 << 28, SIX, SIX | 1, SIX, SIX, SIX | 64],
        &[0, 3 << 28, 4 << 28, SIX, SIX | 0x1_0001, SIX, SIX, SIX],
        &[0, 3 << 28, SIX, SIX | 1, SIX, SIX, SIX, 4 << 28],
        &[0, 2 << 28 | 2, 3 << 28, 4 << 28, 0x5111_0000, 0x5122_0000],
    ];
    for words in wrong {
        assert_eq!(Receiver::load(words), Err(Refusal::Words), "{words:x?}");
    }
    // A word too few, one too many.
    let mut random = Random::new(25);
    for row in TABLE {
        for held in HELD {
            let mut words = saved(&some_receiver(&mut random, row, held.max(1)));
            let short = Receiver::load(&words[..words.len() - 1]);
            assert_eq!(short, Err(Refusal::Words));
            for more in [0x5100_0000, 0x6000_0000] {
                words.push(more);
                assert_eq!(Receiver::load(&words), Err(Refusal::Words));
                words.pop();
            }
        }
    }
    assert_eq!(Refusal::Words.number(), 25);
    assert!(Refusal::Words.to_string().starts_with("refusal 25: "));
}

#[test]
fn n26_word_buffer() {
    let mut random = Random::new(26);
    for row in TABLE {
        for held in HELD {
            let receiver = some_receiver(&mut random, row, held);
            let count = words_of(&receiver, true, true).len();
            for short in [0, 1, count - 1] {
                let mut words = vec![UNTOUCHED; short];
                assert_eq!(receiver.save(&mut words), Err(Refusal::WordBuffer));
                assert!(words.iter().all(|&word| word == UNTOUCHED));
            }
            assert_eq!(receiver.save(&mut vec![0; count]), Ok(count));
        }
    }
    assert_eq!(Refusal::WordBuffer.number(), 26);
    let words = Refusal::WordBuffer.to_string();
    assert!(words.starts_with("refusal 26: "));
}

/// Settings of a program, paid or not.
fn settings(random: &mut Random) -> Settings {
    let applied = random.below(2) as u8;
    Settings {
        class: (applied == 1).then_some(1),
        program: Some(1 + random.below(3) as u8),
        program_type: Some(ProgramType {
            access: applied,
            type_code: 0,
        }),
        services: Some(Services { applied, marker: 0 }),
        ..Settings::default()
    }
}

/// The PDUs of a list of packets.
fn write_all(random: &mut Random, row: Row, crc_start: u8) -> Vec<Vec<u8>> {
    let packets = random.packets(40, 300);
    let mut writer = Writer::open_with(row.mode, row.stream, crc_start).unwrap();
    let (mut ended, mut pdus) = (0, Vec::new());
    while ended < packets.len() {
        let mut pdu = vec![0; 96 + random.below(200)];
        let settings = settings(random);
        let offered = &packets[ended..];
        ended += writer.write(&settings, b"", offered, &mut pdu).unwrap();
        pdus.push(pdu);
    }
    pdus
}

/// One PDU by one of the calls.
#[derive(Clone, Copy)]
enum Call {
    Single,
    Marked,
    Batch,
    Pair,
    Lost,
}

/// Takes a PDU by this call; its log.
fn take(receiver: &mut Receiver, call: Call, pdu: &[u8]) -> Vec<u32> {
    let mut pdu = pdu.to_vec();
    let mut copy = pdu.clone();
    pdu[40] ^= 0x99;
    let log = match call {
        Call::Single => receiver.receive(&mut pdu).unwrap(),
        Call::Marked => receiver.receive_marked(&mut pdu, &[40, 3]).unwrap(),
        Call::Batch => {
            let lengths = [pdu.len()];
            let batch = receiver.receive_batch(&mut pdu, &lengths).unwrap();
            assert_eq!((batch.taken, batch.refusal), (1, None));
            batch.log
        }
        Call::Pair => receiver.receive_pair(&mut pdu, &mut copy).unwrap(),
        Call::Lost => receiver.mark_lost(),
    };
    log.words().to_vec()
}

/// A drive interrupted anywhere, any number of times, logs as one never interrupted.
#[test]
fn interrupted_drives() {
    let mut random = Random::new(1_300);
    let calls = [
        Call::Single,
        Call::Marked,
        Call::Batch,
        Call::Pair,
        Call::Lost,
    ];
    let mut held = 0;
    for turn in 0..60 {
        let row = TABLE[turn % TABLE.len()];
        let crc_start = [0, 255, random.below(256) as u8][turn % 3];
        let pdus = write_all(&mut random, row, crc_start);
        let mut plain = Receiver::open_entitled(row.mode, row.stream, crc_start, &[0, 2]).unwrap();
        let mut cut = plain.clone();
        for pdu in &pdus {
            if random.below(2) == 0 {
                held += usize::from(!cut.held().is_empty());
                cut = Receiver::load(&saved(&cut)).unwrap();
                assert_eq!(cut, plain);
            }
            let call = calls[random.below(calls.len())];
            assert_eq!(take(&mut cut, call, pdu), take(&mut plain, call, pdu));
        }
        assert_eq!(cut, plain);
    }
    assert!(held >= 300, "{held}");
}

/// The words stay the same from one version to the next: these are written down.
#[test]
fn words_as_they_are() {
    let state = ReceiverState {
        mode: Mode::M1,
        stream: Stream::Core,
        crc_start: 255,
        entitled: 0b1001,
        sequence: Some(5),
        held: 4,
        number: 9,
        services: Some(1),
        delivered: 0,
        missing: 0,
        last: 0,
    };
    let mut carry = [0; 4_096];
    carry[..4].copy_from_slice(&[0x11, 0x22, 0x33, 0x44]);
    let receiver = Receiver::resume(state, &carry).unwrap();
    let words = [
        0x0000_0001,
        0x1000_0005,
        0x2009_0004,
        0x3000_00FF,
        0x4000_0909,
        0x5311_2233,
        0x5144_0000,
    ];
    assert_eq!(saved(&receiver), words);
    assert_eq!(Receiver::load(&words), Ok(receiver));

    let state = ReceiverState {
        delivered: 70_000,
        missing: 3,
        last: 8,
        ..state
    };
    let receiver = Receiver::resume(state, &carry).unwrap();
    let counts = [
        0x6000_0001,
        0x6000_1170,
        0x6000_0000,
        0x6000_0003,
        0x6000_0008,
    ];
    let words = [&words[..], &counts].concat();
    assert_eq!(saved(&receiver), words);
    assert_eq!(Receiver::load(&words), Ok(receiver));
}
