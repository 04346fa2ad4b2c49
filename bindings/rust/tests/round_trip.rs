//! What is written is read back: settings, PSD and pieces, in every mode and
//! stream of document 01's table.

use barzhilup::{
    list_pieces, read, ControlWord, Expansion, Mode, Piece, ProgramType, Services, Settings,
    Stream, Writer, CRC_START, HEADER_BYTES, PDU_MAX, PDU_MAX_12_BITS,
};

mod common;
use common::{Random, Row, TABLE};

/// A length for a PDU that has room for everything below, PSD too.
fn length(random: &mut Random, row: Row) -> usize {
    let most = if row.locator_bits == 16 {
        PDU_MAX
    } else {
        PDU_MAX_12_BITS
    };
    let spread = if random.below(8) == 0 {
        most - 199
    } else {
        300
    };
    200 + random.below(spread)
}

/// Writes a list of packets and reads each PDU; answers how many PDUs there
/// were.
fn write_and_read(random: &mut Random, row: Row) -> usize {
    let packets = random.packets(70, 500);
    let mut writer = Writer::open(row.mode, row.stream).unwrap();
    let (mut ended, mut joined, mut pdus) = (0, Vec::new(), 0);
    while ended < packets.len() {
        let mut pdu = vec![0xEE; length(random, row)];
        let size = random.below(row.psd + 1);
        let psd = random.bytes(size);
        let before = writer.state();
        let offered = &packets[ended..];
        ended += writer
            .write(&Settings::default(), &psd, offered, &mut pdu)
            .unwrap();
        let clean = pdu.clone();
        let count = random.below(5);
        random.alter(&mut pdu, count);
        let reading = read(&mut pdu).unwrap();
        assert_eq!(pdu, clean);
        assert_eq!(pdu[reading.psd.clone()], psd);
        assert_eq!(reading.control.sequence, before.sequence);
        assert_eq!(
            usize::from(before.sequence),
            pdus % usize::from(row.sequences)
        );
        assert_eq!(reading.control.pfirst, before.sent > 0);
        assert_eq!(reading.control.plast, writer.state().sent > 0);
        for piece in reading.pieces {
            joined.extend_from_slice(&pdu[piece]);
        }
        pdus += 1;
    }
    assert_eq!(joined, packets.concat());
    pdus
}

#[test]
fn packets_come_back() {
    let mut random = Random::new(1);
    for row in TABLE {
        for _ in 0..10 {
            let pdus = write_and_read(&mut random, row);
            assert!(pdus > 1, "{row:?}");
        }
    }
}

/// Settings with every field of the expansion.
const ALL: Settings = Settings {
    blend: 0,
    gain: 29,
    common_delay: 44,
    latency: 6,
    class: Some(1),
    program: Some(5),
    displacement: true,
    program_type: Some(ProgramType {
        access: 1,
        type_code: 200,
    }),
    services: Some(Services {
        applied: 1,
        marker: 1_234_567,
    }),
};

/// The expansion that they give in a PDU of 1,000 bytes.
const ALL_READ: Expansion = Expansion {
    class: 1,
    program: 5,
    displacement: 999,
    access: 1,
    type_code: 200,
    services: 1,
    marker: 1_234_567,
};

#[test]
fn settings_come_back() {
    let mut writer = Writer::open(Mode::M10, Stream::Core).unwrap();
    let mut pdu = [0; 1000];
    let packets = [[1; 40], [2; 40]];
    assert_eq!(writer.write(&ALL, b"PSD", &packets, &mut pdu), Ok(2));
    let reading = read(&mut pdu).unwrap();
    let control = ControlWord {
        mode: Mode::M10,
        stream: Stream::Core,
        sequence: 0,
        blend: 0,
        gain: 29,
        common_delay: 44,
        latency: 6,
        pfirst: false,
        plast: false,
        start: 0,
        nop: 2,
        expansion: true,
        la: 29,
    };
    assert_eq!((reading.control, reading.expansion), (control, ALL_READ));
    assert_eq!(&pdu[reading.psd], b"PSD");
}

#[test]
fn a_field_is_sent_where_it_is_asked_for() {
    let none = Settings::default();
    let mut program = none;
    program.program = Some(0);
    let mut typed = none;
    typed.program_type = Some(ProgramType::default());
    let mut served = none;
    served.services = Some(Services::default());
    for (settings, bytes) in [(none, 0), (program, 1), (typed, 3), (served, 5)] {
        let mut writer = Writer::open(Mode::M0, Stream::Core).unwrap();
        let mut pdu = [0; 96];
        let ended = writer.write(&settings, b"", &[b"x"], &mut pdu);
        assert_eq!(ended, Ok(1));
        let reading = read(&mut pdu).unwrap();
        assert_eq!(reading.control.la, 15 + bytes);
        assert_eq!(reading.control.expansion, bytes > 0);
        assert_eq!(reading.expansion, Expansion::default());
    }
}

#[test]
fn a_listed_piece_has_a_verdict() {
    let mut writer = Writer::open(Mode::M2, Stream::Enhanced).unwrap();
    let mut pdu = [0; 300];
    let packets = [vec![1; 90], vec![2; 60], vec![3; 7]];
    assert_eq!(
        writer.write(&Settings::default(), b"", &packets, &mut pdu),
        Ok(3)
    );
    let second = read(&mut pdu).unwrap().pieces[1].clone();
    assert!(second.start >= HEADER_BYTES, "no correction reaches it");
    pdu[second.start] ^= 1;
    let unused = Piece {
        start: 7,
        length: 8,
        right: true,
    };
    let mut list = [unused; 5];
    let reading = list_pieces(&mut pdu, CRC_START, &mut list).unwrap();
    assert_eq!(
        list[..3].iter().map(Piece::range).collect::<Vec<_>>(),
        reading.pieces
    );
    assert_eq!(
        list.map(|piece| piece.right),
        [true, false, true, true, true]
    );
    assert_eq!(list[3..], [unused; 2]);
}
