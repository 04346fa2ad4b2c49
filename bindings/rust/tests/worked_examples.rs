//! The worked examples of document 01, "Examples", by their letters.

use barzhilup::{
    correct_header, correct_header_marked, crc8, parity, read, syndromes, Entry, Log, Mode,
    Receiver, Refusal, Settings, Stream, Writer, WriterState, CRC_START,
};

/// A writer of mode 0, core, with PDUs of 96 bytes, and what it is offered.
fn offer(writer: &mut Writer, psd: usize, lengths: &[usize]) -> Result<(usize, [u8; 96]), Refusal> {
    let packets: Vec<Vec<u8>> = lengths.iter().map(|&length| vec![0xC3; length]).collect();
    let mut pdu = [0xA5; 96];
    let ended = writer.write(&Settings::default(), &vec![7; psd], &packets, &mut pdu)?;
    Ok((ended, pdu))
}

/// A writer that has written example (j)'s PDU, with that PDU.
fn after_j() -> (Writer, [u8; 96]) {
    let mut writer = Writer::open(Mode::M0, Stream::Core).unwrap();
    let (ended, pdu) = offer(&mut writer, 0, &[100]).unwrap();
    assert_eq!(ended, 0);
    (writer, pdu)
}

#[test]
fn a_and_b_control_word_and_locators_of_16_bits() {
    let mut writer = Writer::resume(WriterState {
        mode: Mode::M0,
        stream: Stream::Core,
        crc_start: CRC_START,
        sequence: 1,
        number: 32,
        sent: 10,
    })
    .unwrap();
    let settings = Settings {
        blend: 2,
        common_delay: 5,
        latency: 4,
        ..Settings::default()
    };
    let mut pdu = [0; 701];
    let packets = [vec![1; 282 + 10], vec![2; 399]];
    assert_eq!(writer.write(&settings, b"", &packets, &mut pdu), Ok(2));
    assert_eq!(pdu[8..14], [0x40, 0x04, 0x05, 0x0B, 0x05, 0x11]);
    assert_eq!(pdu[14..18], [0x2C, 0x01, 0xBC, 0x02]);
}

#[test]
fn c_locators_of_12_bits() {
    let mut writer = Writer::open(Mode::M1, Stream::Core).unwrap();
    let mut pdu = [0; 701];
    let packets = [vec![1; 283], vec![2; 399]];
    let ended = writer.write(&Settings::default(), b"", &packets, &mut pdu);
    assert_eq!(ended, Ok(2));
    assert_eq!(pdu[14..17], [0x2C, 0xC1, 0x2B]);
}

#[test]
fn d_e_f_crc() {
    assert_eq!(crc8(&[0x01]), 0x31);
    assert_eq!(crc8(&[0x80]), 0x7A);
    assert_eq!(crc8(&[0x01, 0x00]), 0xF4);
}

/// a to this power, with a^8 = a^4 + a^3 + a^2 + 1.
fn power(exponent: usize) -> u8 {
    (0..exponent).fold(1u8, |x, _| x << 1 ^ if x & 0x80 == 0 { 0 } else { 0x1D })
}

/// The generator's coefficients in bytes 0 to 8, the rest zero.
fn generator() -> [u8; 96] {
    let mut header = [0; 96];
    for (place, exponent) in [36, 203, 3, 220, 253, 211, 240, 176, 0]
        .into_iter()
        .enumerate()
    {
        header[place] = power(exponent);
    }
    header
}

#[test]
fn g_generator_is_a_code_word() {
    let header = generator();
    assert_eq!(syndromes(&header), [0; 8]);
    assert_eq!(parity(&header), header[..8]);
    let mut altered = header;
    altered[90] = 1;
    assert_ne!(syndromes(&altered), [0; 8]);
}

#[test]
fn h_i_generator_with_bytes_zeroed() {
    let mut seen = [0; 2];
    for choice in 0u32..1 << 9 {
        let (count, corrected) = match choice.count_ones() {
            4 => (0, generator()),
            5 => (1, [0; 96]),
            _ => continue,
        };
        let mut header = generator();
        for place in (0..9).filter(|place| choice >> place & 1 == 1) {
            header[place] = 0;
        }
        assert_eq!(correct_header(&mut header), Ok(4), "{choice:b}");
        assert_eq!(header, corrected, "{choice:b}");
        seen[count] += 1;
    }
    assert_eq!(seen, [126, 126]);
}

/// The same bytes zeroed and marked (document 02, Ask 3): the generator comes
/// back, also from eight of its nine bytes.
#[test]
fn generator_with_marked_bytes_zeroed() {
    let mut seen = [0; 9];
    for choice in 0u32..1 << 9 {
        let marks: Vec<u8> = (0..9).filter(|place| choice >> place & 1 == 1).collect();
        if marks.len() == 9 {
            continue;
        }
        let mut header = generator();
        for &place in &marks {
            header[usize::from(place)] = 0;
        }
        let answer = correct_header_marked(&mut header, &marks);
        assert_eq!(answer, Ok(marks.len()), "{choice:b}");
        assert_eq!(header, generator(), "{choice:b}");
        seen[marks.len()] += 1;
    }
    assert_eq!(seen, [1, 9, 36, 84, 126, 126, 84, 36, 9]);
}

#[test]
fn j_part_of_a_packet() {
    let (writer, mut pdu) = after_j();
    assert_eq!(writer.state().sent, 79);
    let reading = read(&mut pdu).unwrap();
    assert_eq!((reading.pieces.len(), &reading.pieces[0]), (1, &(16..95)));
    assert_eq!(pdu[14..16], [95, 0]);
    assert!(reading.control.plast && !reading.control.pfirst);
}

#[test]
fn k_the_rest_and_another() {
    let (mut writer, _) = after_j();
    let (ended, mut pdu) = offer(&mut writer, 0, &[100, 50]).unwrap();
    assert_eq!(ended, 2);
    assert_eq!(pdu[14..18], [39, 0, 90, 0]);
    let control = read(&mut pdu).unwrap().control;
    assert_eq!(control.start, 1);
    assert!(control.pfirst && !control.plast);
}

#[test]
fn l_the_rest_and_a_part() {
    let (mut writer, _) = after_j();
    let (ended, _) = offer(&mut writer, 0, &[100, 56]).unwrap();
    assert_eq!(ended, 1);
    assert_eq!((writer.state().number, writer.state().sent), (1, 55));
}

#[test]
fn m_psd_that_just_fits() {
    let mut writer = Writer::open(Mode::M0, Stream::Core).unwrap();
    let fresh = writer.clone();
    assert_eq!(offer(&mut writer, 79, &[100]), Err(Refusal::Room));
    assert_eq!(writer, fresh);
    let (_, mut pdu) = offer(&mut writer, 78, &[100]).unwrap();
    assert_eq!(read(&mut pdu).unwrap().psd, 16..94);
    assert_eq!(writer.state().sent, 1);
}

#[test]
fn n_log_of_a_packet() {
    let mut writer = Writer::resume(WriterState {
        mode: Mode::M0,
        stream: Stream::Core,
        crc_start: CRC_START,
        sequence: 0,
        number: 5,
        sent: 0,
    })
    .unwrap();
    let mut pdu = [0; 96];
    let packet = [0x11, 0x22, 0x33, 0x44];
    let ended = writer.write(&Settings::default(), b"", &[packet], &mut pdu);
    assert_eq!(ended, Ok(1));
    let mut receiver = Receiver::open(Mode::M0, Stream::Core).unwrap();
    let log = receiver.receive(&mut pdu).unwrap();
    assert_eq!(log.words(), [0x0005_0004, 0x4311_2233, 0x4144_0000]);
    let again = Log::new(log.words()).unwrap();
    let [Entry::Packet { number: 5, data }] = again.entries().collect::<Vec<_>>()[..] else {
        panic!("{log:?}");
    };
    assert_eq!(data.to_vec(), packet);
}

#[test]
fn length_95_is_3() {
    assert_eq!(correct_header(&mut [0; 95]), Err(Refusal::PduLength));
    assert_eq!(read(&mut [0; 95]), Err(Refusal::PduLength));
}
