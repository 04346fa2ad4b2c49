//! Core and enhanced side by side (document 02, Ask 11).

use barzhilup::{join, Mode, Receiver, Refusal, Settings, Stream, Writer, JOINED_ENHANCED};

/// A packet of one byte with each of these numbers.
fn log(numbers: &[u32]) -> Vec<u32> {
    numbers
        .iter()
        .flat_map(|number| [number << 16 | 1, 0x4100_0000 | (number + 1) << 16])
        .collect()
}

#[test]
fn over_the_turn() {
    let joined = join(&log(&[62, 63, 0]), &log(&[63, 0, 1])).unwrap();
    let packets: Vec<_> = joined
        .packets()
        .map(|packet| {
            let enhanced = packet.enhanced.map(|data| data.to_vec());
            (packet.number, packet.core.to_vec(), enhanced)
        })
        .collect();
    let wanted = [
        (62, vec![63], None),
        (63, vec![64], Some(vec![64])),
        (0, vec![1], Some(vec![1])),
    ];
    assert_eq!(packets, wanted);
    assert_eq!(joined.words()[4], JOINED_ENHANCED | 0x003F_0001);
}

#[test]
fn n23_words() {
    let joined = join(&log(&[5]), &log(&[5])).unwrap();
    let wrong: [&[u32]; 6] = [
        joined.words(),
        &[0x4107_0000],
        &[0x0005_0004, 0x4311_2233],
        &[0x0005_0004, 0x4211_2200, 0x4233_4400],
        &[0x0005_0000],
        &[0x8001_0001, 0x4107_0000],
    ];
    for words in wrong {
        assert_eq!(join(words, &[]), Err(Refusal::LogWords));
        assert_eq!(join(&[], words), Err(Refusal::LogWords));
        assert_eq!(join(&log(&[3, 3]), words), Err(Refusal::LogWords));
    }
    assert_eq!(Refusal::LogWords.number(), 23);
    assert!(Refusal::LogWords.to_string().starts_with("refusal 23: "));
}

/// An entry of so many bytes, all 1, with its first word.
fn entry(first: u32, length: u32) -> Vec<u32> {
    let mut words = vec![first | length];
    words.extend(vec![0x4301_0101; length as usize / 3]);
    words.extend([0x4101_0000u32, 0x4201_0100].get((length as usize + 2) % 3));
    words
}

#[test]
fn the_longest_packet() {
    for length in [1, 2, 3, 4_095, 4_096] {
        let words = entry(0x0005_0000, length);
        assert_eq!(join(&words, &[]).unwrap().words(), words);
        assert_eq!(join(&words, &words).unwrap().words().len(), 2 * words.len());
    }
    for length in [4_097, 4_098, 65_535] {
        let words = entry(0x0005_0000, length);
        assert_eq!(join(&words, &[]), Err(Refusal::LogWords));
        assert_eq!(join(&[], &words), Err(Refusal::LogWords));
        // PSD may be longer.
        let psd = entry(0x8000_0000, length);
        assert!(join(&psd, &psd).unwrap().words().is_empty());
    }
}

#[test]
fn joined_again() {
    // A result without a pair is a log, and joined again it is the same.
    let joined = join(&log(&[62, 63]), &log(&[0])).unwrap();
    assert_eq!(join(joined.words(), &[]), Ok(joined.clone()));
}

#[test]
fn n24_numbers() {
    assert_eq!(join(&log(&[3, 3]), &[]), Err(Refusal::Numbers));
    assert_eq!(join(&log(&[5, 7, 6]), &[]), Err(Refusal::Numbers));
    assert_eq!(join(&log(&[3]), &log(&[5, 7, 6])), Err(Refusal::Numbers));
    for core in [
        &[][..],
        &[0xC006_0000],
        &[0xC002_0001, 0x8000_0001, 0x4107_0000],
    ] {
        let joined = join(core, &log(&[5, 5])).unwrap();
        assert!(joined.words().is_empty());
        assert_eq!(joined.packets().next(), None);
    }
    assert_eq!(Refusal::Numbers.number(), 24);
    assert!(Refusal::Numbers.to_string().starts_with("refusal 24: "));
}

/// The logs of a receiver, joined, for a stream of these packets, of whose PDUs
/// some are lost.
fn received(stream: Stream, packets: &[&[u8]], lost: impl Fn(usize) -> bool) -> Vec<u32> {
    let mut writer = Writer::open(Mode::M1, stream).unwrap();
    let mut receiver = Receiver::open(Mode::M1, stream).unwrap();
    let mut left = packets;
    let mut words = Vec::new();
    for count in 0.. {
        if left.is_empty() {
            break;
        }
        let mut pdu = [0; 120];
        let ended = writer
            .write(&Settings::default(), b"", left, &mut pdu)
            .unwrap();
        left = &left[ended..];
        let log = if lost(count) {
            receiver.mark_lost()
        } else {
            receiver.receive(&mut pdu).unwrap()
        };
        words.extend(log.words());
    }
    words
}

#[test]
fn what_receivers_logged() {
    let packets: Vec<Vec<u8>> = (1..40).map(|length| vec![length; length.into()]).collect();
    let packets: Vec<&[u8]> = packets.iter().map(Vec::as_slice).collect();
    let core = received(Stream::Core, &packets, |count| count % 5 == 3);
    let enhanced = received(Stream::Enhanced, &packets, |count| count % 3 == 1);
    let joined = join(&core, &enhanced).unwrap();
    let (mut alone, mut pairs) = (0, 0);
    for packet in &joined {
        let sent = packets[usize::from(packet.number)];
        assert_eq!(packet.core.to_vec(), sent);
        match packet.enhanced {
            Some(data) => {
                assert_eq!(data.to_vec(), sent);
                pairs += 1;
            }
            None => alone += 1,
        }
    }
    assert!(alone > 3 && pairs > 3, "{alone} alone, {pairs} pairs");
    // Without losses each core packet has its enhanced one.
    let core = received(Stream::Core, &packets, |_| false);
    let joined = join(&core, &core).unwrap();
    assert_eq!(joined.packets().count(), packets.len());
    assert!((&joined).into_iter().eq(joined.packets()));
    assert!(joined
        .packets()
        .all(|packet| packet.enhanced == Some(packet.core)));
}
