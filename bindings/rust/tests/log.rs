//! The log's iterator on words made by hand (document 01, "Receiver").

use barzhilup::{Cause, Entry, Log, MalformedLog};

/// An entry with its bytes joined.
#[derive(Debug, PartialEq)]
enum Plain {
    Packet(u8, Vec<u8>),
    Psd(Vec<u8>),
    Note(Cause, Option<u16>),
}

/// The entries of these words.
fn entries(words: &[u32]) -> Result<Vec<Plain>, MalformedLog> {
    let log = Log::new(words)?;
    Ok(log
        .entries()
        .map(|entry| match entry {
            Entry::Packet { number, data } => Plain::Packet(number, data.to_vec()),
            Entry::Psd(data) => Plain::Psd(data.to_vec()),
            Entry::Note { cause, piece } => Plain::Note(cause, piece),
        })
        .collect())
}

/// The place at which these words are no log.
fn wrong_at(words: &[u32]) -> usize {
    entries(words).expect_err("no log").place
}

#[test]
fn no_words_are_an_empty_log() {
    assert_eq!(entries(&[]), Ok(vec![]));
}

#[test]
fn every_kind_in_a_row() {
    let words = [
        0xC001_0000, // note 1
        0x8000_0002, // PSD
        0x42AA_BB00,
        0xC002_0007, // note 2, piece 7
        0x003F_0003, // packet 63
        0x4301_0203,
        0x0000_0007, // packet 0
        0x4300_0000,
        0x43FF_FFFF,
        0x4180_0000,
        0xC006_0000, // note 6
    ];
    let expected = vec![
        Plain::Note(Cause::Sequence, None),
        Plain::Psd(vec![0xAA, 0xBB]),
        Plain::Note(Cause::Crc, Some(7)),
        Plain::Packet(63, vec![1, 2, 3]),
        Plain::Packet(0, vec![0, 0, 0, 0xFF, 0xFF, 0xFF, 0x80]),
        Plain::Note(Cause::Lost, None),
    ];
    assert_eq!(entries(&words), Ok(expected));
}

#[test]
fn each_cause_and_its_piece() {
    let words = [
        0xC001_0000,
        0xC002_0000,
        0xC003_0000,
        0xC004_0000,
        0xC005_0035,
        0xC006_0000,
        0xC007_003E,
        0xC008_0000,
    ];
    let expected = vec![
        Plain::Note(Cause::Sequence, None),
        Plain::Note(Cause::Crc, Some(0)),
        Plain::Note(Cause::NothingHeld, Some(0)),
        Plain::Note(Cause::NotContinued, None),
        Plain::Note(Cause::TooLong, Some(0x35)),
        Plain::Note(Cause::Lost, None),
        Plain::Note(Cause::CopiesDiffer, Some(0x3E)),
        Plain::Note(Cause::Withheld, None),
    ];
    assert_eq!(entries(&words), Ok(expected));
}

#[test]
fn the_longest_packet() {
    let mut words = vec![0x0001_1000];
    words.extend([0x4301_0203; 1365]);
    words.push(0x4104_0000);
    let found = entries(&words).unwrap();
    let [Plain::Packet(1, bytes)] = &found[..] else {
        panic!("{} entries", found.len());
    };
    assert_eq!(bytes.len(), 4096);
    assert_eq!((bytes[0], bytes[4094], bytes[4095]), (1, 3, 4));
}

#[test]
fn data_knows_its_length_while_it_is_read() {
    let words = [0x8000_0004, 0x4311_2233, 0x4144_0000];
    let log = Log::new(&words).unwrap();
    let Some(Entry::Psd(data)) = log.into_iter().next() else {
        panic!("PSD");
    };
    let mut bytes = data.bytes();
    for (read, byte) in [0x11, 0x22, 0x33, 0x44].into_iter().enumerate() {
        assert_eq!(bytes.len(), 4 - read);
        assert_eq!(bytes.next(), Some(byte));
    }
    assert_eq!((bytes.len(), bytes.next()), (0, None));
    assert!(data == [0x11, 0x22, 0x33, 0x44][..]);
    assert!(data != [0x11, 0x22, 0x33, 0x45][..]);
    assert!(data != [0x11, 0x22, 0x33][..]);
}

/// A log and its data can be gone through by reference, as often as one likes.
#[test]
fn by_reference() {
    let words = [0xC001_0000, 0x0005_0004, 0x4311_2233, 0x4144_0000];
    let log = Log::new(&words).unwrap();
    for _ in 0..2 {
        let mut seen = Vec::new();
        for entry in &log {
            match entry {
                Entry::Packet { number, data } => {
                    seen.push(number);
                    for byte in &data {
                        seen.push(byte);
                    }
                    assert_eq!(data.len(), 4);
                }
                Entry::Psd(_) => panic!("no PSD"),
                Entry::Note { cause, .. } => assert_eq!(cause, Cause::Sequence),
            }
        }
        assert_eq!(seen, [5, 0x11, 0x22, 0x33, 0x44]);
    }
    assert!((&log).into_iter().eq(log.entries()));
    assert!(log.into_iter().eq(log.entries()));
}

/// What a log holds outlives the borrow that it was gone through with.
#[test]
fn entries_outlive_the_reference() {
    let words = [0x0005_0001, 0x4111_0000];
    let first = |log: Log<'static>| (&log).into_iter().next();
    let words: &'static [u32] = Box::leak(Box::new(words));
    let Some(Entry::Packet { number: 5, data }) = first(Log::new(words).unwrap()) else {
        panic!("packet 5");
    };
    assert_eq!(data.to_vec(), [0x11]);
}

#[test]
fn a_first_word_that_does_not_fit() {
    let wrong = [
        0x4111_0000, // data that follows nothing
        0x0005_0000, // a packet of no bytes
        0x0005_1001, // a packet of 4,097 bytes
        0x0045_0001, // a number over 63
        0x8000_0000, // PSD of no bytes
        0x8001_0001, // PSD with a bit that has no meaning
        0xC000_0000, // note 0
        0xC009_0000, // note 9
        0xC008_0001, // note 8, which is about no piece, with one
        0xC006_0001, // note 6, which is about no piece, with one
    ];
    for word in wrong {
        assert_eq!(wrong_at(&[word, 0x4101_0000]), 0, "{word:08x}");
        assert_eq!(wrong_at(&[0xC006_0000, word]), 1, "{word:08x}");
    }
}

#[test]
fn data_words_that_do_not_fit() {
    let wrong = [
        0x4211_2200, // two bytes where there are three
        0x0311_2233, // another kind
        0x4711_2233, // a bit that has no meaning
    ];
    for word in wrong {
        assert_eq!(wrong_at(&[0x0005_0004, word, 0x4144_0000]), 1, "{word:08x}");
    }
    for word in [0x4144_0001, 0x4244_0000, 0x4044_0000, 0xC006_0000] {
        assert_eq!(wrong_at(&[0x0005_0004, 0x4311_2233, word]), 2, "{word:08x}");
    }
}

#[test]
fn a_cut_packet() {
    assert_eq!(wrong_at(&[0x0005_0004]), 1);
    assert_eq!(wrong_at(&[0x0005_0004, 0x4311_2233]), 2);
    let words = MalformedLog { place: 2 }.to_string();
    assert!(words.contains("word 2"), "{words}");
}
