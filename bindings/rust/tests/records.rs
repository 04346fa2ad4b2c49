//! PDUs from a file of records: lengths, lost PDUs, files that are cut or no
//! files of PDUs, sources that fail.

use barzhilup::{Entry, Mode, Receiver, Record, RecordError, Records, Settings, Stream, Writer};
use std::error::Error;
use std::io::{self, Read};

mod common;
use common::Random;

/// A file with these records; an empty one is a PDU that is lost.
fn file(records: &[Vec<u8>]) -> Vec<u8> {
    let mut file = Vec::new();
    for record in records {
        file.extend((record.len() as u16).to_le_bytes());
        file.extend(record);
    }
    file
}

/// What these bytes are to be read as.
fn record(bytes: &[u8]) -> Record {
    match bytes {
        [] => Record::Lost,
        pdu => Record::Pdu(pdu.to_vec()),
    }
}

/// The records before an error, and the error if there is one. It is the last
/// item.
fn read<R: Read>(source: R) -> (Vec<Record>, Option<RecordError>) {
    let mut records = Records::new(source);
    let mut read = Vec::new();
    let error = loop {
        match records.next() {
            Some(Ok(record)) => read.push(record),
            Some(Err(error)) => break Some(error),
            None => break None,
        }
    };
    assert!((0..3).all(|_| records.next().is_none()));
    (read, error)
}

/// A source that hands out so many bytes with each read, and says before each
/// that it was interrupted.
struct Slow<'a> {
    bytes: &'a [u8],
    step: usize,
    interrupted: bool,
}

impl<'a> Slow<'a> {
    fn new(bytes: &'a [u8], step: usize) -> Slow<'a> {
        Slow {
            bytes,
            step,
            interrupted: false,
        }
    }
}

impl Read for Slow<'_> {
    fn read(&mut self, buffer: &mut [u8]) -> io::Result<usize> {
        self.interrupted = !self.interrupted;
        if self.interrupted {
            return Err(io::ErrorKind::Interrupted.into());
        }
        let count = self.step.min(buffer.len());
        self.bytes.read(&mut buffer[..count])
    }
}

#[test]
fn an_empty_file() {
    assert!(matches!(read(&[][..]), (records, None) if records.is_empty()));
}

/// Every length that a PDU can have, 0 among them, with its low byte first.
#[test]
fn every_length() {
    let bytes = Random::new(31).bytes(20_480);
    let mut source = Vec::new();
    for length in 0..=20_480 {
        source.clear();
        source.extend([(length % 256) as u8, (length / 256) as u8]);
        source.extend(&bytes[..length]);
        source.extend([0, 0]);
        let (records, error) = read(&source[..]);
        assert!(error.is_none(), "{error:?}");
        assert_eq!(records, [record(&bytes[..length]), Record::Lost]);
    }
}

#[test]
fn lengths_that_no_pdu_has() {
    let before = file(&[vec![1; 96], vec![], vec![2; 300]]);
    assert_eq!(before.len(), 402);
    for length in 20_481..=u16::MAX {
        let mut source = before.clone();
        source.extend(length.to_le_bytes());
        source.extend([0; 6]);
        let (records, error) = read(&source[..]);
        assert_eq!(records.len(), 3);
        let error = error.unwrap();
        assert!(
            matches!(error, RecordError::TooLong { offset: 402, length: said } if said == length)
        );
        assert_eq!(error.offset(), 402);
        let words = format!("the record at byte 402 says {length} bytes");
        assert!(error.to_string().starts_with(&words), "{error}");
    }
}

/// A file cut anywhere ends with an error, unless it is cut between two records.
#[test]
fn cut_anywhere() {
    let mut random = Random::new(3_131);
    let written: Vec<_> = [96, 0, 1, 0, 0, 257, 130]
        .map(|length| random.bytes(length))
        .to_vec();
    let whole = file(&written);
    let wanted: Vec<_> = written.iter().map(|bytes| record(bytes)).collect();
    let begins: Vec<_> = (0..=written.len())
        .map(|count| file(&written[..count]).len())
        .collect();
    let mut cut = 0;
    for end in 0..=whole.len() {
        let count = begins.iter().filter(|&&begin| begin <= end).count() - 1;
        let (records, error) = read(&whole[..end]);
        assert_eq!(records, wanted[..count]);
        if begins.contains(&end) {
            assert!(error.is_none(), "{error:?}");
            continue;
        }
        let error = error.unwrap();
        let begin = begins[count] as u64;
        assert!(matches!(error, RecordError::Cut { offset } if offset == begin));
        assert_eq!(
            error.to_string(),
            format!("the file ends inside the record at byte {begin}")
        );
        assert!(error.source().is_none());
        cut += 1;
    }
    assert_eq!(cut, whole.len() - written.len());
}

#[test]
fn slow_and_interrupted() {
    let written = [vec![1; 96], vec![], vec![2; 300]];
    let source = file(&written);
    for step in [1, 2, 3, 97, 1_000] {
        let (records, error) = read(Slow::new(&source, step));
        assert!(error.is_none(), "{error:?}");
        assert_eq!(records, written.each_ref().map(|bytes| record(bytes)));
        let (records, error) = read(Slow::new(&source[..200], step));
        assert_eq!(records.len(), 2);
        assert!(matches!(error, Some(RecordError::Cut { offset: 100 })));
    }
}

/// A source that fails.
struct Broken;

impl Read for Broken {
    fn read(&mut self, _: &mut [u8]) -> io::Result<usize> {
        Err(io::ErrorKind::PermissionDenied.into())
    }
}

#[test]
fn a_source_that_fails() {
    let whole = file(&[vec![1; 96], vec![2; 300]]);
    for (end, count, begin) in [(0, 0, 0), (1, 0, 0), (98, 1, 98), (99, 1, 98), (150, 1, 98)] {
        let (records, error) = read(whole[..end].chain(Broken));
        assert_eq!(records.len(), count);
        let error = error.unwrap();
        assert!(matches!(error, RecordError::Read { .. }), "{error:?}");
        assert_eq!(error.offset(), begin);
        let source: &io::Error = error.source().unwrap().downcast_ref().unwrap();
        assert_eq!(source.kind(), io::ErrorKind::PermissionDenied);
    }
}

/// A drive written to a file and received from there, with a PDU that is lost.
#[test]
fn a_drive_in_a_file() {
    let path = std::path::Path::new(env!("CARGO_TARGET_TMPDIR")).join("drive.pdus");
    let packets: Vec<_> = (0..40).map(|number| vec![number; 70]).collect();
    let mut writer = Writer::open(Mode::M1, Stream::Core).unwrap();
    let (mut pdus, mut ended) = (Vec::new(), 0);
    while ended < packets.len() {
        let mut pdu = vec![0; 200];
        ended += writer
            .write(&Settings::default(), b"", &packets[ended..], &mut pdu)
            .unwrap();
        pdus.push(pdu);
    }
    pdus[3].clear();
    std::fs::write(&path, file(&pdus)).unwrap();

    let mut receiver = Receiver::open(Mode::M1, Stream::Core).unwrap();
    let (mut delivered, mut lost) = (0, 0);
    for record in Records::open(&path).unwrap() {
        let log = match record.unwrap() {
            Record::Pdu(mut pdu) => receiver.receive(&mut pdu).unwrap(),
            Record::Lost => {
                lost += 1;
                receiver.mark_lost()
            }
        };
        for entry in &log {
            if let Entry::Packet { number, data } = entry {
                assert_eq!(data.to_vec(), packets[usize::from(number)]);
                delivered += 1;
            }
        }
    }
    assert_eq!((lost, receiver.delivered()), (1, delivered));
    assert_eq!(delivered + receiver.missing(), 40);
    assert!(receiver.missing() > 0);
    assert!(Records::open(path.with_extension("missing")).is_err());
}
