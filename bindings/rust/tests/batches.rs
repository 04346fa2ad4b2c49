//! PDUs received in one call (document 02, Ask 1), beside one call after another.

use barzhilup::{Mode, Receiver, Refusal, Settings, Stream, Writer};

mod common;
use common::{Random, Row, TABLE};

/// PDUs joined in a buffer, with their lengths.
#[derive(Clone, Default)]
struct Frame {
    bytes: Vec<u8>,
    lengths: Vec<usize>,
}

impl Frame {
    fn push(&mut self, pdu: &[u8]) {
        self.bytes.extend_from_slice(pdu);
        self.lengths.push(pdu.len());
    }

    /// Where a PDU begins.
    fn start(&self, place: usize) -> usize {
        self.lengths[..place].iter().sum()
    }
}

/// So many PDUs of one writer, with up to four bytes of each header altered.
fn frame(random: &mut Random, row: Row, count: usize) -> Frame {
    let mut writer = Writer::open(row.mode, row.stream).unwrap();
    let packets = random.packets(4 * count, 150);
    let (mut frame, mut ended) = (Frame::default(), 0);
    for _ in 0..count {
        let mut pdu = vec![0; 96 + random.below(200)];
        let offered = &packets[ended..];
        ended += writer
            .write(&Settings::default(), b"", offered, &mut pdu)
            .unwrap();
        let altered = random.below(5);
        random.alter(&mut pdu, altered);
        frame.push(&pdu);
    }
    frame
}

/// One call after another: how many PDUs are taken, their logs joined, and why the
/// next one is refused.
fn one_by_one(receiver: &mut Receiver, frame: &mut Frame) -> (usize, Vec<u32>, Option<Refusal>) {
    let (mut place, mut words) = (0, Vec::new());
    for (taken, &length) in frame.lengths.iter().enumerate() {
        match receiver.receive(&mut frame.bytes[place..place + length]) {
            Ok(log) => words.extend_from_slice(log.words()),
            Err(refusal) => return (taken, words, Some(refusal)),
        }
        place += length;
    }
    (frame.lengths.len(), words, None)
}

/// A batch beside one call after another; answers how many PDUs are taken, and why
/// the next one is refused.
fn compare(receiver: &mut Receiver, mut frame: Frame) -> (usize, Option<Refusal>) {
    let (mut other, mut beside) = (receiver.clone(), frame.clone());
    let (taken, words, refusal) = one_by_one(&mut other, &mut beside);
    let batch = receiver
        .receive_batch(&mut frame.bytes, &frame.lengths)
        .unwrap();
    assert_eq!((batch.taken, batch.refusal), (taken, refusal));
    assert_eq!(batch.log.words(), words);
    assert_eq!(*receiver, other);
    assert_eq!(receiver.carry(), other.carry());
    assert_eq!(frame.bytes, beside.bytes);
    (taken, refusal)
}

#[test]
fn none_to_twenty() {
    let mut random = Random::new(0xBA7C);
    for row in TABLE {
        for count in 0..=20 {
            let frame = frame(&mut random, row, count);
            let mut receiver = Receiver::open(row.mode, row.stream).unwrap();
            assert_eq!(compare(&mut receiver, frame), (count, None));
        }
    }
}

/// The logs of more PDUs than a call's log is long enough for.
#[test]
fn long_logs() {
    let packets = vec![vec![7; 2_000]; 10];
    let mut frame = Frame::default();
    let mut writer = Writer::open(Mode::M0, Stream::Core).unwrap();
    for _ in 0..40 {
        let mut pdu = vec![0; 20_480];
        let ended = writer.write(&Settings::default(), b"", &packets, &mut pdu);
        assert_eq!(ended, Ok(10));
        frame.push(&pdu);
    }
    let mut receiver = Receiver::open(Mode::M0, Stream::Core).unwrap();
    assert_eq!(compare(&mut receiver, frame), (40, None));
}

/// A PDU that is refused at each place: those before it are received, and after
/// it is marked lost, those after it.
#[test]
fn refused_at_each_place() {
    let mut random = Random::new(0xBA7D);
    for row in TABLE {
        for place in 0..12 {
            let mut frame = frame(&mut random, row, 12);
            let start = frame.start(place);
            let end = start + frame.lengths[place];
            frame.bytes.drain(start + 95..end);
            frame.lengths[place] = 95;
            let mut receiver = Receiver::open(row.mode, row.stream).unwrap();
            let answer = compare(&mut receiver, frame.clone());
            assert_eq!(answer, (place, Some(Refusal::PduLength)));
            receiver.mark_lost();
            let rest = Frame {
                bytes: frame.bytes[start + 95..].to_vec(),
                lengths: frame.lengths[place + 1..].to_vec(),
            };
            assert_eq!(compare(&mut receiver, rest), (11 - place, None));
        }
    }
}

#[test]
fn n18_lengths() {
    let mut random = Random::new(0xBA7E);
    let Frame { bytes, lengths } = frame(&mut random, TABLE[0], 3);
    let mut receiver = Receiver::open(Mode::M0, Stream::Core).unwrap();
    receiver.receive(&mut bytes[..lengths[0]].to_vec()).unwrap();
    let before = receiver.clone();
    let [one, two, three] = lengths[..] else {
        unreachable!("three PDUs")
    };
    for wrong in [
        vec![],
        vec![one, two],
        vec![one, two, three + 1],
        vec![one, two, three - 1],
        vec![95, two, three],
        vec![one, two, three, 1],
        vec![one, two, three, usize::MAX, 1],
        vec![usize::MAX, one, two, three, 1],
    ] {
        let mut lent = bytes.clone();
        let answer = receiver.receive_batch(&mut lent, &wrong);
        assert_eq!(answer, Err(Refusal::Lengths), "{wrong:?}");
        assert_eq!(lent, bytes);
        assert_eq!(receiver, before);
    }
    assert_eq!(Refusal::Lengths.number(), 18);
    // A PDU of no bytes is a matter of 3; no PDU at all is accepted.
    let none = receiver.receive_batch(&mut [], &[0]).unwrap();
    assert_eq!((none.taken, none.refusal), (0, Some(Refusal::PduLength)));
    let none = receiver.receive_batch(&mut [], &[]).unwrap();
    assert_eq!((none.taken, none.refusal), (0, None));
    assert_eq!(receiver, before);
}
