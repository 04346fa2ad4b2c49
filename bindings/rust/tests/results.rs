//! A call answers a `Result` where it can be refused, and nowhere else: each such
//! call is refused here once.

use barzhilup::{
    add_parity_share, correct_header, correct_header_marked, join, list_pieces, read,
    smallest_latency, try_latency, waiting_packets, write_parity, Log, Mode, Receiver, Records,
    Refusal, Settings, Stream, Writer, WriterState,
};
use std::fs;
use std::path::Path;

/// A receiver.
fn receiver() -> Receiver {
    Receiver::open(Mode::M0, Stream::Core).unwrap()
}

/// A writer.
fn writer() -> Writer {
    Writer::open(Mode::M0, Stream::Core).unwrap()
}

/// A PDU with this packet.
fn write(packet: &[u8]) -> Result<[u8; 96], Refusal> {
    let mut pdu = [0; 96];
    writer().write(&Settings::default(), b"", &[packet], &mut pdu)?;
    Ok(pdu)
}

/// A PDU with a piece.
fn pdu() -> [u8; 96] {
    write(b"audio").unwrap()
}

/// A call that is refused.
type Refused = fn() -> Option<Refusal>;

/// Each function that answers a `Result`, by its file and name, with a call of it
/// and why this one is refused.
const CALLS: [(&str, &str, Refusal, Refused); 24] = [
    ("header", "write_parity", Refusal::PduLength, || {
        write_parity(&mut []).err()
    }),
    ("header", "correct_header", Refusal::PduLength, || {
        correct_header(&mut []).err()
    }),
    ("header", "correct_header_marked", Refusal::Marks, || {
        correct_header_marked(&mut [0; 96], &[96]).err()
    }),
    ("joining", "join", Refusal::LogWords, || {
        join(&[0], &[]).err()
    }),
    ("latency", "smallest_latency", Refusal::Mode, || {
        smallest_latency(Mode::M0, Stream::Enhanced, &[1]).err()
    }),
    ("latency", "try_latency", Refusal::Counts, || {
        try_latency(Mode::M0, Stream::Core, &[], 0).err()
    }),
    ("latency", "waiting_packets", Refusal::Counts, || {
        waiting_packets(Mode::M0, Stream::Core, &[64], 0, 0, &mut []).err()
    }),
    ("reading", "read", Refusal::PduLength, || {
        read(&mut [0; 95]).err()
    }),
    ("reading", "list_pieces", Refusal::LogLength, || {
        list_pieces(&mut pdu(), 0, &mut []).err()
    }),
    ("receiver", "open", Refusal::Mode, || {
        Receiver::open(Mode::M0, Stream::Enhanced).err()
    }),
    ("receiver", "open_with", Refusal::Mode, || {
        Receiver::open_with(Mode::M13, Stream::Enhanced, 255).err()
    }),
    ("receiver", "open_entitled", Refusal::Programs, || {
        Receiver::open_entitled(Mode::M0, Stream::Core, 0, &[8]).err()
    }),
    ("receiver", "resume", Refusal::CarryLength, || {
        Receiver::resume(receiver().state(), &[0; 4_095]).err()
    }),
    ("receiver", "receive", Refusal::PduLength, || {
        receiver().receive(&mut []).err()
    }),
    ("receiver", "receive_marked", Refusal::Marks, || {
        receiver().receive_marked(&mut pdu(), &[1, 1]).err()
    }),
    ("batch", "receive_batch", Refusal::Lengths, || {
        receiver().receive_batch(&mut [], &[1]).err()
    }),
    ("pair", "receive_pair", Refusal::Uncorrectable, || {
        receiver().receive_pair(&mut [], &mut []).err()
    }),
    ("snapshot", "save", Refusal::WordBuffer, || {
        receiver().save(&mut []).err()
    }),
    ("snapshot", "load", Refusal::Words, || {
        Receiver::load(&[]).err()
    }),
    ("shares", "add_parity_share", Refusal::Value, || {
        add_parity_share([0; 8], 96, 1).err()
    }),
    ("writer", "open", Refusal::Mode, || {
        Writer::open(Mode::M0, Stream::Enhanced).err()
    }),
    ("writer", "open_with", Refusal::Mode, || {
        Writer::open_with(Mode::M13, Stream::Enhanced, 255).err()
    }),
    ("writer", "resume", Refusal::State, || {
        Writer::resume(WriterState {
            number: 64,
            ..writer().state()
        })
        .err()
    }),
    ("writer", "write", Refusal::Packets, || write(b"").err()),
];

/// The public functions of a source file that answer a `Result`.
fn answering(source: &str) -> Vec<String> {
    let signatures = source.split("pub fn ").skip(1);
    signatures
        .filter_map(|text| {
            let signature = text.split(" {").next()?;
            let (name, _) = signature.split_once(['(', '<'])?;
            let answer = signature.split_once(" -> ")?.1;
            answer.contains("Result<").then(|| name.to_string())
        })
        .collect()
}

/// The functions of the crate that answer a `Result`, by file and name, but those
/// of a log's words and of files, whose errors are no refusals.
fn all() -> Vec<(String, String)> {
    let sources = Path::new(env!("CARGO_MANIFEST_DIR")).join("src");
    let mut all = Vec::new();
    for directory in [sources.clone(), sources.join("receiver")] {
        for entry in fs::read_dir(directory).unwrap() {
            let path = entry.unwrap().path();
            let file = path.file_stem().unwrap().to_str().unwrap().to_string();
            if path.is_dir() || ["ffi", "log", "records"].contains(&file.as_str()) {
                continue;
            }
            let source = fs::read_to_string(&path).unwrap();
            all.extend(
                answering(&source)
                    .into_iter()
                    .map(|name| (file.clone(), name)),
            );
        }
    }
    all.sort();
    all
}

#[test]
fn each_result_can_be_a_refusal() {
    let mut tried = Vec::new();
    for (file, name, refusal, call) in CALLS {
        assert_eq!(call(), Some(refusal), "{file} {name}");
        tried.push((file.to_string(), name.to_string()));
    }
    tried.sort();
    assert_eq!(tried, all());
}

#[test]
fn other_errors() {
    assert!(Log::new(&[0]).is_err());
    assert!(Records::open("there is no such file").is_err());
    assert_eq!(Mode::try_from(4), Err(Refusal::Mode));
    assert_eq!(Stream::try_from(2), Err(Refusal::Mode));
}
