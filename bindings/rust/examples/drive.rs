//! A short drive: packets are written to PDUs, one PDU is lost, the header of
//! another is damaged in four bytes, one piece is damaged, and a receiver's log
//! is printed.

use barzhilup::{Entry, Log, Mode, Receiver, Refusal, Settings, Stream, Writer};

const MODE: Mode = Mode::M1;
const STREAM: Stream = Stream::Core;

/// The PDU that is lost on the way.
const LOST: usize = 2;

/// The PDU whose header is damaged in four bytes.
const DAMAGED: usize = 4;

/// The PDU of which a byte behind the header is damaged.
const SPOILED: usize = 6;

/// Packets of different lengths.
fn packets() -> Vec<Vec<u8>> {
    (0..14)
        .map(|i: usize| vec![i as u8; 60 + (37 * i) % 100])
        .collect()
}

/// Writes all packets to PDUs of 200 bytes, with a little PSD in each.
fn write_all(packets: &[Vec<u8>]) -> Result<Vec<[u8; 200]>, Refusal> {
    let mut writer = Writer::open(MODE, STREAM)?;
    let mut pdus = Vec::new();
    let mut ended = 0;
    while ended < packets.len() {
        let mut pdu = [0; 200];
        ended += writer.write(&Settings::default(), b"title", &packets[ended..], &mut pdu)?;
        pdus.push(pdu);
    }
    Ok(pdus)
}

/// What the road does to a PDU.
fn travel(place: usize, pdu: &mut [u8; 200]) {
    if place == DAMAGED {
        for byte in [2, 9, 13, 95] {
            pdu[byte] ^= 0xFF;
        }
    }
    if place == SPOILED {
        pdu[150] ^= 0x10;
    }
}

/// Prints the log of one call.
fn print(place: usize, log: &Log) {
    println!("PDU {place}:");
    for entry in log {
        match entry {
            Entry::Packet { number, data } => println!("  packet {number}, {} bytes", data.len()),
            Entry::Psd(data) => println!("  PSD {:?}", String::from_utf8_lossy(&data.to_vec())),
            Entry::Note { cause, piece: None } => println!("  note: {cause}"),
            Entry::Note {
                cause,
                piece: Some(k),
            } => println!("  note on piece {k}: {cause}"),
        }
    }
}

fn main() -> Result<(), Refusal> {
    let packets = packets();
    let pdus = write_all(&packets)?;
    println!("{} packets in {} PDUs", packets.len(), pdus.len());
    let mut receiver = Receiver::open(MODE, STREAM)?;
    for (place, mut pdu) in pdus.into_iter().enumerate() {
        travel(place, &mut pdu);
        let log = if place == LOST {
            receiver.mark_lost()
        } else {
            receiver.receive(&mut pdu)?
        };
        print(place, &log);
    }
    Ok(())
}
