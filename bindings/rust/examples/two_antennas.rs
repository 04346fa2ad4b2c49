//! Two receivers on one signal: packets are written to PDUs, each antenna gets its
//! own noise, and three logs are counted, that of each antenna and that of the
//! pairs.

use barzhilup::{Entry, Log, Mode, Receiver, Refusal, Settings, Stream, Writer};

const MODE: Mode = Mode::M1;
const STREAM: Stream = Stream::Core;

/// Packets of different lengths.
fn packets() -> Vec<Vec<u8>> {
    (0..60)
        .map(|i: usize| vec![i as u8; 60 + (37 * i) % 100])
        .collect()
}

/// Writes all packets to PDUs of 300 bytes.
fn write_all(packets: &[Vec<u8>]) -> Result<Vec<[u8; 300]>, Refusal> {
    let mut writer = Writer::open(MODE, STREAM)?;
    let mut pdus = Vec::new();
    let mut ended = 0;
    while ended < packets.len() {
        let mut pdu = [0; 300];
        ended += writer.write(&Settings::default(), b"", &packets[ended..], &mut pdu)?;
        pdus.push(pdu);
    }
    Ok(pdus)
}

/// What an antenna hears: noise in a piece of two PDUs of three, and now and then in
/// more header bytes than can be corrected.
fn heard(place: usize, antenna: usize, pdu: &[u8; 300]) -> [u8; 300] {
    let mut pdu = *pdu;
    if place % 3 != antenna {
        pdu[110 + 150 * antenna + place % 30] ^= 0x10;
    }
    if place % 11 == 5 * antenna + 2 {
        pdu[10..20].fill(0xEE);
    }
    pdu
}

/// How many packets a log has.
fn count(log: Log) -> usize {
    log.entries()
        .filter(|entry| matches!(entry, Entry::Packet { .. }))
        .count()
}

/// Receives a PDU, which is marked lost where it is refused; how many packets it
/// brought.
fn receive(receiver: &mut Receiver, pdu: &mut [u8]) -> usize {
    if let Ok(log) = receiver.receive(pdu) {
        return count(log);
    }
    count(receiver.mark_lost())
}

fn main() -> Result<(), Refusal> {
    let packets = packets();
    let pdus = write_all(&packets)?;
    let fresh = Receiver::open(MODE, STREAM)?;
    let (mut antennas, mut both) = ([fresh.clone(), fresh.clone()], fresh);
    let (mut alone, mut paired) = ([0; 2], 0);
    for (place, pdu) in pdus.iter().enumerate() {
        for (antenna, receiver) in antennas.iter_mut().enumerate() {
            alone[antenna] += receive(receiver, &mut heard(place, antenna, pdu));
        }
        let (mut first, mut second) = (heard(place, 0, pdu), heard(place, 1, pdu));
        paired += match both.receive_pair(&mut first, &mut second) {
            Ok(log) => count(log),
            Err(_) => count(both.mark_lost()),
        };
    }
    println!("{} packets in {} PDUs", packets.len(), pdus.len());
    println!("first antenna: {} packets", alone[0]);
    println!("second antenna: {} packets", alone[1]);
    println!("both: {paired} packets");
    Ok(())
}
