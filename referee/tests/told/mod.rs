//! The words of the packet log once more, byte by byte from the top (document
//! 01, "Receiver"), the packets in a log, what the CRC's register adds, and the counts of
//! packets delivered and missing (document 02, Ask 14).

use referee::receiver::Receiver;

/// Counts a packet with this number that is delivered, and those missing before it one
/// by one. The counts wrap where they would pass their limit.
pub fn deliver(receiver: &mut Receiver, number: usize) {
    if receiver.delivered > 0 {
        let mut next = usize::from(receiver.last) + 1;
        while next % 64 != number % 64 {
            receiver.missing = receiver.missing.wrapping_add(1);
            next += 1;
        }
    }
    receiver.delivered = receiver.delivered.wrapping_add(1);
    receiver.last = (number % 64) as u8;
}

/// A packet: kind 0, its number in the second byte, its length in the last
/// two.
pub fn packet(number: usize, bytes: &[u8]) -> Vec<u32> {
    let [high, low] = length(bytes);
    let first = u32::from_be_bytes([0, (number % 64) as u8, high, low]);
    [vec![first], data(bytes)].concat()
}

/// PSD: kind 2.
pub fn psd(bytes: &[u8]) -> Vec<u32> {
    let [high, low] = length(bytes);
    let first = u32::from_be_bytes([0x80, 0, high, low]);
    [vec![first], data(bytes)].concat()
}

/// A note: kind 3, the cause in the first half, the piece in the second.
pub fn note(cause: u8, piece: usize) -> u32 {
    u32::from_be_bytes([0xC0, cause, 0, piece as u8])
}

fn length(bytes: &[u8]) -> [u8; 2] {
    u16::try_from(bytes.len()).expect("few bytes").to_be_bytes()
}

/// Kind 1 and how many bytes, then the bytes.
fn data(bytes: &[u8]) -> Vec<u32> {
    let mut words = Vec::new();
    let mut left = bytes;
    while !left.is_empty() {
        words.push(match *left {
            [x] => u32::from_be_bytes([0x41, x, 0, 0]),
            [x, y] => u32::from_be_bytes([0x42, x, y, 0]),
            [x, y, z, ..] => u32::from_be_bytes([0x43, x, y, z]),
            [] => unreachable!(),
        });
        left = &left[left.len().min(3)..];
    }
    words
}

/// What a register that starts at this value in place of 0 adds to the CRC of
/// so many bytes: the value times x^8 for each of them, divided by the CRC's
/// polynomial.
pub fn added(register: u8, bytes: usize) -> u8 {
    let mut value = u32::from(register);
    let steps = if register == 0 { 0 } else { 8 * bytes };
    for _ in 0..steps {
        value <<= 1;
        if value & 0x100 != 0 {
            value ^= 0x131;
        }
    }
    value as u8
}

/// What a log holds, by kind.
#[derive(Default)]
pub struct Kinds {
    /// The words of kind 0, each with its data words.
    pub packets: Vec<u32>,
    /// Those of kind 2, each with its data words.
    pub psd: Vec<u32>,
    /// Those of kind 3.
    pub notes: Vec<u32>,
}

impl Kinds {
    pub fn of(log: &[u32]) -> Kinds {
        let mut kinds = Kinds::default();
        let mut place = 0;
        while place < log.len() {
            let [top, _, high, low] = log[place].to_be_bytes();
            let data = usize::from(u16::from_be_bytes([high, low])).div_ceil(3);
            let (to, size) = match top >> 6 {
                0 => (&mut kinds.packets, 1 + data),
                2 => (&mut kinds.psd, 1 + data),
                3 => (&mut kinds.notes, 1),
                _ => panic!("a data word at {place} that belongs to nothing"),
            };
            to.extend(&log[place..place + size]);
            place += size;
        }
        kinds
    }
}
