//! What a written PDU has to say, told from the call alone and looked up in
//! the PDU by reading it: fields, PSD, pieces and CRCs, and that no byte more
//! would have fitted.

use crate::calls::{self, Call};
use referee::crc::crc8_from;
use referee::expansion::Fields;
use referee::header;
use referee::modes::{self, Line};
use referee::reading::{self, Reading};
use referee::writer::{Answer, Writer};

/// The packets of a call as far as they aren't sent yet.
struct Unsent<'a> {
    call: &'a Call,
    line: Line,
    /// Where each packet begins and ends, counted from the first unsent byte.
    begins: Vec<usize>,
    ends: Vec<usize>,
}

impl Unsent<'_> {
    fn of(call: &Call) -> Unsent<'_> {
        let line = modes::line_for(call.writer.mode, call.writer.stream).expect("a line");
        let mut begins = Vec::new();
        let mut ends = Vec::new();
        let mut end = 0;
        for (packet, &length) in call.lengths.iter().enumerate() {
            let sent = if packet == 0 { call.writer.sent } else { 0 };
            begins.push(end);
            end += usize::from(length - sent);
            ends.push(end);
        }
        Unsent {
            call,
            line,
            begins,
            ends,
        }
    }

    fn total(&self) -> usize {
        self.ends.last().copied().unwrap_or(0)
    }

    /// How many packets the first so many bytes are taken from.
    fn pieces(&self, bytes: usize) -> usize {
        self.begins.iter().filter(|&&begin| begin < bytes).count()
    }

    /// How many packets they bring to their end.
    fn ended(&self, bytes: usize) -> usize {
        self.ends.iter().filter(|&&end| end <= bytes).count()
    }

    /// How many bytes stand before the first of so many pieces.
    fn overhead(&self, pieces: usize) -> usize {
        14 + calls::locator_bytes(&self.line, pieces) + self.call.psd_and_expansion()
    }

    /// Whether the first so many bytes fit.
    fn fit(&self, bytes: usize) -> bool {
        let pieces = self.pieces(bytes);
        let limit = calls::count_limit(&self.line, self.call.psd_and_expansion());
        pieces <= limit && self.overhead(pieces) + bytes + pieces <= self.call.length
    }

    /// The writer after so many bytes.
    fn after(&self, bytes: usize) -> Writer {
        let before = &self.call.writer;
        let ended = self.ended(bytes);
        let number = (usize::from(before.number) + ended) % 64;
        let sent = match self.begins.get(ended) {
            Some(&begin) if begin < bytes && ended == 0 => usize::from(before.sent) + bytes,
            Some(&begin) if begin < bytes => bytes - begin,
            _ => 0,
        };
        Writer {
            sequence: (before.sequence + 1) % self.line.sequences,
            number: number as u8,
            sent: sent as u16,
            ..*before
        }
    }
}

/// Checks the answer to an accepted call and the PDU it wrote.
pub fn check(call: &Call, answer: &Answer, pdu: &[u8]) -> Reading {
    assert_eq!(pdu.len(), call.length);
    assert!(header::is_code_word(&header::header_of(pdu)));
    let mut lent = pdu.to_vec();
    let reading = reading::read(&mut lent).expect("a right PDU");
    assert_eq!(lent, pdu);
    let unsent = Unsent::of(call);
    let bytes: usize = reading.pieces.iter().map(|piece| piece.length).sum();
    check_amount(&unsent, bytes);
    assert_eq!(answer.ended, unsent.ended(bytes));
    assert_eq!(answer.writer, unsent.after(bytes));
    check_control(&unsent, &reading, bytes);
    check_expansion(&unsent, &reading, pdu);
    check_psd_and_pieces(&unsent, &reading, pdu);
    reading
}

/// So many bytes fit, and one more doesn't or isn't there. With packets
/// offered at least one is sent.
fn check_amount(unsent: &Unsent, bytes: usize) {
    assert!(unsent.fit(bytes));
    assert!(bytes == unsent.total() || !unsent.fit(bytes + 1));
    assert!(bytes > 0 || unsent.call.lengths.is_empty());
}

fn check_control(unsent: &Unsent, reading: &Reading, bytes: usize) {
    let (writer, settings) = (&unsent.call.writer, &unsent.call.settings);
    let word = &reading.control;
    assert_eq!((word.mode, word.stream), (writer.mode, writer.stream));
    assert_eq!(word.sequence, writer.sequence);
    assert_eq!((word.blend, word.gain), (settings.blend, settings.gain));
    assert_eq!(word.common_delay, settings.common_delay);
    assert_eq!(word.latency, settings.latency);
    let pieces = unsent.pieces(bytes);
    assert_eq!(usize::from(word.nop), pieces);
    assert_eq!(usize::from(word.la), unsent.overhead(pieces) - 1);
    assert_eq!(word.pfirst, writer.sent > 0);
    assert_eq!(word.plast, unsent.ended(bytes) < pieces);
    // Piece 0 has the unfinished packet's number.
    let of_piece_0 = (word.start + 64 - u8::from(word.pfirst)) % 64;
    assert_eq!(of_piece_0, writer.number);
}

fn check_expansion(unsent: &Unsent, reading: &Reading, pdu: &[u8]) {
    let settings = &unsent.call.settings;
    let size = calls::expansion_size(settings);
    assert_eq!(reading.control.expansion, size > 0);
    let last_byte = unsent.call.length - 1;
    let wanted = Fields {
        class_code: settings.class_code.unwrap_or(0),
        program: settings.program.unwrap_or(0),
        displacement: settings.displaced.then_some(last_byte as u16),
        access: settings.program_type.map_or(0, |field| field.access),
        type_code: settings.program_type.map_or(0, |field| field.code),
        services: settings.applied.map_or(0, |field| field.services),
        marker: settings.applied.map_or(0, |field| field.marker),
    };
    assert_eq!(reading.expansion, wanted);
    let first = reading.psd_start - size;
    // ID 1 first, or after the class.
    if size > 0 {
        let place = first + usize::from(settings.class_code.is_some());
        assert_eq!((pdu[place] >> 4) & 7, 1);
    }
    // Bits 2 and 1 of the type are zero.
    if settings.program_type.is_some() {
        let behind = if settings.applied.is_some() { 6 } else { 2 };
        assert_eq!(pdu[first + size - behind] & 0b1111_0110, 0xA0);
    }
}

fn check_psd_and_pieces(unsent: &Unsent, reading: &Reading, pdu: &[u8]) {
    let call = unsent.call;
    let la = usize::from(reading.control.la);
    assert_eq!(pdu[reading.psd_start..=la], call.psd[..]);
    // Four bits that an odd last locator leaves.
    let pieces = reading.pieces.len();
    if unsent.line.locator_bits == 12 && pieces % 2 == 1 {
        assert_eq!(pdu[13 + 3 * (pieces / 2) + 2] >> 4, 0);
    }
    let mut behind = la + 1;
    for (k, piece) in reading.pieces.iter().enumerate() {
        let first = usize::from(call.writer.sent) + unsent.begins[k];
        let sent = &pdu[piece.start..piece.start + piece.length];
        assert_eq!(*sent, call.bytes[first..first + piece.length]);
        let crc = crc8_from(call.writer.register, sent);
        assert_eq!(pdu[piece.start + piece.length], crc);
        assert!(piece.length == unsent.ends[k] - unsent.begins[k] || k + 1 == pieces);
        behind = piece.start + piece.length + 1;
    }
    assert!(pdu[behind..].iter().all(|&byte| byte == 0));
}
