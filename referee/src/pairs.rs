//! Two antennas, one drive (document 02, Ask 5): of two copies of a PDU the one to
//! take, and the call that receives both, with refusal 20 and note 7.

use crate::control;
use crate::header;
use crate::reading::{self, Reading};
use crate::receiver::{self, Answer, Heard, Receiver, Said};
use crate::refusal::{Cause, ReceiverCause};

/// How many bytes of the header are mended; none where it is beyond mending. A
/// length refused with 3 counts as that.
pub fn mended_bytes(pdu: &[u8]) -> Option<u32> {
    header::check_length(pdu).ok()?;
    header::correct(&header::header_of(pdu)).map(|(_, count)| count)
}

/// The chosen buffer itself, unchanged: the one with fewer mended bytes, the first
/// if equal, the other where one can't be mended, an empty part of the first where
/// neither can.
pub fn choose<'a>(first: &'a [u8], second: &'a [u8]) -> &'a [u8] {
    match (mended_bytes(first), mended_bytes(second)) {
        (Some(one), Some(other)) if other < one => second,
        (Some(_), _) => first,
        (None, Some(_)) => second,
        (None, None) => &first[..0],
    }
}

/// A copy that can be mended.
struct Copy {
    /// The whole PDU with its header mended.
    mended: Vec<u8>,
    reading: Result<Reading, reading::Refusal>,
    /// Its causes for a refusal, of the numbers 5 to 12.
    causes: Vec<ReceiverCause>,
}

impl Copy {
    /// None where the copy can't be mended.
    fn of(receiver: &Receiver, pdu: &[u8]) -> Option<Copy> {
        header::check_length(pdu).ok()?;
        let mut mended = reading::mended(pdu, &[])?;
        let reading = reading::read(&mut mended);
        let mut causes = receiver::pdu_causes(&reading);
        causes.extend(receiver::opened_causes(receiver, &mended, &[]));
        Some(Copy {
            mended,
            reading,
            causes,
        })
    }

    /// Bytes 8 to La, as far as the PDU goes.
    fn before_pieces(&self) -> &[u8] {
        let la = usize::from(self.mended[control::FIRST + control::BYTES - 1]);
        let end = self.mended.len().min(la + 1);
        self.mended.get(control::FIRST..end).unwrap_or(&[])
    }
}

/// Receives two lent copies of a PDU. Each header that can be mended is left
/// mended, and no other byte of them changes; when refused nothing does.
pub fn receive(
    receiver: Receiver,
    carry: &mut [u8],
    first: &mut [u8],
    second: &mut [u8],
    log: &mut [u32],
) -> Answer {
    let one = Copy::of(&receiver, first);
    let other = Copy::of(&receiver, second);
    let mut causes = receiver::state_causes(&receiver);
    causes.extend(receiver::carry_causes(carry.len()));
    for copy in [&one, &other].into_iter().flatten() {
        causes.extend(&copy.causes);
    }
    match (&one, &other) {
        (None, None) => causes.push(ReceiverCause::Pdu(Cause::BeyondMending)),
        (Some(one), Some(other)) => causes.extend(differing_causes(one, other)),
        _ => {}
    }
    if !causes.is_empty() {
        return receiver::refused(receiver, causes);
    }
    let answer = match (&one, &other) {
        (Some(one), Some(other)) => both(receiver, carry, one, other, log),
        // Where only one mends, that one is received alone.
        (Some(_), None) => return receiver::receive(receiver, carry, first, log),
        _ => return receiver::receive(receiver, carry, second, log),
    };
    if answer.refusal == 0 {
        first.copy_from_slice(&one.expect("a copy").mended);
        second.copy_from_slice(&other.expect("a copy").mended);
    }
    answer
}

/// Refusal 20: lengths or mended bytes 8 to La differ.
fn differing_causes(one: &Copy, other: &Copy) -> Vec<ReceiverCause> {
    let mut causes = Vec::new();
    if one.mended.len() != other.mended.len() {
        causes.push(ReceiverCause::LengthsDiffer);
    }
    if one.before_pieces() != other.before_pieces() {
        causes.push(ReceiverCause::BytesDiffer);
    }
    causes
}

/// Both can be mended, and say the same before the first piece.
fn both(receiver: Receiver, carry: &mut [u8], one: &Copy, other: &Copy, log: &mut [u32]) -> Answer {
    let reading = one.reading.as_ref().expect("no cause for a refusal");
    let pieces: Vec<Said> = reading
        .pieces
        .iter()
        .map(|&piece| {
            // The first's bytes if only its CRC is right, the second's likewise,
            // either if both are right and agree.
            let of_one = receiver::right_piece(&receiver, piece, &one.mended);
            let of_other = receiver::right_piece(&receiver, piece, &other.mended);
            match (of_one, of_other) {
                (Some(bytes), None) | (None, Some(bytes)) => Said::Bytes(bytes),
                (Some(bytes), Some(others)) if bytes == others => Said::Bytes(bytes),
                (None, None) => Said::WrongCrc,
                (Some(_), Some(_)) => Said::Differing,
            }
        })
        .collect();
    let heard = Heard::new(&receiver, carry, reading, &one.mended, &pieces);
    heard.answer(receiver, carry, log)
}

#[cfg(test)]
mod tests {
    use super::*;
    use crate::control::ControlWord;
    use crate::encode::{Parts, Piece};
    use crate::locators;
    use crate::log::{self, Entry, Note};

    /// What the log holds before the call.
    const UNTOUCHED: u32 = 0xEEEE_EEEE;

    /// A PDU of mode 0, core, with sequence 0, starting number 5, one byte of PSD
    /// and these pieces; to the CRC of each the given byte is added.
    fn pdu(flags: (bool, bool), pieces: &[(&[u8], u8)]) -> Vec<u8> {
        let la = locators::last_byte(16, pieces.len()) + 1;
        let mut placed = Vec::new();
        let mut locators = Vec::new();
        let mut end = la;
        for &(bytes, crc_error) in pieces {
            placed.push(Piece {
                start: end + 1,
                bytes: bytes.to_vec(),
                crc_error,
            });
            end += 1 + bytes.len();
            locators.push(end);
        }
        let parts = Parts {
            control: ControlWord {
                pfirst: flags.0,
                plast: flags.1,
                start: 5,
                nop: pieces.len() as u8,
                la: la as u8,
                ..ControlWord::default()
            },
            locator_bits: 16,
            locators,
            psd: vec![9],
            pieces: placed,
            ..Parts::default()
        };
        let mut pdu = vec![0; (end + 1).max(header::PLACES)];
        parts.encode(&mut pdu);
        pdu
    }

    /// The PDU with this byte of the header another one.
    fn with(pdu: &[u8], place: usize, byte: u8) -> Vec<u8> {
        let mut pdu = pdu.to_vec();
        pdu[place] = byte;
        header::write_parity(&mut pdu).expect("a length of PDUs");
        pdu
    }

    /// The PDU with so many bytes of the header altered.
    fn altered(pdu: &[u8], count: usize) -> Vec<u8> {
        let mut pdu = pdu.to_vec();
        for place in 0..count {
            pdu[20 * place + 3] ^= 0x5A;
        }
        pdu
    }

    /// Beyond mending, for lengths of PDUs.
    fn beyond(pdu: &[u8]) -> Vec<u8> {
        let damaged = altered(pdu, 5);
        assert_eq!(mended_bytes(&damaged), None);
        damaged
    }

    /// Receives the pair and looks at what must not change.
    fn received(
        receiver: Receiver,
        first: &[u8],
        second: &[u8],
        words: usize,
    ) -> (Answer, Vec<Entry>) {
        let mut copies = [first.to_vec(), second.to_vec()];
        let mut carry = vec![0xCA; receiver::CARRY_BYTES];
        let mut log = vec![UNTOUCHED; words];
        let [one, other] = &mut copies;
        let answer = receive(receiver, &mut carry, one, other, &mut log);
        assert!(log[answer.words..].iter().all(|&word| word == UNTOUCHED));
        if answer.refusal != 0 {
            assert_eq!((answer.words, answer.receiver), (0, receiver));
            assert_eq!(copies, [first, second]);
            assert!(carry.iter().all(|&byte| byte == 0xCA));
        } else {
            for (copy, before) in copies.iter().zip([first, second]) {
                let mended = reading::mended(before, &[]);
                let right = match mended_bytes(before) {
                    Some(_) => mended.expect("a header"),
                    None => before.to_vec(),
                };
                assert_eq!(*copy, right);
            }
        }
        let entries = log::entries(&log[..answer.words]).expect("entries");
        (answer, entries)
    }

    fn number(first: &[u8], second: &[u8]) -> u32 {
        let fresh = receiver::open(0, 0).unwrap();
        received(fresh, first, second, receiver::LOG_WORDS)
            .0
            .refusal
    }

    #[test]
    fn choosing() {
        let right = pdu((false, false), &[(&[1], 0)]);
        for one in 0..=5 {
            for other in 0..=5 {
                let first = altered(&right, one);
                let second = altered(&right, other);
                let chosen = choose(&first, &second);
                let wanted = match (one, other) {
                    (5, 5) => &first[..0],
                    _ if other < one => &second,
                    _ => &first,
                };
                assert_eq!(chosen.as_ptr(), wanted.as_ptr());
                assert_eq!(chosen.len(), wanted.len());
            }
        }
        let long = vec![0; 20_481];
        let zero = vec![0; 20_480];
        for wrong in [&right[..95], &long, &[]] {
            assert_eq!(choose(wrong, &right), right);
            assert_eq!(choose(&right, wrong), right);
            assert_eq!(choose(wrong, wrong).len(), 0);
            assert_eq!(choose(wrong, &zero).as_ptr(), zero.as_ptr());
        }
    }

    /// Each piece of three right, wrong or differing in its copies.
    #[test]
    fn pieces() {
        let fresh = receiver::open(0, 0).unwrap();
        let note = |note| vec![Entry::Note(note)];
        for (one, other, wanted) in [
            ((1, 0), (1, 0), vec![Entry::Packet(6, vec![1, 2])]),
            ((1, 0), (1, 7), vec![Entry::Packet(6, vec![1, 2])]),
            ((1, 7), (1, 0), vec![Entry::Packet(6, vec![1, 2])]),
            ((1, 0), (8, 7), vec![Entry::Packet(6, vec![1, 2])]),
            ((8, 7), (1, 0), vec![Entry::Packet(6, vec![1, 2])]),
            ((1, 7), (1, 7), note(Note::WrongCrc(1))),
            ((1, 7), (1, 8), note(Note::WrongCrc(1))),
            ((1, 7), (2, 7), note(Note::WrongCrc(1))),
            ((1, 0), (2, 0), note(Note::Differing(1))),
        ] {
            let copy = |(byte, crc): (u8, u8)| {
                pdu((false, false), &[(&[7], 0), (&[byte, 2], crc), (&[8], 0)])
            };
            let first = altered(&copy(one), 4);
            let (answer, entries) = received(fresh, &first, &copy(other), 100);
            assert_eq!(answer.causes, []);
            let mut right = vec![Entry::Psd(vec![9]), Entry::Packet(5, vec![7])];
            right.extend(wanted);
            right.push(Entry::Packet(7, vec![8]));
            assert_eq!(entries, right);
        }
    }

    /// Note 7 comes before 3 and before 5, and leaves nothing held.
    #[test]
    fn note_7() {
        let fresh = receiver::open(0, 0).unwrap();
        let holding = Receiver {
            held: 4_096,
            number: 4,
            ..fresh
        };
        let differing = [
            Entry::Psd(vec![9]),
            Entry::Note(Note::Differing(0)),
            Entry::Note(Note::Differing(1)),
        ];
        let first = pdu((true, true), &[(&[1], 0), (&[3], 0)]);
        let second = pdu((true, true), &[(&[2], 0), (&[4], 0)]);
        for receiver in [fresh, holding] {
            let (answer, entries) = received(receiver, &first, &second, 100);
            assert_eq!(entries, differing);
            assert_eq!((answer.receiver.held, answer.receiver.number), (0, 0));
        }
        let (_, entries) = received(fresh, &first, &first, 100);
        assert_eq!(entries[1], Entry::Note(Note::NothingHeld(0)));
        let (_, entries) = received(holding, &first, &first, 100);
        assert_eq!(entries[1], Entry::Note(Note::TooLong(0)));
    }

    #[test]
    fn numbers() {
        let good = pdu((false, false), &[(&[1], 0), (&[2], 0)]);
        let other_mode = with(&good, 8, 1);
        let seven = with(&good, 9, 1);
        let displaced = {
            // NOP 0, expansion of three bytes from 14 on, displacement 0.
            let mut pdu = vec![0; 96];
            pdu[12..17].copy_from_slice(&[0x80, 16, 0x91, 0x80, 0]);
            header::write_parity(&mut pdu).unwrap();
            pdu
        };
        for (first, second, wanted) in [
            (&good[..], &good[..], 0),
            (&good[..95], &good, 0),
            (&good, &good[..95], 0),
            (&beyond(&good), &good, 0),
            (&good[..95], &good[..95], 4),
            (&beyond(&good), &good[..95], 4),
            (&beyond(&good), &beyond(&good), 4),
            (&vec![0; 20_481], &beyond(&good), 4),
            (&other_mode, &good, 6),
            (&good, &other_mode, 6),
            (&other_mode, &good[..95], 6),
            (&displaced, &seven, 7),
            (&seven, &displaced, 7),
            (&displaced, &good, 12),
            (&good, &displaced, 12),
        ] {
            assert_eq!(number(first, second), wanted);
        }
    }

    /// 20 after 12 and before 13.
    #[test]
    fn copies_that_differ() {
        let good = pdu((false, false), &[(&[1], 0), (&[2], 0)]);
        let la = usize::from(good[13]);
        let longer = [&good[..], &[0]].concat();
        assert_eq!(number(&good, &longer), 20);
        assert_eq!(number(&longer, &good), 20);
        // The PSD's byte, at La; the gain.
        assert_eq!(number(&good, &with(&good, la, 8)), 20);
        assert_eq!(number(&good, &with(&good, 9, 8)), 20);
        // A byte of the first piece, and one behind the last locator.
        assert_eq!(number(&good, &with(&good, la + 1, 8)), 0);
        assert_eq!(number(&good, &with(&good, 95, 8)), 0);
        let fresh = receiver::open(0, 0).unwrap();
        assert_eq!(received(fresh, &good, &longer, 0).0.refusal, 20);
        assert_eq!(received(fresh, &good, &good, 0).0.refusal, 13);
        assert_eq!(received(fresh, &good, &longer[..95], 0).0.refusal, 13);
        let wrong = Receiver { number: 1, ..fresh };
        assert_eq!(received(wrong, &good, &longer, 0).0.refusal, 1);
        // Twelve bits: the four bits that an odd last locator leaves.
        let mut one = vec![0; 96];
        one[8..16].copy_from_slice(&[1, 0, 0, 0, 2, 15, 17, 0x00]);
        one[17] = 0;
        header::write_parity(&mut one).unwrap();
        let two = with(&one, 15, 0xF0);
        let core = receiver::open(1, 0).unwrap();
        assert_eq!(received(core, &one, &one, 9).0.refusal, 0);
        assert_eq!(received(core, &two, &two, 9).0.refusal, 0);
        assert_eq!(received(core, &one, &two, 9).0.refusal, 20);
    }

    /// The smallest k over both (document 02, Ask 6).
    #[test]
    fn smallest_k() {
        let three = [(&[1][..], 0), (&[2], 0), (&[3], 0)];
        let good = pdu((false, false), &three);
        let wrong_2 = with(&good, 18, 0);
        let wrong_1 = with(&good, 16, 0);
        for (first, second) in [(&wrong_2, &wrong_1), (&wrong_1, &wrong_2)] {
            let fresh = receiver::open(0, 0).unwrap();
            let (answer, _) = received(fresh, first, second, 100);
            assert_eq!((answer.refusal, answer.k()), (11, 1));
            let (answer, _) = received(fresh, &wrong_2, &good, 100);
            assert_eq!((answer.refusal, answer.k()), (11, 2));
        }
    }
}
