//! The receiver (document 01, "Receiver"; the CRC's register, document 02, Ask
//! 2; with marks, Ask 3; with entitled programs, Ask 10; packets counted, Ask 14), with
//! the refusals 1 to 13, 19, 22 and 27. All causes for a
//! refusal are gathered first; of their numbers the one checked first is the
//! answer. `pairs` receives two copies of a PDU by the same steps.

use crate::control::{self, ControlWord};
use crate::counts::{self, Counts};
use crate::crc::crc8_from;
use crate::entitlement::{self, Entitled};
use crate::erasures;
use crate::log::{self, Entry, Note};
use crate::modes;
use crate::reading::{self, Reading};
use crate::refusal::{self, ReceiverCause};
use crate::writer::{LONGEST_PACKET, NUMBERS};

/// A carry of so many bytes always suffices, and fewer are refused.
pub const CARRY_BYTES: usize = 4_096;

/// A log of so many words always suffices.
pub const LOG_WORDS: usize = 8_400;

/// What a receiver was opened with and what it remembers. A field not known or
/// not held is 0.
#[derive(Clone, Copy, Debug, Default, PartialEq, Eq)]
pub struct Receiver {
    pub mode: u8,
    pub stream: u8,
    /// What the register of the CRCs starts at: any byte.
    pub register: u8,
    /// Of each program, whether it is entitled.
    pub entitled: Entitled,
    /// Whether the last PDU sequence is known.
    pub known: bool,
    pub sequence: u8,
    /// The held beginning's length; 0 means nothing held.
    pub held: u16,
    /// The number of the packet it begins.
    pub number: u8,
    /// Whether the applied services that are kept are known; only for core PDUs of
    /// sequence range 0-7.
    pub serviced: bool,
    pub services: u8,
    /// How many packets are delivered, and how many are missing between them.
    pub delivered: u32,
    pub missing: u32,
    /// The last delivered number; with delivered 0 the other two are 0.
    pub last: u8,
}

/// Opens a receiver for a mode and stream, or answers the refusal's number. The
/// register of its CRCs starts at 0.
pub fn open(mode: u8, stream: u8) -> Result<Receiver, u32> {
    open_with(mode, stream, 0)
}

/// Opens a receiver for a mode and stream with what the register of its CRCs
/// starts at, any byte; or answers the refusal's number. It is entitled to all
/// programs.
pub fn open_with(mode: u8, stream: u8, register: u8) -> Result<Receiver, u32> {
    open_entitled(mode, stream, register, &[0, 1, 2, 3, 4, 5, 6, 7])
}

/// Opens a receiver that is entitled to these programs; or answers the refusal's
/// number, 5 before 22.
pub fn open_entitled(mode: u8, stream: u8, register: u8, programs: &[u8]) -> Result<Receiver, u32> {
    if modes::line_for(mode, stream).is_none() {
        return Err(refusal::MODE_AND_STREAM);
    }
    Ok(Receiver {
        mode,
        stream,
        register,
        entitled: entitlement::entitled(programs)?,
        ..Receiver::default()
    })
}

/// The answer to receiving a PDU or marking one lost.
#[derive(Clone, Debug, PartialEq, Eq)]
pub struct Answer {
    /// 0 if accepted, otherwise the first of the causes' numbers.
    pub refusal: u32,
    /// All causes for a refusal that can be told.
    pub causes: Vec<ReceiverCause>,
    /// How many words of the log are written; 0 if refused.
    pub words: usize,
    /// The next receiver; if refused, the receiver as it came.
    pub receiver: Receiver,
}

impl Answer {
    /// The k of each wrong locator.
    pub fn wrong_locators(&self) -> Vec<usize> {
        let wrong = |cause: &ReceiverCause| match cause {
            ReceiverCause::Pdu(cause) => cause.locator(),
            _ => None,
        };
        self.causes.iter().filter_map(wrong).collect()
    }

    /// The k that comes with the number (document 02, Ask 6).
    pub fn k(&self) -> usize {
        refusal::k(self.refusal, &self.wrong_locators())
    }
}

/// Receives a lent PDU. When accepted it is left mended; the log has the words
/// from its first on, and the carry begins with what is held now, if anything
/// is. What else they hold is left as it was, and all of it when refused.
pub fn receive(receiver: Receiver, carry: &mut [u8], pdu: &mut [u8], log: &mut [u32]) -> Answer {
    receive_marked(receiver, carry, pdu, &[], log)
}

/// Receives a lent PDU of whose header some places are marked.
pub fn receive_marked(
    receiver: Receiver,
    carry: &mut [u8],
    pdu: &mut [u8],
    marks: &[u8],
    log: &mut [u32],
) -> Answer {
    let mut mended = pdu.to_vec();
    let mut causes = state_causes(&receiver);
    causes.extend(carry_causes(carry.len()));
    let wrong_marks = erasures::marks_causes(marks);
    if !wrong_marks.is_empty() {
        // What the PDU says can't be told.
        causes.extend(
            reading::length_causes(pdu.len())
                .into_iter()
                .map(ReceiverCause::Pdu),
        );
        causes.extend(wrong_marks.into_iter().map(ReceiverCause::Marks));
        return refused(receiver, causes);
    }
    let reading = reading::read_marked(&mut mended, marks);
    causes.extend(pdu_causes(&reading));
    causes.extend(opened_causes(&receiver, pdu, marks));
    // What would be logged can be told only if nothing else is wrong.
    match reading {
        Ok(reading) if causes.is_empty() => {
            let pieces = pieces_alone(&receiver, &reading, &mended);
            let heard = Heard::new(&receiver, carry, &reading, &mended, &pieces);
            let answer = heard.answer(receiver, carry, log);
            if answer.refusal == 0 {
                pdu.copy_from_slice(&mended);
            }
            answer
        }
        _ => refused(receiver, causes),
    }
}

/// Marks a PDU lost: logs note 6, drops the beginning and forgets the sequence
/// and the applied services. The counts stay.
pub fn mark_lost(receiver: Receiver, log: &mut [u32]) -> Answer {
    let words = Entry::Note(Note::Lost).words();
    let mut causes = state_causes(&receiver);
    causes.extend(log_causes(words.len(), log.len()));
    if !causes.is_empty() {
        return refused(receiver, causes);
    }
    log[..words.len()].copy_from_slice(&words);
    Answer {
        refusal: 0,
        causes,
        words: words.len(),
        receiver: Receiver {
            mode: receiver.mode,
            stream: receiver.stream,
            register: receiver.register,
            entitled: receiver.entitled,
            delivered: receiver.delivered,
            missing: receiver.missing,
            last: receiver.last,
            ..Receiver::default()
        },
    }
}

/// The answer to a call that is turned down for these causes.
pub(crate) fn refused(receiver: Receiver, causes: Vec<ReceiverCause>) -> Answer {
    let numbers = causes.iter().map(|cause| cause.number());
    Answer {
        refusal: refusal::first(numbers).expect("a cause"),
        causes,
        words: 0,
        receiver,
    }
}

/// Refusal 1: a state field outside its range, or not 0 where not known or not
/// held.
pub(crate) fn state_causes(receiver: &Receiver) -> Vec<ReceiverCause> {
    let mut causes = Vec::new();
    match modes::line_for(receiver.mode, receiver.stream) {
        None => causes.push(ReceiverCause::ModeAndStream),
        Some(line) if receiver.sequence >= line.sequences => causes.push(ReceiverCause::Sequence),
        Some(_) => {}
    }
    if usize::from(receiver.held) > LONGEST_PACKET {
        causes.push(ReceiverCause::Held);
    }
    if receiver.number >= NUMBERS {
        causes.push(ReceiverCause::Number);
    }
    if !receiver.known && receiver.sequence != 0 {
        causes.push(ReceiverCause::SequenceNotKnown);
    }
    if receiver.held == 0 && receiver.number != 0 {
        causes.push(ReceiverCause::NumberNotHeld);
    }
    causes.extend(services_causes(receiver));
    causes.extend(counts::state_causes(receiver));
    causes
}

/// Refusal 1 for the applied services that are kept.
fn services_causes(receiver: &Receiver) -> Vec<ReceiverCause> {
    let mut causes = Vec::new();
    if receiver.services > entitlement::MOST_SERVICES {
        causes.push(ReceiverCause::ServicesOver7);
    }
    if !receiver.serviced && receiver.services != 0 {
        causes.push(ReceiverCause::ServicesNotKnown);
    }
    let line = modes::line_for(receiver.mode, receiver.stream);
    if receiver.serviced && !line.is_some_and(|line| entitlement::keeps(&line)) {
        causes.push(ReceiverCause::ServicesNotKept);
    }
    causes
}

/// Refusal 2: a carry under 4,096 bytes.
pub(crate) fn carry_causes(length: usize) -> Vec<ReceiverCause> {
    if length < CARRY_BYTES {
        vec![ReceiverCause::CarryUnder4096]
    } else {
        Vec::new()
    }
}

/// Refusals 3 to 5 and 7 to 12: those of reading without a receiver.
pub(crate) fn pdu_causes(reading: &Result<Reading, reading::Refusal>) -> Vec<ReceiverCause> {
    match reading {
        Ok(_) => Vec::new(),
        Err(refusal) => refusal
            .causes
            .iter()
            .map(|&cause| ReceiverCause::Pdu(cause))
            .collect(),
    }
}

/// Refusal 6: mode and stream of the mended PDU aren't those opened.
pub(crate) fn opened_causes(receiver: &Receiver, pdu: &[u8], marks: &[u8]) -> Vec<ReceiverCause> {
    match sent_word(pdu, marks) {
        Some(word) if (word.mode, word.stream) != (receiver.mode, receiver.stream) => {
            vec![ReceiverCause::NotThoseOpened]
        }
        _ => Vec::new(),
    }
}

/// The control word of the PDU when mended; none if it hasn't a whole header,
/// or one that is beyond mending.
fn sent_word(pdu: &[u8], marks: &[u8]) -> Option<ControlWord> {
    let mended = reading::mended(pdu, marks)?;
    let bytes = mended[control::FIRST..control::FIRST + control::BYTES]
        .try_into()
        .expect("six bytes");
    Some(control::decode(bytes))
}

/// Refusal 13: a log shorter than the words that the call would write.
fn log_causes(words: usize, length: usize) -> Vec<ReceiverCause> {
    if length < words {
        vec![ReceiverCause::LogTooShort]
    } else {
        Vec::new()
    }
}

/// The beginning of a packet that goes on in another PDU.
#[derive(Clone, Debug, PartialEq, Eq)]
struct Beginning {
    number: u8,
    bytes: Vec<u8>,
}

/// What is said of a piece.
#[derive(Clone, Debug, PartialEq, Eq)]
pub(crate) enum Said<'a> {
    /// These bytes, with a right CRC.
    Bytes(&'a [u8]),
    /// Wrong CRC.
    WrongCrc,
    /// Right CRCs, and other bytes in one copy than in the other (document 02,
    /// Ask 5).
    Differing,
}

/// What a PDU that comes alone says of its pieces.
fn pieces_alone<'a>(receiver: &Receiver, reading: &Reading, pdu: &'a [u8]) -> Vec<Said<'a>> {
    let said = |&piece: &reading::Piece| match right_piece(receiver, piece, pdu) {
        Some(bytes) => Said::Bytes(bytes),
        None => Said::WrongCrc,
    };
    reading.pieces.iter().map(said).collect()
}

/// The bytes of a piece, if its CRC is right.
pub(crate) fn right_piece<'a>(
    receiver: &Receiver,
    piece: reading::Piece,
    pdu: &'a [u8],
) -> Option<&'a [u8]> {
    let locator = piece.start + piece.length;
    let bytes = &pdu[piece.start..locator];
    (crc8_from(receiver.register, bytes) == pdu[locator]).then_some(bytes)
}

/// What comes of a PDU that nothing is wrong with.
pub(crate) struct Heard {
    /// In log order.
    entries: Vec<Entry>,
    /// What is held then.
    held: Option<Beginning>,
    /// The PDU's sequence.
    sequence: u8,
    /// The applied services that are kept then, if known.
    services: Option<u8>,
}

impl Heard {
    /// The four steps, in log order, with what is said of each piece. For a PDU that
    /// is withheld, note 8 stands in place of step 3, and no piece is looked at but
    /// one that continues a held beginning (document 02, Ask 10).
    pub(crate) fn new(
        receiver: &Receiver,
        carry: &[u8],
        reading: &Reading,
        pdu: &[u8],
        pieces: &[Said],
    ) -> Heard {
        let word = &reading.control;
        let mut heard = Heard {
            entries: Vec::new(),
            held: held(receiver, carry),
            sequence: word.sequence,
            services: receiver.serviced.then_some(receiver.services),
        };
        heard.step_1(receiver, word);
        let withheld = heard.withheld(receiver, reading);
        heard.step_2(word);
        if withheld {
            heard.note(Note::Withheld);
            let looked_at = usize::from(heard.held.is_some());
            heard.step_4(word, pieces, looked_at);
        } else {
            heard.step_3(reading, pdu);
            heard.step_4(word, pieces, pieces.len());
        }
        heard
    }

    /// Takes the PDU's value, if it is one to be kept, and says whether the PDU is
    /// withheld. Note 1 has forgotten the value before.
    fn withheld(&mut self, receiver: &Receiver, reading: &Reading) -> bool {
        let word = &reading.control;
        let fields = &reading.expansion;
        let line = modes::line_for(word.mode, word.stream).expect("a line of the table");
        self.services = entitlement::kept(&line, self.services, word.sequence, fields.services);
        !receiver.entitled[usize::from(fields.program)]
            && entitlement::withheld(&line, self.services, fields.services)
    }

    /// Step 1: sequence known and not the next (0 follows the last of its
    /// range): note 1, beginning dropped, applied services forgotten.
    fn step_1(&mut self, receiver: &Receiver, word: &ControlWord) {
        let line = modes::line_for(word.mode, word.stream).expect("a line of the table");
        let last = line.sequences - 1;
        let next = if receiver.sequence == last {
            0
        } else {
            receiver.sequence + 1
        };
        if receiver.known && word.sequence != next {
            self.note(Note::NotTheNext);
            self.held = None;
            self.services = None;
        }
    }

    /// Step 2: beginning held, and Pfirst clear or its number not starting
    /// number minus 1, modulo 64: note 4, dropped.
    fn step_2(&mut self, word: &ControlWord) {
        let Some(beginning) = &self.held else {
            return;
        };
        let minus_1 = (word.start + NUMBERS - 1) % NUMBERS;
        if !word.pfirst || beginning.number != minus_1 {
            self.note(Note::NotContinued);
            self.held = None;
        }
    }

    /// Step 3: PSD, if any.
    fn step_3(&mut self, reading: &Reading, pdu: &[u8]) {
        if reading.psd_length > 0 {
            let end = reading.psd_start + reading.psd_length;
            let psd = pdu[reading.psd_start..end].to_vec();
            self.entries.push(Entry::Psd(psd));
        }
    }

    /// Step 4: each piece k: wrong CRC, note 2; continuing with nothing held,
    /// note 3; over 4,096 bytes with what was held, note 5; otherwise delivered
    /// if it ends here, held if Plast. A noted piece leaves nothing held. Note 7
    /// stands in place of note 2 (document 02, Ask 5). Only the first so many pieces
    /// are looked at.
    fn step_4(&mut self, word: &ControlWord, pieces: &[Said], looked_at: usize) {
        for (k, said) in pieces.iter().enumerate().take(looked_at) {
            let continues = k == 0 && word.pfirst;
            let goes_on = k + 1 == pieces.len() && word.plast;
            let before = self.held.take();
            let bytes = match said {
                Said::Bytes(bytes) => bytes,
                Said::WrongCrc => {
                    self.note(Note::WrongCrc(k));
                    continue;
                }
                Said::Differing => {
                    self.note(Note::Differing(k));
                    continue;
                }
            };
            let nothing_held = before.is_none();
            let mut joined = before.map_or_else(Vec::new, |beginning| beginning.bytes);
            joined.extend(*bytes);
            let number = piece_number(word, k);
            if continues && nothing_held {
                self.note(Note::NothingHeld(k));
            } else if joined.len() > LONGEST_PACKET {
                self.note(Note::TooLong(k));
            } else if goes_on {
                self.held = Some(Beginning {
                    number,
                    bytes: joined,
                });
            } else {
                self.entries.push(Entry::Packet(number, joined));
            }
        }
    }

    /// The answer, with words and held bytes where they belong; or 13 or 27, and
    /// nothing is changed.
    pub(crate) fn answer(self, receiver: Receiver, carry: &mut [u8], log: &mut [u32]) -> Answer {
        let words = log::words(&self.entries);
        let counts = Counts::of(&receiver).after(&self.entries);
        let mut causes = log_causes(words.len(), log.len());
        causes.extend(counts.causes());
        if !causes.is_empty() {
            return refused(receiver, causes);
        }
        log[..words.len()].copy_from_slice(&words);
        if let Some(beginning) = &self.held {
            carry[..beginning.bytes.len()].copy_from_slice(&beginning.bytes);
        }
        Answer {
            refusal: 0,
            causes,
            words: words.len(),
            receiver: counts.put(self.next(&receiver)),
        }
    }

    fn note(&mut self, note: Note) {
        self.entries.push(Entry::Note(note));
    }

    /// The receiver after the PDU, with the counts as they were.
    fn next(&self, receiver: &Receiver) -> Receiver {
        let (held, number) = match &self.held {
            Some(beginning) => (beginning.bytes.len(), beginning.number),
            None => (0, 0),
        };
        Receiver {
            mode: receiver.mode,
            stream: receiver.stream,
            register: receiver.register,
            entitled: receiver.entitled,
            known: true,
            sequence: self.sequence,
            held: u16::try_from(held).expect("no more than a packet"),
            number,
            serviced: self.services.is_some(),
            services: self.services.unwrap_or(0),
            ..*receiver
        }
    }
}

/// The held beginning, whose bytes are the first ones of the carry.
fn held(receiver: &Receiver, carry: &[u8]) -> Option<Beginning> {
    if receiver.held == 0 {
        return None;
    }
    Some(Beginning {
        number: receiver.number,
        bytes: carry[..usize::from(receiver.held)].to_vec(),
    })
}

/// The number of piece k: starting number plus k, minus 1 if Pfirst, modulo
/// 64.
fn piece_number(word: &ControlWord, k: usize) -> u8 {
    let number = usize::from(word.start) + k + 64 - usize::from(word.pfirst);
    (number % 64) as u8
}

#[cfg(test)]
mod tests {
    use super::*;
    use crate::encode::{Parts, Piece};
    use crate::header;
    use crate::locators;
    use crate::modes::TABLE;
    use crate::refusal::Cause;
    use crate::rng::Rng;
    use crate::settings::Settings;
    use crate::writer::{self, Offer, Writer};

    /// What a word of an untouched log holds.
    const UNTOUCHED: u32 = 0x5EA1_ED00;

    /// So many bytes that tell where they stand.
    fn bytes(count: usize) -> Vec<u8> {
        (0..count).map(|place| (place * 7 + 1) as u8).collect()
    }

    /// A carry that begins with these bytes.
    fn carry_with(held: &[u8]) -> Vec<u8> {
        let mut carry = vec![0xCA; CARRY_BYTES + 3];
        carry[..held.len()].copy_from_slice(held);
        carry
    }

    /// A PDU with PSD and pieces, of 96 bytes or as many as they need. To the
    /// CRC of a piece the given byte is added.
    fn pdu(control: ControlWord, psd: &[u8], pieces: &[(&[u8], u8)]) -> Vec<u8> {
        let line = modes::line_for(control.mode, control.stream).unwrap();
        let la = locators::last_byte(line.locator_bits, pieces.len()) + psd.len();
        let mut placed = Vec::new();
        let mut locators = Vec::new();
        let mut end = la;
        for &(bytes, crc_error) in pieces {
            placed.push(Piece {
                start: end + 1,
                bytes: bytes.to_vec(),
                crc_error,
            });
            end += 1 + bytes.len();
            locators.push(end);
        }
        let parts = Parts {
            control: ControlWord {
                nop: pieces.len() as u8,
                la: la as u8,
                ..control
            },
            locator_bits: line.locator_bits,
            locators,
            psd: psd.to_vec(),
            pieces: placed,
            ..Parts::default()
        };
        let mut pdu = vec![0; (end + 1).max(header::PLACES)];
        parts.encode(&mut pdu);
        pdu
    }

    /// A PDU of 96 bytes that begins with these, in hexadecimal.
    fn from_hex(hex: &str) -> Vec<u8> {
        let digits: Vec<u32> = hex.chars().filter_map(|c| c.to_digit(16)).collect();
        let mut bytes = vec![0; header::PLACES];
        for (byte, pair) in bytes.iter_mut().zip(digits.chunks(2)) {
            *byte = (pair[0] * 16 + pair[1]) as u8;
        }
        assert!(header::is_code_word(&header::header_of(&bytes)), "{hex}");
        bytes
    }

    /// What came of a call.
    struct Got {
        answer: Answer,
        /// The words that are written.
        words: Vec<u32>,
        carry: Vec<u8>,
    }

    impl Got {
        fn entries(&self) -> Vec<Entry> {
            log::entries(&self.words).expect("entries")
        }

        /// The state's last four fields.
        fn state(&self) -> (bool, u8, u16, u8) {
            let next = &self.answer.receiver;
            (next.known, next.sequence, next.held, next.number)
        }
    }

    /// Receives the PDU as it is and with up to four bytes altered, with a log
    /// that suffices, one that just does, and one that is a word short.
    fn receive_from(receiver: Receiver, carry: &[u8], pdu: &[u8]) -> Got {
        let mut rng = Rng::new(0x3EC);
        let got = once(receiver, carry, pdu, LOG_WORDS);
        for altered in 1..=4 {
            let mut damaged = pdu.to_vec();
            for place in rng.places(altered, 0, 95) {
                damaged[place] ^= rng.nonzero_byte();
            }
            let mut lent = damaged.clone();
            let mut lent_carry = carry.to_vec();
            let mut log = vec![UNTOUCHED; got.words.len()];
            let answer = receive(receiver, &mut lent_carry, &mut lent, &mut log);
            assert_eq!(answer, got.answer);
            assert_eq!((&log, &lent_carry), (&got.words, &got.carry));
            let accepted = answer.refusal == 0;
            assert_eq!(lent, if accepted { pdu } else { &damaged });
        }
        if let Some(short) = got.words.len().checked_sub(1) {
            let refused = once(receiver, carry, pdu, short);
            assert_eq!(refused.answer.causes, [ReceiverCause::LogTooShort]);
        }
        got
    }

    /// Receives the PDU once and looks at what must not change.
    fn once(receiver: Receiver, carry: &[u8], pdu: &[u8], log_words: usize) -> Got {
        let mut lent = pdu.to_vec();
        let mut lent_carry = carry.to_vec();
        let mut log = vec![UNTOUCHED; log_words];
        let answer = receive(receiver, &mut lent_carry, &mut lent, &mut log);
        assert_eq!(lent, pdu);
        assert!(log[answer.words..].iter().all(|&word| word == UNTOUCHED));
        if answer.refusal == 0 {
            assert_eq!(answer.causes, []);
            assert_eq!(state_causes(&answer.receiver), []);
            let held = usize::from(answer.receiver.held);
            assert_eq!(lent_carry[held..], carry[held..]);
        } else {
            assert_eq!((answer.words, answer.receiver), (0, receiver));
            assert_eq!(lent_carry, carry);
        }
        Got {
            words: log[..answer.words].to_vec(),
            answer,
            carry: lent_carry,
        }
    }

    /// A receiver of mode 0 with this sequence known and this held.
    fn with(sequence: u8, held: usize, number: u8) -> Receiver {
        Receiver {
            known: true,
            sequence,
            held: held as u16,
            number,
            ..open(0, 0).unwrap()
        }
    }

    /// The control word of a PDU of mode 0.
    fn word(sequence: u8, pfirst: bool, plast: bool, start: u8) -> ControlWord {
        ControlWord {
            sequence,
            pfirst,
            plast,
            start,
            ..ControlWord::default()
        }
    }

    fn note(note: Note) -> Entry {
        Entry::Note(note)
    }

    #[test]
    fn opening() {
        for mode in 0..=255 {
            for stream in 0..=255 {
                let there = TABLE.iter().any(|l| (l.mode, l.stream) == (mode, stream));
                let receiver = Receiver {
                    mode,
                    stream,
                    entitled: entitlement::ALL,
                    ..Receiver::default()
                };
                let wanted = if there { Ok(receiver) } else { Err(5) };
                assert_eq!(open(mode, stream), wanted);
                let register = mode ^ stream.rotate_left(3);
                let wanted = wanted.map(|r| Receiver { register, ..r });
                assert_eq!(open_with(mode, stream, register), wanted);
            }
        }
    }

    /// Example (n): whole, and joined across the seam after each byte.
    #[test]
    fn example_n() {
        let packet = [0x11, 0x22, 0x33, 0x44];
        let wanted = [0x0005_0004, 0x4311_2233, 0x4144_0000];
        let whole = pdu(word(0, false, false, 5), &[], &[(&packet, 0)]);
        let got = receive_from(open(0, 0).unwrap(), &carry_with(&[]), &whole);
        assert_eq!(got.words, wanted);
        assert_eq!(got.state(), (true, 0, 0, 0));
        for held in 1..4 {
            let rest = pdu(word(1, true, false, 6), &[], &[(&packet[held..], 0)]);
            let carry = carry_with(&packet[..held]);
            let got = receive_from(with(0, held, 5), &carry, &rest);
            assert_eq!(got.words, wanted);
            assert_eq!(got.state(), (true, 1, 0, 0));
            assert_eq!(got.carry, carry);
        }
    }

    /// Note 1 drops the beginning, and so note 4 never stands beside it.
    #[test]
    fn note_1_alone() {
        let pdu = from_hex("c2c7dacd63c6d064 00000000000d");
        let got = receive_from(with(0, 2, 0), &carry_with(&[1, 2]), &pdu);
        assert_eq!(got.words, [0xC001_0000]);
        assert_eq!(got.state(), (true, 0, 0, 0));
    }

    /// Every last sequence with every sequence, in each mode and stream; one
    /// not known fits before any.
    #[test]
    fn sequences() {
        for line in TABLE {
            for sent in 0..line.sequences {
                let control = ControlWord {
                    mode: line.mode,
                    stream: line.stream,
                    ..word(sent, false, false, 0)
                };
                let pdu = pdu(control, &[], &[]);
                let fresh = open(line.mode, line.stream).unwrap();
                let got = receive_from(fresh, &carry_with(&[]), &pdu);
                assert_eq!(got.words, []);
                for sequence in 0..line.sequences {
                    let receiver = Receiver {
                        known: true,
                        sequence,
                        ..fresh
                    };
                    let got = receive_from(receiver, &carry_with(&[]), &pdu);
                    let fits = sent == (sequence + 1) % line.sequences;
                    assert_eq!(got.words.is_empty(), fits);
                    assert_eq!(got.state(), (true, sent, 0, 0));
                }
            }
        }
    }

    /// The same sequence twice is note 1; then the PDU is taken as any other.
    #[test]
    fn no_filter_of_duplicates() {
        let pdu = pdu(word(1, false, true, 7), &[9], &[(&[1, 2], 0), (&[3], 0)]);
        let first = receive_from(with(0, 0, 0), &carry_with(&[]), &pdu);
        let taken = [Entry::Psd(vec![9]), Entry::Packet(7, vec![1, 2])];
        assert_eq!(first.entries(), taken);
        assert_eq!(first.state(), (true, 1, 1, 8));
        let again = receive_from(first.answer.receiver, &first.carry, &pdu);
        let noted = [&[note(Note::NotTheNext)], &taken[..]].concat();
        assert_eq!(again.entries(), noted);
        assert_eq!(again.state(), (true, 1, 1, 8));
    }

    #[test]
    fn wrong_crcs() {
        let pieces: [(&[u8], u8); 3] = [(&[1], 1), (&[2], 0), (&[3], 0x80)];
        let pdu = pdu(word(0, true, true, 0), &[], &pieces);
        let carry = carry_with(&[5]);
        let got = receive_from(with(1, 1, 63), &carry, &pdu);
        let wanted = [
            note(Note::WrongCrc(0)),
            Entry::Packet(0, vec![2]),
            note(Note::WrongCrc(2)),
        ];
        assert_eq!(got.entries(), wanted);
        // A noted piece leaves nothing held.
        assert_eq!(got.state(), (true, 0, 0, 0));
        assert_eq!(got.carry, carry);
    }

    #[test]
    fn continuing_with_nothing_held() {
        let pieces: [(&[u8], u8); 2] = [(&[1], 0), (&[2], 0)];
        let pdu_ends = pdu(word(0, true, false, 0), &[], &pieces);
        let got = receive_from(open(0, 0).unwrap(), &carry_with(&[]), &pdu_ends);
        let wanted = [note(Note::NothingHeld(0)), Entry::Packet(0, vec![2])];
        assert_eq!(got.entries(), wanted);
        // With both flags it isn't held either; a wrong CRC comes first.
        for (crc_error, noted) in [(0, Note::NothingHeld(0)), (4, Note::WrongCrc(0))] {
            let both = pdu(word(0, true, true, 0), &[], &[(&[1], crc_error)]);
            let got = receive_from(open(0, 0).unwrap(), &carry_with(&[]), &both);
            assert_eq!(got.entries(), [note(noted)]);
            assert_eq!(got.state(), (true, 0, 0, 0));
        }
    }

    /// Held 63 with start 0 and Pfirst matches; another number, or Pfirst
    /// clear, does not.
    #[test]
    fn numbers_of_the_beginning() {
        for held in 0..64 {
            for start in 0..64 {
                let pdu = pdu(word(1, true, false, start), &[], &[(&[2], 0)]);
                let got = receive_from(with(0, 1, held), &carry_with(&[1]), &pdu);
                if start == (held + 1) % 64 {
                    assert_eq!(got.entries(), [Entry::Packet(held, vec![1, 2])]);
                } else {
                    let wanted = [note(Note::NotContinued), note(Note::NothingHeld(0))];
                    assert_eq!(got.entries(), wanted);
                }
            }
        }
        let clear = pdu(word(1, false, false, 0), &[], &[(&[2], 0)]);
        let got = receive_from(with(0, 1, 63), &carry_with(&[1]), &clear);
        let wanted = [note(Note::NotContinued), Entry::Packet(0, vec![2])];
        assert_eq!(got.entries(), wanted);
        // No piece at all doesn't continue it.
        let none = pdu(word(1, false, false, 0), &[7], &[]);
        let got = receive_from(with(0, 1, 63), &carry_with(&[1]), &none);
        let wanted = [note(Note::NotContinued), Entry::Psd(vec![7])];
        assert_eq!(got.entries(), wanted);
    }

    /// A piece with both flags is appended and stays held under the starting
    /// number minus 1.
    #[test]
    fn both_flags() {
        let both = pdu(word(1, true, true, 0), &[], &[(&[3, 4], 0)]);
        let carry = carry_with(&[1, 2]);
        let got = receive_from(with(0, 2, 63), &carry, &both);
        assert_eq!(got.words, []);
        assert_eq!(got.state(), (true, 1, 4, 63));
        assert_eq!(got.carry, carry_with(&[1, 2, 3, 4]));
    }

    /// 4,096 bytes are fine, delivered or held, and 4,097 are note 5, whether
    /// anything was held or not.
    #[test]
    fn over_4096() {
        for held in [0, 1, 2, 4_000, 4_094, 4_095, 4_096] {
            let pfirst = held > 0;
            let number = if pfirst { 9 } else { 0 };
            let start = if pfirst { 10 } else { 9 };
            let beginning = bytes(held);
            for (total, plast) in [(4_096, false), (4_096, true), (4_097, false), (4_097, true)] {
                if total <= held {
                    continue;
                }
                let piece = bytes(total - held);
                let pdu = pdu(word(1, pfirst, plast, start), &[], &[(&piece, 0)]);
                let carry = carry_with(&beginning);
                let got = receive_from(with(0, held, number), &carry, &pdu);
                let joined = [&beginning[..], &piece].concat();
                match (total, plast) {
                    (4_096, false) => assert_eq!(got.entries(), [Entry::Packet(9, joined)]),
                    (4_096, true) => {
                        assert_eq!(got.words, []);
                        assert_eq!(got.state(), (true, 1, 4_096, 9));
                        assert_eq!(got.carry, carry_with(&joined));
                    }
                    _ => {
                        assert_eq!(got.entries(), [note(Note::TooLong(0))]);
                        assert_eq!(got.state(), (true, 1, 0, 0));
                        assert_eq!(got.carry, carry);
                    }
                }
            }
        }
        // A later piece.
        let (long, short) = (bytes(4_097), bytes(3));
        let pieces: [(&[u8], u8); 3] = [(&short, 0), (&long, 0), (&short, 0)];
        let pdu = pdu(word(1, false, false, 63), &[], &pieces);
        let got = receive_from(with(0, 0, 0), &carry_with(&[]), &pdu);
        let wanted = [
            Entry::Packet(63, short.clone()),
            note(Note::TooLong(1)),
            Entry::Packet(1, short),
        ];
        assert_eq!(got.entries(), wanted);
    }

    /// A new beginning replaces the first bytes of the carry only.
    #[test]
    fn new_beginnings() {
        let pieces: [(&[u8], u8); 2] = [(&[1, 2], 0), (&[3], 0)];
        let pdu = pdu(word(1, true, true, 6), &[], &pieces);
        let got = receive_from(with(0, 4, 5), &carry_with(&[6, 7, 8, 9]), &pdu);
        let wanted = [Entry::Packet(5, vec![6, 7, 8, 9, 1, 2])];
        assert_eq!(got.entries(), wanted);
        assert_eq!(got.state(), (true, 1, 1, 6));
        assert_eq!(got.carry, carry_with(&[3, 7, 8, 9]));
    }

    #[test]
    fn marking_lost() {
        for receiver in [open(0, 0).unwrap(), with(1, 0, 0), with(0, 4_096, 63)] {
            let mut log = [UNTOUCHED; 2];
            let answer = mark_lost(receiver, &mut log);
            assert_eq!((answer.refusal, answer.words), (0, 1));
            assert_eq!(answer.receiver, open(0, 0).unwrap());
            assert_eq!(log, [0xC006_0000, UNTOUCHED]);
            let answer = mark_lost(receiver, &mut []);
            assert_eq!((answer.refusal, answer.words), (13, 0));
            assert_eq!(answer.receiver, receiver);
        }
        let wrong = with(2, 0, 0);
        let mut log = [UNTOUCHED; 2];
        let answer = mark_lost(wrong, &mut log);
        assert_eq!((answer.refusal, answer.receiver), (1, wrong));
        assert_eq!(log, [UNTOUCHED; 2]);
        let both = [ReceiverCause::Sequence, ReceiverCause::LogTooShort];
        assert_eq!(mark_lost(wrong, &mut []).causes, both);
    }

    /// A PDU written from one register, with known CRCs among those from 255:
    /// received from that register, and from every other.
    #[test]
    fn registers() {
        let packets: [&[u8]; 3] = [&[0x01], &[0x80], &[0x01, 0x00]];
        let offer = Offer {
            settings: Settings::default(),
            psd: &[0x50],
            lengths: &[1, 1, 2, 100],
            bytes: &[&packets.concat()[..], &bytes(100)].concat(),
        };
        for written in [0, 1, 128, 255] {
            let mut pdu = vec![0; 96];
            let writer = writer::open_with(0, 0, written).unwrap();
            let answer = writer::write(writer, &offer, &mut pdu);
            assert_eq!((answer.ended, answer.writer.register), (3, written));
            if written == 255 {
                assert_eq!([pdu[24], pdu[26], pdu[29]], [0x9D, 0xD6, 0x75]);
            }
            for register in 0..=255 {
                let opened = open_with(0, 0, register).unwrap();
                let got = receive_from(opened, &carry_with(&[]), &pdu);
                let mut wanted = vec![Entry::Psd(vec![0x50])];
                if register == written {
                    let numbered = (0..3).map(|k| Entry::Packet(k as u8, packets[k].to_vec()));
                    wanted.extend(numbered);
                    assert_eq!(got.state(), (true, 0, 65, 3));
                } else {
                    wanted.extend((0..4).map(|k| note(Note::WrongCrc(k))));
                    assert_eq!(got.state(), (true, 0, 0, 0));
                }
                assert_eq!(got.entries(), wanted);
                assert_eq!(got.answer.receiver.register, register);
                let counted = match register == written {
                    true => (3, 0, 2),
                    false => (0, 0, 0),
                };
                let next = got.answer.receiver;
                assert_eq!((next.delivered, next.missing, next.last), counted);
                let lost = mark_lost(next, &mut [0]);
                let wanted = Receiver {
                    delivered: counted.0,
                    missing: counted.1,
                    last: counted.2,
                    ..opened
                };
                assert_eq!(lost.receiver, wanted);
            }
        }
    }

    /// A receiver with these counts.
    fn counted(delivered: u32, missing: u32, last: u8) -> Receiver {
        Receiver {
            delivered,
            missing,
            last,
            ..open(0, 0).unwrap()
        }
    }

    /// Packets 4 and 5 in one PDU: refused with 27 where a count would pass, after 13.
    #[test]
    fn counts_at_their_limits() {
        use ReceiverCause::{DeliveredPasses, LogTooShort, MissingPasses};
        let pdu = pdu(word(0, false, false, 4), &[], &[(&[1], 0), (&[2], 0)]);
        let most = u32::MAX;
        for (receiver, causes) in [
            (counted(most - 2, 0, 3), vec![]),
            (counted(most - 1, 0, 3), vec![DeliveredPasses]),
            (counted(most, most, 3), vec![DeliveredPasses]),
            (counted(1, most - 63, 4), vec![]),
            (counted(1, most - 62, 4), vec![MissingPasses]),
            (counted(most, most, 0), vec![DeliveredPasses, MissingPasses]),
        ] {
            let got = once(receiver, &carry_with(&[]), &pdu, 4);
            assert_eq!(got.answer.causes, causes);
            let short = once(receiver, &carry_with(&[]), &pdu, 3);
            assert_eq!(short.answer.refusal, refusal::LOG);
            assert_eq!(short.answer.causes[0], LogTooShort);
        }
        let got = once(counted(0, 0, 0), &carry_with(&[]), &pdu, 4);
        let next = got.answer.receiver;
        assert_eq!((next.delivered, next.missing, next.last), (2, 0, 5));
    }

    #[test]
    fn refusals_of_the_counts() {
        use ReceiverCause::{Last, LastOfNone, MissingOfNone};
        for (receiver, causes) in [
            (counted(1, 0, 63), vec![]),
            (counted(1, u32::MAX, 0), vec![]),
            (counted(1, 0, 64), vec![Last]),
            (counted(0, 1, 0), vec![MissingOfNone]),
            (counted(0, 0, 3), vec![LastOfNone]),
            (counted(0, 1, 64), vec![Last, MissingOfNone, LastOfNone]),
        ] {
            assert_eq!(state_causes(&receiver), causes);
            let lost = mark_lost(receiver, &mut [0]);
            assert_eq!(lost.refusal, u32::from(!causes.is_empty()));
        }
    }

    /// The most words that a call can write, 8,230.
    #[test]
    fn worst_case() {
        let long = bytes(450);
        let others = bytes(325);
        let mut pieces: Vec<(&[u8], u8)> = vec![(&[0xAB], 0)];
        pieces.extend([(&others[..], 0); 61]);
        pieces.push((&long, 0));
        let pdu = pdu(word(1, true, false, 10), &[0x50], &pieces);
        assert_eq!((pdu.len(), pdu[13]), (20_480, 140));
        let got = receive_from(with(0, 4_095, 9), &carry_with(&bytes(4_095)), &pdu);
        assert_eq!(got.words.len(), 8_230);
        assert_eq!(got.entries().len(), 64);
    }

    /// No PDU makes more: n bytes need (n + 2) / 3 data words at most, a
    /// packet joined with a beginning 1,366, and a note a single word.
    #[test]
    fn no_more_than_the_worst_case() {
        let mut most = 0;
        for bits in [12, 16] {
            // The place behind the last CRC that locators can tell.
            let end = (1usize << bits).min(header::LONGEST);
            for nop in 0..=control::MOST_PIECES {
                let before_psd = locators::last_byte(bits, nop) + 1;
                let psd_most = 256 - before_psd;
                for psd in 0..=psd_most {
                    let with_psd = if psd > 0 { 1 + psd.div_ceil(3) } else { 0 };
                    let left = end - before_psd - psd - nop;
                    let data = (left + 2 * nop) / 3;
                    let mut words = 1 + with_psd + nop + data;
                    if nop > 0 {
                        // One byte of the rest continues the beginning.
                        let data = 1_366 + (left - 1 + 2 * (nop - 1)) / 3;
                        words = words.max(with_psd + nop + data);
                    }
                    most = most.max(words);
                }
            }
        }
        assert_eq!(most, 8_230);
        assert!(most <= LOG_WORDS);
    }

    /// Writes PDUs of mode 0 that send packets of these lengths: of each PDU
    /// its length and how many packets are offered, from the unfinished one.
    fn sent(lengths: &[u16], pdus: &[(usize, usize)]) -> Vec<Vec<u8>> {
        let mut writer: Writer = writer::open(0, 0).unwrap();
        let mut first = 0;
        let mut sent = Vec::new();
        for &(length, offered) in pdus {
            let lengths = &lengths[first..first + offered];
            let total = lengths.iter().map(|&l| usize::from(l)).sum();
            let mut pdu = vec![0; length];
            let offer = Offer {
                settings: Settings::default(),
                psd: &[],
                lengths,
                bytes: &bytes(total),
            };
            let answer = writer::write(writer, &offer, &mut pdu);
            assert_eq!(answer.refusal, 0);
            writer = answer.writer;
            first += answer.ended;
            sent.push(pdu);
        }
        sent
    }

    /// Receives some of the PDUs and marks the others lost; what all the logs
    /// hold.
    fn heard(pdus: &[Vec<u8>], lost: &[usize]) -> Vec<Entry> {
        let mut receiver = open(0, 0).unwrap();
        let mut carry = carry_with(&[]);
        let mut words = Vec::new();
        for (index, pdu) in pdus.iter().enumerate() {
            let mut log = vec![UNTOUCHED; LOG_WORDS];
            let mut pdu = pdu.clone();
            let answer = if lost.contains(&index) {
                mark_lost(receiver, &mut log)
            } else {
                receive(receiver, &mut carry, &mut pdu, &mut log)
            };
            assert_eq!(answer.refusal, 0);
            receiver = answer.receiver;
            words.extend(&log[..answer.words]);
        }
        log::entries(&words).expect("entries")
    }

    /// Two PDUs in a row marked lost: the one-bit sequence fits again, and
    /// nothing is joined.
    #[test]
    fn two_lost_in_a_row() {
        let lost = note(Note::Lost);
        let nothing_held = note(Note::NothingHeld(0));
        // One packet in four PDUs: its number fits as well.
        let pdus = sent(&[300], &[(96, 1); 4]);
        assert_eq!(
            heard(&pdus, &[1, 2]),
            [lost.clone(), lost.clone(), nothing_held.clone()]
        );
        assert_eq!(heard(&pdus, &[]), [Entry::Packet(0, bytes(300))]);
        // Packet 0 begins before the lost ones, packet 64 ends behind them,
        // with the same number and the next sequence.
        let mut lengths = vec![1; 65];
        lengths[0] = 100;
        lengths[64] = 1_000;
        let pdus = sent(&lengths, &[(96, 1), (400, 33), (400, 32), (900, 1)]);
        let words: Vec<ControlWord> = pdus
            .iter()
            .map(|pdu| sent_word(pdu, &[]).unwrap())
            .collect();
        assert!(words[0].plast && words[3].pfirst);
        assert_eq!((words[0].sequence, words[3].sequence), (0, 1));
        assert_eq!((words[0].start, words[3].start), (0, 1));
        assert_eq!(heard(&pdus, &[1, 2]), [lost.clone(), lost, nothing_held]);
        assert_eq!(heard(&pdus, &[]).len(), 65);
        // Not marked, they would be joined: only marking tells.
        let gone = [pdus[0].clone(), pdus[3].clone()];
        assert!(matches!(heard(&gone, &[])[..], [Entry::Packet(0, _)]));
    }

    #[test]
    fn refusals_of_the_state() {
        use ReceiverCause::{
            Held, ModeAndStream, Number, NumberNotHeld, Sequence, SequenceNotKnown,
        };
        let right = with(1, 4_096, 63);
        let fresh = open(0, 0).unwrap();
        let pdu = pdu(word(0, false, false, 0), &[], &[]);
        for (receiver, wanted) in [
            (right, None),
            (fresh, None),
            (Receiver { mode: 4, ..fresh }, Some(ModeAndStream)),
            (Receiver { stream: 1, ..fresh }, Some(ModeAndStream)),
            (Receiver { stream: 2, ..right }, Some(ModeAndStream)),
            (
                Receiver {
                    sequence: 2,
                    ..right
                },
                Some(Sequence),
            ),
            (
                Receiver {
                    held: 4_097,
                    ..right
                },
                Some(Held),
            ),
            (
                Receiver {
                    number: 64,
                    ..right
                },
                Some(Number),
            ),
            (
                Receiver {
                    known: false,
                    ..right
                },
                Some(SequenceNotKnown),
            ),
            (Receiver { held: 0, ..right }, Some(NumberNotHeld)),
        ] {
            let got = once(receiver, &carry_with(&[]), &pdu, LOG_WORDS);
            let mut log = [UNTOUCHED];
            let lost = mark_lost(receiver, &mut log);
            assert_eq!(lost.causes, Vec::from_iter(wanted));
            match wanted {
                None => assert_eq!((got.answer.refusal, lost.refusal), (0, 0)),
                Some(cause) => {
                    assert_eq!(got.answer.causes[0], cause);
                    assert_eq!((got.answer.refusal, lost.refusal), (1, 1));
                    assert_eq!(lost.receiver, receiver);
                    assert_eq!(log, [UNTOUCHED]);
                }
            }
        }
    }

    /// A PDU of this line with one byte of PSD, program 3 and these applied services,
    /// and pieces.
    fn paid(line: (u8, u8), control: ControlWord, services: u8, pieces: &[(&[u8], u8)]) -> Vec<u8> {
        let control = ControlWord {
            mode: line.0,
            stream: line.1,
            expansion: true,
            ..control
        };
        // Program 3, applied services and a marker, and a byte of PSD behind them.
        let before = [0x96, 0xC8 | services, 0x80, 0x80, 0x00, 0x50];
        pdu(control, &before, pieces)
    }

    /// What is logged and left where programs 1 and 2 are listed, by a receiver of this
    /// line that knows no sequence.
    fn withheld(line: (u8, u8), pdu: &[u8], held: usize, services: Option<u8>) -> Got {
        let receiver = Receiver {
            serviced: services.is_some(),
            services: services.unwrap_or(0),
            held: held as u16,
            number: if held > 0 { 4 } else { 0 },
            ..open_entitled(line.0, line.1, 0, &[1, 2]).unwrap()
        };
        receive_from(receiver, &carry_with(&[0x77; 9]), pdu)
    }

    /// Note 8 in place of the PSD; of the pieces only one that continues what is held
    /// (document 02, Ask 10).
    #[test]
    fn withheld_pdus() {
        let eight = note(Note::Withheld);
        for line in [(0, 0), (1, 1), (10, 0), (10, 1)] {
            let pieces: [(&[u8], u8); 2] = [(&[1, 2], 0), (&[3], 0)];
            let word = word(1, true, true, 5);
            let sent = paid(line, word, 1, &pieces);
            let got = withheld(line, &sent, 0, None);
            assert_eq!(got.entries(), [eight.clone()]);
            assert_eq!(got.state(), (true, 1, 0, 0));
            let got = withheld(line, &sent, 1, None);
            let packet = Entry::Packet(4, vec![0x77, 1, 2]);
            assert_eq!(got.entries(), [eight.clone(), packet]);
            assert_eq!(got.state(), (true, 1, 0, 0));
            let wrong = paid(line, word, 1, &[(&[1, 2], 9), (&[3], 0)]);
            let got = withheld(line, &wrong, 1, None);
            assert_eq!(got.entries(), [eight.clone(), note(Note::WrongCrc(0))]);
            let alone = paid(line, word, 1, &pieces[..1]);
            let got = withheld(line, &alone, 1, None);
            assert_eq!(got.entries(), [eight.clone()]);
            assert_eq!(got.state(), (true, 1, 3, 4));
            // Not withheld: 0 and 2 to 7.
            for services in [0, 2, 3, 4, 5, 6, 7] {
                let got = withheld(line, &paid(line, word, services, &pieces), 0, None);
                let wanted = [Entry::Psd(vec![0x50]), note(Note::NothingHeld(0))];
                assert_eq!(got.entries(), wanted);
                assert_eq!(got.state(), (true, 1, 1, 5));
            }
        }
    }

    /// The value of sequence 0 is kept; unknown, all that is not listed is withheld.
    #[test]
    fn kept_services() {
        let eight = [note(Note::Withheld)];
        let psd = [Entry::Psd(vec![0x50])];
        for mode in [1, 2, 3, 13] {
            for sequence in 0..8 {
                let word = word(sequence, false, false, 0);
                for sent in 0..8 {
                    for before in [None, Some(0), Some(1), Some(2), Some(7)] {
                        let got = withheld((mode, 0), &paid((mode, 0), word, sent, &[]), 0, before);
                        let kept = if sequence == 0 { Some(sent) } else { before };
                        let next = got.answer.receiver;
                        assert_eq!(next.serviced.then_some(next.services), kept);
                        assert!(next.serviced || next.services == 0);
                        let gone = kept.is_none() || kept == Some(1);
                        let wanted = if gone { &eight } else { &psd };
                        assert_eq!(got.entries(), wanted);
                    }
                }
            }
        }
    }

    #[test]
    fn refusals_of_the_services() {
        use ReceiverCause::{ServicesNotKept, ServicesNotKnown, ServicesOver7};
        for line in TABLE {
            let keeps = entitlement::keeps(&line);
            for (serviced, services, cause) in [
                (false, 0, None),
                (false, 1, Some(ServicesNotKnown)),
                (false, 7, Some(ServicesNotKnown)),
                (true, 0, (!keeps).then_some(ServicesNotKept)),
                (true, 7, (!keeps).then_some(ServicesNotKept)),
                (true, 8, Some(ServicesOver7)),
                (true, 255, Some(ServicesOver7)),
            ] {
                let receiver = Receiver {
                    serviced,
                    services,
                    ..open(line.mode, line.stream).unwrap()
                };
                let causes = state_causes(&receiver);
                assert_eq!(causes.first(), cause.as_ref());
                let refusal = mark_lost(receiver, &mut [0]).refusal;
                assert_eq!(refusal, u32::from(cause.is_some()));
            }
        }
    }

    #[test]
    fn refusals_of_the_carry() {
        let pdu = pdu(word(0, false, true, 0), &[], &[(&[1], 0)]);
        let fresh = open(0, 0).unwrap();
        for (length, number) in [(0, 2), (1, 2), (4_095, 2), (4_096, 0), (5_000, 0)] {
            let got = once(fresh, &vec![7; length], &pdu, 0);
            assert_eq!(got.answer.refusal, number, "{length}");
        }
    }

    /// Each mode and stream opened, each sent.
    #[test]
    fn refusals_of_others_than_opened() {
        for opened in TABLE {
            for sent in TABLE {
                let control = ControlWord {
                    mode: sent.mode,
                    stream: sent.stream,
                    ..ControlWord::default()
                };
                let receiver = open(opened.mode, opened.stream).unwrap();
                let got = receive_from(receiver, &carry_with(&[]), &pdu(control, &[], &[]));
                let wanted = if opened == sent {
                    vec![]
                } else {
                    vec![ReceiverCause::NotThoseOpened]
                };
                assert_eq!(got.answer.causes, wanted);
            }
        }
    }

    /// Locators 100, 30, 40 in 96 bytes: wrong are 0 and 1.
    #[test]
    fn wrong_locators() {
        let mut pdu = vec![0; 96];
        let parts = Parts {
            control: ControlWord {
                nop: 3,
                la: 19,
                ..ControlWord::default()
            },
            locator_bits: 16,
            locators: vec![100, 30, 40],
            ..Parts::default()
        };
        parts.encode(&mut pdu);
        let got = receive_from(open(0, 0).unwrap(), &carry_with(&[]), &pdu);
        assert_eq!(got.answer.refusal, 11);
        assert_eq!(got.answer.wrong_locators(), [0, 1]);
    }

    /// The lowest of several is answered; example: length 95 is 3.
    #[test]
    fn several_refusals() {
        use ReceiverCause::{CarryUnder4096, NotThoseOpened, Number, NumberNotHeld, Pdu};
        let control = ControlWord {
            mode: 5,
            sequence: 3,
            la: 12,
            ..ControlWord::default()
        };
        let mut pdu = vec![0; 96];
        let parts = Parts {
            control,
            locator_bits: 16,
            ..Parts::default()
        };
        parts.encode(&mut pdu);
        let fresh = open(0, 0).unwrap();
        let wrong = Receiver {
            number: 64,
            ..fresh
        };
        let got = once(wrong, &[], &pdu, 0);
        let wanted = [
            Number,
            NumberNotHeld,
            CarryUnder4096,
            Pdu(Cause::ModeAndStream),
            NotThoseOpened,
        ];
        assert_eq!(got.answer.causes, wanted);
        assert_eq!(got.answer.refusal, 1);
        assert_eq!(once(fresh, &[], &pdu, 0).answer.refusal, 2);
        let carry = carry_with(&[]);
        assert_eq!(once(fresh, &carry, &pdu, 0).answer.refusal, 5);
        assert_eq!(once(fresh, &carry, &pdu[..95], 0).answer.refusal, 3);
        pdu[20..40].fill(0xFF);
        assert_eq!(once(fresh, &carry, &pdu, 0).answer.refusal, 4);
    }

    /// Receives the PDU with these marks once and looks at what must not
    /// change.
    fn with_marks(receiver: Receiver, carry: &[u8], pdu: &[u8], marks: &[u8]) -> (Answer, Vec<u8>) {
        let mut lent = pdu.to_vec();
        let mut lent_carry = carry.to_vec();
        let mut log = vec![UNTOUCHED; LOG_WORDS];
        let answer = receive_marked(receiver, &mut lent_carry, &mut lent, marks, &mut log);
        assert!(log[answer.words..].iter().all(|&word| word == UNTOUCHED));
        if answer.refusal != 0 {
            assert_eq!((answer.words, answer.receiver), (0, receiver));
            assert_eq!((&lent[..], &lent_carry[..]), (pdu, carry));
        }
        (answer, lent)
    }

    /// Eight bytes altered and marked, among them those that say mode, stream
    /// and NOP; with one mark less it can't be mended.
    #[test]
    fn marked_places() {
        let right = pdu(word(1, false, true, 7), &[9], &[(&[1, 2], 0), (&[3], 0)]);
        let marks = [8, 9, 11, 12, 13, 0, 95, 40];
        let mut damaged = right.clone();
        for mark in marks {
            damaged[usize::from(mark)] ^= 0xFF;
        }
        let fresh = open(0, 0).unwrap();
        let (answer, mended) = with_marks(fresh, &carry_with(&[]), &damaged, &marks);
        assert_eq!(answer.causes, []);
        assert_eq!(mended, right);
        let got = receive_from(fresh, &carry_with(&[]), &right);
        assert_eq!(answer, got.answer);
        // Seven marks can't explain an eighth byte, nor can none.
        for marks in [&marks[..7], &[]] {
            let (answer, _) = with_marks(fresh, &carry_with(&[]), &damaged, marks);
            assert_eq!(answer.causes, [ReceiverCause::Pdu(Cause::BeyondMending)]);
        }
        // Of another mode than the receiver's, once it is mended.
        let other = open(1, 0).unwrap();
        let (answer, _) = with_marks(other, &carry_with(&[]), &damaged, &marks);
        assert_eq!(answer.causes, [ReceiverCause::NotThoseOpened]);
    }

    /// 1, 2, 3, then 19, then 4 and the others.
    #[test]
    fn order_of_19() {
        use refusal::MarksCause::{MoreThanEight, Over95, Repeated};
        let control = ControlWord {
            mode: 5,
            ..ControlWord::default()
        };
        let mut pdu = vec![0; 96];
        let parts = Parts {
            control,
            locator_bits: 16,
            ..Parts::default()
        };
        parts.encode(&mut pdu);
        let fresh = open(0, 0).unwrap();
        let carry = carry_with(&[]);
        let wrong = Receiver {
            number: 64,
            ..fresh
        };
        let nine: Vec<u8> = (0..9).collect();
        assert_eq!(with_marks(wrong, &[], &pdu[..95], &nine).0.refusal, 1);
        assert_eq!(with_marks(fresh, &[], &pdu[..95], &nine).0.refusal, 2);
        assert_eq!(with_marks(fresh, &carry, &pdu[..95], &nine).0.refusal, 3);
        for (marks, cause) in [
            (&nine[..], MoreThanEight),
            (&[1, 96], Over95),
            (&[5, 1, 5], Repeated),
        ] {
            let (answer, _) = with_marks(fresh, &carry, &pdu, marks);
            assert_eq!(answer.refusal, 19);
            assert_eq!(answer.causes, [ReceiverCause::Marks(cause)]);
        }
        assert_eq!(with_marks(fresh, &carry, &pdu, &nine[..8]).0.refusal, 5);
        pdu[20..40].fill(0xFF);
        assert_eq!(with_marks(fresh, &carry, &pdu, &nine).0.refusal, 19);
        assert_eq!(with_marks(fresh, &carry, &pdu, &[1]).0.refusal, 4);
    }
}
