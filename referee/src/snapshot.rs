//! Firmware change while driving (document 02, Ask 13): a running receiver written out
//! as words of 32 bits and read again, with the refusals 25 and 26; its counts of
//! packets in kind 6 (Ask 14). All causes for turning words down are gathered, each by
//! itself.

use crate::entitlement::{self, Entitled, PROGRAMS};
use crate::modes::{self, Line};
use crate::receiver::{self, Receiver};
use crate::refusal::{self, SnapshotCause, WordsCause};
use crate::writer::{LONGEST_PACKET, NUMBERS};

/// A buffer of so many words always suffices.
pub const MOST_WORDS: usize = 5 + LONGEST_PACKET.div_ceil(DATA_BYTES) + COUNT_WORDS;

/// The kinds of words, their top four bits.
pub const MODE: u32 = 0;
pub const SEQUENCE: u32 = 1;
pub const HELD: u32 = 2;
pub const REGISTER: u32 = 3;
pub const ENTITLED: u32 = 4;
pub const BYTES: u32 = 5;
pub const COUNTS: u32 = 6;

/// How many bytes a word of the held bytes has at most.
const DATA_BYTES: usize = 3;

/// How many words of kind 6 there are, if any.
const COUNT_WORDS: usize = 5;

/// Bit 11 of kind 4: the applied services are known.
const KNOWN: u32 = 1 << 11;

/// How many kinds there are.
pub const KINDS: usize = 7;

/// The bits that each kind uses, beside the kind itself.
pub const USED: [u32; KINDS] = [0x3F, 0x7, 0x3F_FFFF, 0xFF, 0xFFF, 0x3FF_FFFF, 0xFFFF];

/// A word of this kind.
fn word(kind: u32, fields: u32) -> u32 {
    kind << 28 | fields
}

/// The kind of a word.
pub fn kind(word: u32) -> u32 {
    word >> 28
}

/// The words of a receiver that is right, and of the bytes that it holds.
pub fn words(receiver: &Receiver, held: &[u8]) -> Vec<u32> {
    let mode = u32::from(receiver.mode) | u32::from(receiver.stream) << 4;
    let mut words = vec![word(MODE, mode)];
    if receiver.known {
        words.push(word(SEQUENCE, u32::from(receiver.sequence)));
    }
    if !held.is_empty() {
        let fields = u32::from(receiver.number) << 16 | held.len() as u32;
        words.push(word(HELD, fields));
    }
    words.push(word(REGISTER, u32::from(receiver.register)));
    words.push(word(ENTITLED, programs_and_services(receiver)));
    words.extend(held.chunks(DATA_BYTES).map(data_word));
    // Before the first delivery kind 6 is absent.
    if receiver.delivered > 0 {
        words.extend(counts(receiver).map(|fields| word(COUNTS, fields)));
    }
    words
}

/// The fields of the five words of kind 6: delivered high and low, missing high and
/// low, last number.
fn counts(receiver: &Receiver) -> [u32; COUNT_WORDS] {
    [
        receiver.delivered / 0x1_0000,
        receiver.delivered % 0x1_0000,
        receiver.missing / 0x1_0000,
        receiver.missing % 0x1_0000,
        u32::from(receiver.last),
    ]
}

/// The fields of kind 4.
fn programs_and_services(receiver: &Receiver) -> u32 {
    let listed = receiver.entitled.iter().enumerate();
    let programs: u32 = listed
        .map(|(program, &listed)| u32::from(listed) << program)
        .sum();
    let known = if receiver.serviced { KNOWN } else { 0 };
    known | u32::from(receiver.services) << 8 | programs
}

/// One to three bytes with their count, as in the log.
fn data_word(bytes: &[u8]) -> u32 {
    let mut fields = (bytes.len() as u32) << 24;
    for (place, &byte) in bytes.iter().enumerate() {
        fields |= u32::from(byte) << (16 - 8 * place);
    }
    word(BYTES, fields)
}

/// The answer to writing a receiver out.
#[derive(Clone, Debug, PartialEq, Eq)]
pub struct Saved {
    /// 0 if it is written, otherwise the lowest of the causes' numbers.
    pub refusal: u32,
    pub causes: Vec<SnapshotCause>,
    /// How many words are written; 0 if refused.
    pub words: usize,
}

/// Writes a receiver out, with the bytes that it holds in its carry, into a lent buffer
/// of words, from its first on. The rest of the buffer stays as it was, and all of it
/// when refused.
pub fn save(receiver: &Receiver, carry: &[u8], buffer: &mut [u32]) -> Saved {
    let mut causes: Vec<SnapshotCause> = receiver::state_causes(receiver)
        .into_iter()
        .chain(receiver::carry_causes(carry.len()))
        .map(SnapshotCause::Receiver)
        .collect();
    // How many words there are can be told only of a right receiver with its carry.
    let mut written = Vec::new();
    if causes.is_empty() {
        written = words(receiver, &carry[..usize::from(receiver.held)]);
        if buffer.len() < written.len() {
            causes.push(SnapshotCause::BufferTooShort);
        }
    }
    let number = refusal::first(causes.iter().map(|cause| cause.number()));
    if number.is_none() {
        buffer[..written.len()].copy_from_slice(&written);
    }
    Saved {
        refusal: number.unwrap_or(0),
        words: if number.is_none() { written.len() } else { 0 },
        causes,
    }
}

/// The answer to reading words.
#[derive(Clone, Debug, PartialEq, Eq)]
pub struct Loaded {
    /// 0 if they are read, otherwise the lowest of the causes' numbers.
    pub refusal: u32,
    pub causes: Vec<SnapshotCause>,
    /// The receiver; if refused, one that number 1 turns down.
    pub receiver: Receiver,
}

/// Reads the words of a receiver. The bytes that it holds go first into the lent carry;
/// the rest stays as it was, and all of it when refused.
pub fn load(words: &[u32], carry: &mut [u8]) -> Loaded {
    let short = receiver::carry_causes(carry.len()).into_iter();
    let mut causes: Vec<SnapshotCause> = short.map(SnapshotCause::Receiver).collect();
    causes.extend(words_causes(words).into_iter().map(SnapshotCause::Words));
    let number = refusal::first(causes.iter().map(|cause| cause.number()));
    let mut receiver = Receiver {
        mode: 255,
        ..Receiver::default()
    };
    if number.is_none() {
        receiver = receiver_of(words);
        let held = bytes_of(words);
        carry[..held.len()].copy_from_slice(&held);
    }
    Loaded {
        refusal: number.unwrap_or(0),
        causes,
        receiver,
    }
}

/// The first word of a kind, if there is one.
fn find(words: &[u32], wanted: u32) -> Option<u32> {
    words.iter().copied().find(|&word| kind(word) == wanted)
}

/// What right words say. Without kind 3 the register is 0; without kind 4 nothing is
/// entitled and the services are unknown; without kind 6 nothing is delivered.
fn receiver_of(words: &[u32]) -> Receiver {
    let mode = find(words, MODE).expect("kind 0");
    let sequence = find(words, SEQUENCE);
    let held = find(words, HELD).unwrap_or(0);
    let fourth = find(words, ENTITLED).unwrap_or(0);
    let sixth = count_fields(words);
    let half = |place: usize| sixth.get(place).copied().unwrap_or(0);
    Receiver {
        mode: (mode & 15) as u8,
        stream: (mode >> 4 & 3) as u8,
        register: find(words, REGISTER).unwrap_or(0) as u8,
        entitled: entitled(fourth),
        known: sequence.is_some(),
        sequence: (sequence.unwrap_or(0) & 7) as u8,
        held: (held & 0xFFFF) as u16,
        number: (held >> 16 & 63) as u8,
        serviced: fourth & KNOWN != 0,
        services: (fourth >> 8 & 7) as u8,
        delivered: half(0) * 0x1_0000 + half(1),
        missing: half(2) * 0x1_0000 + half(3),
        last: half(4) as u8,
    }
}

/// The fields of the words of kind 6.
fn count_fields(words: &[u32]) -> Vec<u32> {
    let sixth = words.iter().filter(|&&word| kind(word) == COUNTS);
    sixth.map(|&word| word & 0xFFFF).collect()
}

/// The programs whose bits are set.
fn entitled(fourth: u32) -> Entitled {
    let mut entitled = [false; PROGRAMS];
    for (program, listed) in entitled.iter_mut().enumerate() {
        *listed = fourth >> program & 1 == 1;
    }
    entitled
}

/// How many bytes a word of kind 5 says that it has.
fn count(word: u32) -> usize {
    (word >> 24 & 3) as usize
}

/// The held bytes.
fn bytes_of(words: &[u32]) -> Vec<u8> {
    let data = words.iter().filter(|&&word| kind(word) == BYTES);
    data.flat_map(|&word| {
        let [_, x, y, z] = word.to_be_bytes();
        [x, y, z].into_iter().take(count(word))
    })
    .collect()
}

/// Refusal 25: words not of the form, or a field outside its range.
pub fn words_causes(words: &[u32]) -> Vec<WordsCause> {
    let mut causes = order_causes(words);
    for &word in words {
        causes.extend(bit_causes(word));
    }
    causes.extend(held_causes(words));
    causes.extend(count_causes(words));
    // Ranges can be told only where mode and stream are.
    if let Some(mode) = find(words, MODE) {
        match modes::line_for((mode & 15) as u8, (mode >> 4 & 3) as u8) {
            None => causes.push(WordsCause::ModeAndStream),
            Some(line) => causes.extend(words.iter().filter_map(|&word| range_cause(word, &line))),
        }
    }
    causes
}

/// Kinds rise; 0 is always there; only 5 and 6 repeat.
fn order_causes(words: &[u32]) -> Vec<WordsCause> {
    let mut causes = Vec::new();
    if find(words, MODE).is_none() {
        causes.push(WordsCause::NoMode);
    }
    for two in words.windows(2) {
        match (kind(two[0]), kind(two[1])) {
            (BYTES, BYTES) | (COUNTS, COUNTS) => {}
            (before, after) if before < after => {}
            (before, after) if before == after => causes.push(WordsCause::Repeated(after)),
            (_, after) => causes.push(WordsCause::NotRising(after)),
        }
    }
    causes
}

/// A kind that there is not, or an unused bit that is set. Of a word of bytes those
/// behind its count are unused too.
fn bit_causes(word: u32) -> Vec<WordsCause> {
    let kind = kind(word);
    let Some(used) = USED.get(kind as usize) else {
        return vec![WordsCause::UnknownKind(kind)];
    };
    let used = match (kind, count(word)) {
        (BYTES, count) => used & !(0xFF_FFFF >> (8 * count)),
        _ => *used,
    };
    match word & 0x0FFF_FFFF & !used {
        0 => Vec::new(),
        _ => vec![WordsCause::UnusedBit(kind)],
    }
}

/// Kinds 2 and 5 are there together, with as many bytes as kind 2 says, at least one
/// and at most 4,096, three a word but in the last.
fn held_causes(words: &[u32]) -> Vec<WordsCause> {
    let mut causes = Vec::new();
    let counts: Vec<usize> = words
        .iter()
        .filter(|&&word| kind(word) == BYTES)
        .map(|&word| count(word))
        .collect();
    let held = find(words, HELD).map(|word| (word & 0xFFFF) as usize);
    match held {
        None if !counts.is_empty() => causes.push(WordsCause::BytesOfNothing),
        None => {}
        Some(0) => causes.push(WordsCause::NothingHeld),
        Some(length) if length > LONGEST_PACKET => causes.push(WordsCause::HeldOver4096),
        Some(_) if counts.is_empty() => causes.push(WordsCause::NoBytes),
        Some(length) if counts.iter().sum::<usize>() != length => {
            causes.push(WordsCause::OtherCount);
        }
        Some(_) => {}
    }
    for (place, &count) in counts.iter().enumerate() {
        match count {
            0 => causes.push(WordsCause::CountZero),
            1 | 2 if place + 1 < counts.len() => causes.push(WordsCause::ShortBeforeLast),
            _ => {}
        }
    }
    causes
}

/// Kind 6 is absent, or there in exactly five words, with delivered at least 1 and a
/// last number of at most 63.
fn count_causes(words: &[u32]) -> Vec<WordsCause> {
    let mut causes = Vec::new();
    match count_fields(words)[..] {
        [] => {}
        [high, low, _, _, last] => {
            if (high, low) == (0, 0) {
                causes.push(WordsCause::NothingDelivered);
            }
            if last >= u32::from(NUMBERS) {
                causes.push(WordsCause::Last);
            }
        }
        _ => causes.push(WordsCause::NotFive),
    }
    causes
}

/// A sequence outside its range, or applied services that can't be.
fn range_cause(word: u32, line: &Line) -> Option<WordsCause> {
    let services = (word & KNOWN != 0, word >> 8 & 7);
    match (kind(word), services) {
        (SEQUENCE, _) if word & 7 >= u32::from(line.sequences) => Some(WordsCause::Sequence),
        (ENTITLED, (false, 1..)) => Some(WordsCause::ServicesNotKnown),
        (ENTITLED, (true, _)) if !entitlement::keeps(line) => Some(WordsCause::ServicesNotKept),
        _ => None,
    }
}

#[cfg(test)]
mod tests {
    use super::*;
    use crate::entitlement::ALL;
    use crate::modes::TABLE;
    use crate::receiver::CARRY_BYTES;
    use crate::rng::Rng;

    /// What a buffer holds before the call.
    const UNTOUCHED: u32 = 0xEEEE_EEEE;

    /// Mode 1, core, with a value in every field.
    fn full() -> (Receiver, Vec<u8>, Vec<u32>) {
        let receiver = Receiver {
            mode: 1,
            stream: 0,
            register: 0xFF,
            entitled: entitlement::entitled(&[0, 3]).unwrap(),
            known: true,
            sequence: 5,
            held: 4,
            number: 9,
            serviced: true,
            services: 1,
            delivered: 70_000,
            missing: 3,
            last: 8,
        };
        let words = vec![
            0x0000_0001,
            0x1000_0005,
            0x2009_0004,
            0x3000_00FF,
            0x4000_0909,
            0x5311_2233,
            0x5144_0000,
            0x6000_0001,
            0x6000_1170,
            0x6000_0000,
            0x6000_0003,
            0x6000_0008,
        ];
        (receiver, vec![0x11, 0x22, 0x33, 0x44], words)
    }

    #[test]
    fn a_full_one() {
        let (receiver, held, wanted) = full();
        assert_eq!(words(&receiver, &held), wanted);
        let mut carry = vec![7; CARRY_BYTES];
        carry[..4].copy_from_slice(&held);
        let mut buffer = [UNTOUCHED; 14];
        let saved = save(&receiver, &carry, &mut buffer);
        assert_eq!((saved.refusal, saved.words), (0, 12));
        assert_eq!(buffer[..12], wanted);
        assert_eq!(buffer[12..], [UNTOUCHED; 2]);
        let mut other = vec![9; CARRY_BYTES + 1];
        let loaded = load(&wanted, &mut other);
        assert_eq!((loaded.refusal, loaded.receiver), (0, receiver));
        assert_eq!(other[..4], held);
        assert!(other[4..].iter().all(|&byte| byte == 9));
    }

    #[test]
    fn a_fresh_one() {
        for line in TABLE {
            let fresh = receiver::open(line.mode, line.stream).unwrap();
            let words = words(&fresh, &[]);
            let mode = u32::from(line.stream) << 4 | u32::from(line.mode);
            assert_eq!(words, [mode, 0x3000_0000, 0x4000_00FF]);
            let loaded = load(&words, &mut [0; CARRY_BYTES]);
            assert_eq!(loaded.receiver, fresh);
        }
        assert_eq!(MOST_WORDS, 1_376);
    }

    #[test]
    fn older() {
        let (full, _, words) = full();
        let load = |words: &[u32]| load(words, &mut [0; CARRY_BYTES]).receiver;
        let without = |kinds: &[u32]| -> Vec<u32> {
            let kept = words.iter().copied();
            kept.filter(|&word| !kinds.contains(&kind(word))).collect()
        };
        let register_0 = Receiver {
            register: 0,
            ..full
        };
        assert_eq!(load(&without(&[REGISTER])), register_0);
        let not_entitled = Receiver {
            entitled: [false; 8],
            serviced: false,
            services: 0,
            ..full
        };
        assert_eq!(load(&without(&[ENTITLED])), not_entitled);
        let both = Receiver {
            register: 0,
            ..not_entitled
        };
        assert_eq!(load(&without(&[REGISTER, ENTITLED])), both);
        let nothing_delivered = Receiver {
            delivered: 0,
            missing: 0,
            last: 0,
            ..full
        };
        assert_eq!(load(&without(&[COUNTS])), nothing_delivered);
        assert_ne!(both.entitled, ALL);
    }

    /// Words are right just where they are those of a right receiver, with or without
    /// kinds 3 and 4.
    #[test]
    fn right_words_are_those_of_receivers() {
        let mut rng = Rng::new(0x13);
        let (mut right, mut wrong) = (0, 0);
        for _ in 0..200_000 {
            let (_, _, mut words) = full();
            for _ in 0..rng.below(3) {
                let place = rng.below(words.len());
                match rng.below(6) {
                    0 => words.truncate(place + 1),
                    1 => words.push(words[place]),
                    2 => drop(words.remove(place)),
                    _ => words[place] ^= 1 << rng.below(32),
                }
                if words.is_empty() {
                    break;
                }
            }
            let has = |wanted: u32| words.iter().any(|&word| kind(word) == wanted);
            let again = has(MODE).then(|| {
                let receiver = receiver_of(&words);
                let held = bytes_of(&words);
                let mut again = super::words(&receiver, &held);
                again.retain(|&word| !matches!(kind(word), REGISTER | ENTITLED) || has(kind(word)));
                let right = receiver::state_causes(&receiver).is_empty();
                right && usize::from(receiver.held) == held.len() && again == words
            });
            let is_right = again == Some(true);
            assert_eq!(words_causes(&words).is_empty(), is_right, "{words:x?}");
            right += usize::from(is_right);
            wrong += usize::from(!is_right);
        }
        assert!(right > 20_000 && wrong > 20_000);
    }

    #[test]
    fn refused() {
        let (receiver, held, words) = full();
        let mut carry = vec![7; CARRY_BYTES];
        carry[..4].copy_from_slice(&held);
        for (carry, length, number) in [
            (&carry[..], 12, 0),
            (&carry[..], 11, 26),
            (&carry[..4_095], 11, 2),
            (&carry[..4_095], 12, 2),
        ] {
            let mut buffer = vec![UNTOUCHED; length];
            assert_eq!(save(&receiver, carry, &mut buffer).refusal, number);
            let wrong = Receiver {
                mode: 4,
                ..receiver
            };
            let mut buffer = vec![UNTOUCHED; length];
            assert_eq!(save(&wrong, carry, &mut buffer).refusal, 1);
            assert!(buffer.iter().all(|&word| word == UNTOUCHED));
        }
        let nobody = Receiver {
            mode: 255,
            ..Receiver::default()
        };
        for (words, length, number) in [
            (&words[..6], 4_096, 25),
            (&words[..6], 4_095, 2),
            (&words[..7], 4_095, 2),
            (&words[..11], 4_096, 25),
            (&words[..12], 4_095, 2),
            (&[], 4_096, 25),
        ] {
            let mut carry = vec![5; length];
            let loaded = load(words, &mut carry);
            assert_eq!((loaded.refusal, loaded.receiver), (number, nobody));
            assert!(carry.iter().all(|&byte| byte == 5));
        }
    }
}
