//! Compares the product's receivers saved as words and loaded again (document 02, Asks
//! 13 and 14) with the reference: receivers of every mode and stream in buffers about as long
//! as they need, and ones that are not in range; word lists that are right, of older
//! firmware, with each defect at each place, and altered anyhow; and whole drives that
//! are interrupted anywhere, beside the same drives that are not. What a call has to
//! answer and to leave is told from how its receiver or its words were made.

#[allow(dead_code)]
mod attempt;
#[allow(dead_code)]
mod calls;
#[allow(dead_code)]
mod copies;
#[allow(dead_code)]
mod drives;
mod lent;
mod noise;
mod product;
#[allow(dead_code)]
mod receptions;
#[allow(dead_code)]
mod roads;
#[allow(dead_code)]
mod samples;
#[allow(dead_code)]
mod spoiling;
#[allow(dead_code)]
mod told;

use attempt::against_product::receiver_for;
use drives::{List, Style, STYLES};
use lent::{Lent, LentLog};
use product::snapshots as product_calls;
use referee::modes::{self, Line, TABLE};
use referee::receiver::{self, Receiver};
use referee::refusal::{self, SnapshotCause, WordsCause};
use referee::rng::Rng;
use referee::snapshot::{self, Saved};
use roads::Roads;
use std::collections::BTreeMap;

/// The random numbers for a class of cases; its seed is printed.
fn seeded(class: &str, seed: u64) -> Rng {
    println!("{class}: seed {seed:#x}");
    Rng::new(seed)
}

/// Modes 1, 2, 3 and 13, core: there applied services are kept.
fn keeps(line: &Line) -> bool {
    matches!((line.mode, line.stream), (1 | 2 | 3 | 13, 0))
}

/// How many bytes are held: often none or few, and at the edges.
fn some_held(rng: &mut Rng) -> usize {
    match rng.below(16) {
        0..=3 => 0,
        4..=11 => rng.within(1, 12),
        12 => rng.within(4_090, 4_096),
        13 => 4_096,
        _ => [rng.within(1, 200), rng.within(1, 4_096)][rng.below(2)],
    }
}

/// A count of packets: 0, 1, at the edges of its halves, the largest, or any.
fn some_count(rng: &mut Rng) -> u32 {
    let any = rng.bits() as u32;
    let edges = [0, 1, 0xFFFF, 0x1_0000, 0x1_0001, 0xFFFF_0000, 0xFFFF_FFFF];
    [edges[rng.below(7)], any, any % 1_000][rng.below(3)]
}

/// A receiver that is right, with the bytes that it holds, and which of kinds 3 and 4
/// stand in its words.
#[derive(Clone)]
struct Case {
    line: Line,
    receiver: Receiver,
    held: Vec<u8>,
    register: bool,
    programs: bool,
}

impl Case {
    /// Any one of this line, with all kinds.
    fn new(rng: &mut Rng, line: Line) -> Case {
        let held = some_held(rng);
        Case::holding(rng, line, held)
    }

    /// One that holds so many bytes.
    fn holding(rng: &mut Rng, line: Line, held: usize) -> Case {
        let known = rng.below(4) > 0;
        let serviced = keeps(&line) && rng.below(4) > 0;
        let delivered = u32::from(rng.below(3) > 0) * some_count(rng);
        let last = line.sequences - 1;
        let receiver = Receiver {
            mode: line.mode,
            stream: line.stream,
            register: [0, 255, rng.byte()][rng.below(3)],
            entitled: [(); 8].map(|()| rng.below(2) == 0),
            known,
            sequence: u8::from(known) * [last, rng.within(0, last.into()) as u8][rng.below(2)],
            held: held as u16,
            number: u8::from(held > 0) * [0, 63, rng.below(64) as u8][rng.below(3)],
            serviced,
            services: u8::from(serviced) * [0, 1, 7, rng.below(8) as u8][rng.below(4)],
            delivered,
            missing: u32::from(delivered > 0) * some_count(rng),
            last: u8::from(delivered > 0) * [0, 63, rng.below(64) as u8][rng.below(3)],
        };
        let mut bytes = vec![0; held];
        rng.fill(&mut bytes);
        Case {
            line,
            receiver,
            held: bytes,
            register: true,
            programs: true,
        }
    }

    /// What its words say: without kind 3 register 0, without kind 4 nothing entitled
    /// and services unknown.
    fn wanted(&self) -> Receiver {
        let mut receiver = self.receiver;
        if !self.register {
            receiver.register = 0;
        }
        if !self.programs {
            receiver.entitled = [false; 8];
            (receiver.serviced, receiver.services) = (false, 0);
        }
        receiver
    }

    /// Its words, byte by byte from the top.
    fn words(&self) -> Vec<u32> {
        self.words_in(&self.sizes())
    }

    /// How many bytes each word of kind 5 has.
    fn sizes(&self) -> Vec<usize> {
        self.held.chunks(3).map(<[u8]>::len).collect()
    }

    /// The same with the held bytes in words of these sizes.
    fn words_in(&self, sizes: &[usize]) -> Vec<u32> {
        let Receiver {
            mode,
            stream,
            register,
            sequence,
            number,
            services,
            ..
        } = self.receiver;
        let mut bytes = vec![[0, 0, 0, stream * 16 + mode]];
        if self.receiver.known {
            bytes.push([0x10, 0, 0, sequence]);
        }
        if self.receiver.held > 0 {
            let [high, low] = self.receiver.held.to_be_bytes();
            bytes.push([0x20, number, high, low]);
        }
        if self.register {
            bytes.push([0x30, 0, 0, register]);
        }
        if self.programs {
            let programs = (0..8).filter(|&p| self.receiver.entitled[p]);
            let programs: u8 = programs.map(|p| 1 << p).sum();
            let known = u8::from(self.receiver.serviced) * 8;
            bytes.push([0x40, 0, known + services, programs]);
        }
        let mut left = &self.held[..];
        for &size in sizes {
            let (some, behind) = left.split_at(size);
            let mut three = [0; 3];
            three[..size].copy_from_slice(some);
            bytes.push([0x50 + size as u8, three[0], three[1], three[2]]);
            left = behind;
        }
        assert!(left.is_empty());
        if self.receiver.delivered > 0 {
            for count in [self.receiver.delivered, self.receiver.missing] {
                let [a, b, c, d] = count.to_be_bytes();
                bytes.extend([[0x60, 0, a, b], [0x60, 0, c, d]]);
            }
            bytes.push([0x60, 0, 0, self.receiver.last]);
        }
        bytes.into_iter().map(u32::from_be_bytes).collect()
    }

    /// A carry of so many bytes that begins with what is held, as far as it goes.
    fn carry(&self, rng: &mut Rng, length: usize) -> Lent {
        let mut carry = Lent::random(rng, length);
        let held = self.held.len().min(length);
        carry.bytes_mut()[..held].copy_from_slice(&self.held[..held]);
        carry
    }
}

/// A carry of 4,096 bytes or some more.
fn some_length(rng: &mut Rng) -> usize {
    4_096 + [0, 0, 1, rng.below(300)][rng.below(4)]
}

/// A carry that is too short.
fn too_short(rng: &mut Rng) -> usize {
    [0, 1, 4_095, rng.below(4_096)][rng.below(4)]
}

/// Saves by reference and product, with the buffer compared whole; the reference's
/// answer, and the words written.
fn save(rng: &mut Rng, receiver: &Receiver, carry: &Lent, length: usize) -> (Saved, Vec<u32>) {
    let before = LentLog::random(rng, length);
    let mut own = before.clone();
    let answer = snapshot::save(receiver, carry.bytes(), own.words_mut());
    if answer.refusal != 0 {
        assert!(own == before && answer.words == 0, "changed though refused");
    }
    assert_eq!(own.words()[answer.words..], before.words()[answer.words..]);
    let mut lent = before;
    let lent_carry = carry.clone();
    let is_so = product_calls::save(receiver_for(receiver), &lent_carry, &mut lent);
    assert_eq!(
        (is_so.refusal, is_so.words as usize),
        (answer.refusal, answer.words),
        "saving {receiver:?} with {length} words; the reference has {:?}",
        answer.causes
    );
    assert!(lent == own, "words: {}", lent.differences(&own));
    assert!(lent_carry == *carry, "a carry is only read");
    let words = own.words()[..answer.words].to_vec();
    (answer, words)
}

/// Receivers in buffers from none to more words than they need, most often about as
/// many.
#[test]
fn saving() {
    let mut rng = seeded("saving", 0xA13_0001);
    let mut edges: BTreeMap<isize, u64> = BTreeMap::new();
    let (mut calls, mut most) = (0, 0);
    for case in 0..120_000 {
        let case = Case::new(&mut rng, TABLE[case % TABLE.len()]);
        let wanted = case.words();
        let needed = wanted.len();
        most = most.max(needed);
        let length = match rng.below(8) {
            0 => rng.below(needed),
            1 => 0,
            2 => 1_376,
            _ => needed + rng.below(7) - 3.min(needed),
        };
        let length_of_carry = some_length(&mut rng);
        let carry = case.carry(&mut rng, length_of_carry);
        let (answer, words) = save(&mut rng, &case.receiver, &carry, length);
        match length < needed {
            true => assert_eq!(answer.causes, [SnapshotCause::BufferTooShort]),
            false => assert_eq!((answer.causes, words), (Vec::new(), wanted)),
        }
        let edge = length as isize - needed as isize;
        *edges.entry(edge.clamp(-4, 4)).or_default() += 1;
        calls += 1;
    }
    println!("saving: {calls} receivers, up to {most} words; words over the need {edges:?}");
    assert!(most == 1_376 && edges.len() == 9 && edges.values().all(|&count| count >= 5_000));
}

/// Puts a field of the state out of its range; what it is.
fn spoil(rng: &mut Rng, case: &mut Case) -> &'static str {
    let keeps = keeps(&case.line);
    let receiver = &mut case.receiver;
    match rng.below(4) {
        0 => {
            let over = [8, 255, rng.within(8, 255) as u8][rng.below(3)];
            (receiver.serviced, receiver.services) = (true, over);
            "services over 7"
        }
        1 => {
            let value = [1, 7, rng.within(1, 7) as u8][rng.below(3)];
            (receiver.serviced, receiver.services) = (false, value);
            "services not 0 while unknown"
        }
        2 if !keeps => {
            (receiver.serviced, receiver.services) = (true, rng.below(8) as u8);
            "services known elsewhere"
        }
        _ => {
            receptions::spoil_state(rng, receiver);
            "mode, stream, sequence, held, number or counts"
        }
    }
}

/// Numbers 1, 2 and 26 with each other: the lowest is answered, and nothing changes.
#[test]
fn saving_refused() {
    let mut rng = seeded("saving, refused", 0xA13_0002);
    let mut counts: BTreeMap<(u32, bool, bool), u64> = BTreeMap::new();
    let mut states: BTreeMap<&str, u64> = BTreeMap::new();
    for case in 0..60_000 {
        let mut case = Case::new(&mut rng, TABLE[case % TABLE.len()]);
        let needed = case.words().len();
        let (bad, short, little) = (rng.below(2) == 0, rng.below(2) == 0, rng.below(2) == 0);
        let length = match little {
            true => rng.below(needed),
            false => needed + rng.below(3),
        };
        let carry = match short {
            true => too_short(&mut rng),
            false => some_length(&mut rng),
        };
        let carry = case.carry(&mut rng, carry);
        if bad {
            *states.entry(spoil(&mut rng, &mut case)).or_default() += 1;
        }
        let (answer, _) = save(&mut rng, &case.receiver, &carry, length);
        let number = match (bad, short, little) {
            (true, ..) => refusal::STATE,
            (_, true, _) => refusal::CARRY,
            (_, _, true) => refusal::WORD_BUFFER,
            _ => 0,
        };
        assert_eq!(answer.refusal, number);
        *counts.entry((number, short, little)).or_default() += 1;
    }
    println!("saving, refused: by number, short carry, short buffer {counts:?}");
    println!("saving, refused: states {states:?}");
    assert!(counts.len() == 8 && counts.values().all(|&count| count >= 5_000));
    assert!(states.len() == 4 && states.values().all(|&count| count >= 3_000));
}

/// What is known of words from how they were made.
enum Known {
    Nothing,
    /// They say this receiver, and these held bytes.
    Right(Receiver, Vec<u8>),
    /// They are refused for this cause alone.
    Only(WordsCause),
    /// This cause is among those for which they are refused.
    Has(WordsCause),
}

/// What came of word lists.
#[derive(Default)]
struct Lists {
    lists: u64,
    loaded: u64,
    refused: u64,
    /// Refused for one cause alone, by cause.
    alone: BTreeMap<WordsCause, u64>,
    /// By mode and stream: loaded, and refused with a mode and stream of the table.
    loaded_lines: BTreeMap<(u8, u8), u64>,
    refused_lines: BTreeMap<(u8, u8), u64>,
}

impl Lists {
    /// Loads by reference and product, with the carry compared whole; the number.
    fn load(&mut self, rng: &mut Rng, words: &[u32], known: &Known) -> u32 {
        let length = some_length(rng);
        let before = Lent::random(rng, length);
        let mut own = before.clone();
        let answer = snapshot::load(words, own.bytes_mut());
        self.check_known(known, &answer, words);
        let held = usize::from(answer.receiver.held);
        match (known, answer.refusal) {
            (Known::Right(_, bytes), _) => assert_eq!(own.bytes()[..held], bytes[..]),
            (_, 0) => {}
            _ => assert!(own == before, "changed though refused"),
        }
        assert_eq!(own.bytes()[held..], before.bytes()[held..]);
        let lent_words = LentLog::of(rng, words);
        let words_before = lent_words.clone();
        let mut carry = before;
        let is_so = product_calls::load(&lent_words, &mut carry);
        assert_eq!(
            (is_so.refusal, is_so.receiver),
            (answer.refusal, receiver_for(&answer.receiver)),
            "loading {words:x?}; the reference has {:?}",
            answer.causes
        );
        assert!(carry == own, "carry: {}", carry.differences(&own));
        assert!(lent_words == words_before, "words are only read");
        self.count(words, &answer);
        answer.refusal
    }

    /// Compares the reference's answer with what is known.
    fn check_known(&self, known: &Known, answer: &snapshot::Loaded, words: &[u32]) {
        let wrong = |cause: &WordsCause| SnapshotCause::Words(*cause);
        match known {
            Known::Nothing => {}
            Known::Right(receiver, _) => {
                assert_eq!((&answer.causes[..], answer.receiver), (&[][..], *receiver));
            }
            Known::Only(cause) => assert_eq!(answer.causes, [wrong(cause)], "{words:x?}"),
            Known::Has(cause) => assert!(
                answer.causes.contains(&wrong(cause)),
                "{cause:?}: {words:x?}"
            ),
        }
    }

    fn count(&mut self, words: &[u32], answer: &snapshot::Loaded) {
        self.lists += 1;
        let line = words
            .first()
            .map(|word| ((word & 15) as u8, (word >> 4 & 3) as u8));
        let line = line.filter(|&(mode, stream)| modes::line_for(mode, stream).is_some());
        let lines = match answer.refusal {
            0 => &mut self.loaded_lines,
            _ => &mut self.refused_lines,
        };
        if let Some(line) = line {
            *lines.entry(line).or_default() += 1;
        }
        self.loaded += u64::from(answer.refusal == 0);
        self.refused += u64::from(answer.refusal != 0);
        if let [SnapshotCause::Words(cause)] = answer.causes[..] {
            *self.alone.entry(cause).or_default() += 1;
        }
    }

    fn report(&self, class: &str) {
        println!(
            "{class}: {} word lists, {} loaded, {} refused with 25, for one cause alone {:?}",
            self.lists, self.loaded, self.refused, self.alone
        );
        if self.loaded > 0 {
            assert_eq!(self.loaded_lines.len(), TABLE.len());
        }
        if self.refused > 0 {
            assert_eq!(self.refused_lines.len(), TABLE.len());
        }
    }
}

/// Words with all kinds, and of older firmware: without kind 3, without 4, without 6.
/// What is loaded is saved again with all kinds.
#[test]
fn loading() {
    let mut rng = seeded("loading", 0xA13_0003);
    let mut lists = Lists::default();
    let mut kinds: BTreeMap<(bool, bool, bool), u64> = BTreeMap::new();
    for case in 0..100_000 {
        let mut case = Case::new(&mut rng, TABLE[case % TABLE.len()]);
        (case.register, case.programs) = (rng.below(2) == 0, rng.below(2) == 0);
        let known = Known::Right(case.wanted(), case.held.clone());
        let number = lists.load(&mut rng, &case.words(), &known);
        assert_eq!(number, 0);
        let counted = case.receiver.delivered > 0;
        let there = (case.register, case.programs, counted);
        *kinds.entry(there).or_default() += 1;
        case.receiver = case.wanted();
        (case.register, case.programs) = (true, true);
        let carry = case.carry(&mut rng, 4_096);
        let (answer, words) = save(&mut rng, &case.receiver, &carry, 1_376);
        assert_eq!((answer.refusal, words), (0, case.words()));
    }
    lists.report("loading");
    println!("loading: by kind 3 there, kind 4 there, kind 6 there {kinds:?}");
    assert!(kinds.len() == 8 && kinds.values().all(|&count| count >= 8_000));
}

/// 2 before 25: a carry that is too short, with right words and with wrong ones.
#[test]
fn loading_with_a_short_carry() {
    let mut rng = seeded("loading, short carry", 0xA13_0004);
    let nobody = Receiver {
        mode: 255,
        ..Receiver::default()
    };
    let mut counts = [0_u64; 2];
    for case in 0..20_000 {
        let case = Case::new(&mut rng, TABLE[case % TABLE.len()]);
        let mut words = case.words();
        let wrong = rng.below(2) == 0;
        if wrong {
            words[0] |= 0x40;
        }
        let length = too_short(&mut rng);
        let before = Lent::random(&mut rng, length);
        let mut carry = before.clone();
        let answer = snapshot::load(&words, &mut carry.bytes_mut().to_vec());
        assert_eq!((answer.refusal, answer.receiver), (2, nobody));
        let words = LentLog::of(&mut rng, &words);
        let is_so = product_calls::load(&words, &mut carry);
        assert_eq!(
            (is_so.refusal, is_so.receiver),
            (2, receiver_for(&nobody)),
            "carry of {length}"
        );
        assert!(carry == before);
        counts[usize::from(wrong)] += 1;
    }
    println!("loading, short carry: {counts:?} with right and wrong words");
    assert!(counts.iter().all(|&count| count >= 9_000));
}

/// Words with a defect, and the cause; none where this receiver can't have it.
type Defect = fn(&mut Rng, &Case) -> Option<(Vec<u32>, Known)>;

/// The places of the words of a kind.
fn places(words: &[u32], kind: u32) -> Vec<usize> {
    let is_so = |&place: &usize| words[place] >> 28 == kind;
    (0..words.len()).filter(is_so).collect()
}

/// One of these, most often the first or the last.
fn one_of<T: Copy>(rng: &mut Rng, all: &[T]) -> Option<T> {
    let last = all.len().checked_sub(1)?;
    Some(all[[0, last, rng.below(last + 1)][rng.below(3)]])
}

/// No words at all, or no kind 0.
fn no_mode(rng: &mut Rng, case: &Case) -> Option<(Vec<u32>, Known)> {
    let words = match rng.below(16) {
        0 => Vec::new(),
        _ => case.words()[1..].to_vec(),
    };
    Some((words, Known::Only(WordsCause::NoMode)))
}

/// A word of an unknown kind at any place; behind the others it is the only cause.
fn unknown_kind(rng: &mut Rng, case: &Case) -> Option<(Vec<u32>, Known)> {
    let mut words = case.words();
    let kind = rng.within(snapshot::KINDS, 15) as u32;
    let place = [words.len(), rng.below(words.len() + 1)][rng.below(2)];
    let alone = place == words.len();
    let fields = [0, rng.bits() as u32 >> 4][rng.below(2)];
    words.insert(place, kind << 28 | fields);
    let cause = WordsCause::UnknownKind(kind);
    let known = if alone {
        Known::Only(cause)
    } else {
        Known::Has(cause)
    };
    Some((words, known))
}

/// A word of kind 0 to 4 twice.
fn repeated(rng: &mut Rng, case: &Case) -> Option<(Vec<u32>, Known)> {
    let mut words = case.words();
    let behind: Vec<usize> = (0..words.len()).filter(|&p| words[p] >> 28 < 5).collect();
    let place = behind[rng.below(behind.len())];
    words.insert(place, words[place]);
    let kind = words[place] >> 28;
    Some((words, Known::Only(WordsCause::Repeated(kind))))
}

/// Two words that follow each other swapped.
fn not_rising(rng: &mut Rng, case: &Case) -> Option<(Vec<u32>, Known)> {
    let mut words = case.words();
    let swaps: Vec<usize> = (1..words.len())
        .filter(|&p| words[p - 1] >> 28 != words[p] >> 28)
        .collect();
    let place = one_of(rng, &swaps)?;
    words.swap(place - 1, place);
    let kind = words[place] >> 28;
    Some((words, Known::Only(WordsCause::NotRising(kind))))
}

/// An unused bit of any word.
fn unused_bit(rng: &mut Rng, case: &Case) -> Option<(Vec<u32>, Known)> {
    let mut words = case.words();
    let mut kinds: Vec<u32> = words.iter().map(|word| word >> 28).collect();
    kinds.dedup();
    let kind = kinds[rng.below(kinds.len())];
    let of_kind = places(&words, kind);
    let place = one_of(rng, &of_kind)?;
    let word = words[place];
    let unused: Vec<u32> = (0..28)
        .filter(|bit| match kind {
            0 => *bit > 5,
            1 => *bit > 2,
            2 => *bit > 21,
            3 => *bit > 7,
            4 => *bit > 11,
            6 => *bit > 15,
            // Bits 27 and 26, and those of the bytes that are not there.
            _ => *bit > 25 || *bit < 24 - 8 * (word >> 24 & 3),
        })
        .collect();
    words[place] |= 1 << one_of(rng, &unused)?;
    Some((words, Known::Only(WordsCause::UnusedBit(kind))))
}

/// A mode and stream that are not in the table.
fn mode_and_stream(rng: &mut Rng, case: &Case) -> Option<(Vec<u32>, Known)> {
    let mut words = case.words();
    words[0] = rng.below(64) as u32;
    let (mode, stream) = ((words[0] & 15) as u8, (words[0] >> 4) as u8);
    let there = modes::line_for(mode, stream).is_some();
    (!there).then_some((words, Known::Only(WordsCause::ModeAndStream)))
}

/// A sequence outside its range.
fn sequence(rng: &mut Rng, case: &Case) -> Option<(Vec<u32>, Known)> {
    let mut words = case.words();
    let place = one_of(rng, &places(&words, 1))?;
    let over: Vec<u32> = (u32::from(case.line.sequences)..8).collect();
    words[place] = 1 << 28 | one_of(rng, &over)?;
    Some((words, Known::Only(WordsCause::Sequence)))
}

/// Kind 2 with length 0, with kind 5 and without.
fn nothing_held(rng: &mut Rng, case: &Case) -> Option<(Vec<u32>, Known)> {
    let mut words = case.words();
    let place = one_of(rng, &places(&words, 2))?;
    words[place] &= 0xFFFF_0000;
    if rng.below(2) == 0 {
        words.retain(|word| word >> 28 != 5);
    }
    Some((words, Known::Only(WordsCause::NothingHeld)))
}

/// The place before the words of kind 6, or behind all where there are none.
fn before_counts(words: &[u32]) -> usize {
    let sixth = words.iter().position(|word| word >> 28 == 6);
    sixth.unwrap_or(words.len())
}

/// Kind 2 with a length over 4,096, and often so many bytes.
fn held_over(rng: &mut Rng, case: &Case) -> Option<(Vec<u32>, Known)> {
    let mut words = case.words();
    let place = one_of(rng, &places(&words, 2))?;
    let length = [4_097, 4_098, 8_192, 65_535, rng.within(4_097, 65_535)][rng.below(5)];
    words[place] = words[place] & 0xFFFF_0000 | length as u32;
    if length < 4_100 {
        words.retain(|word| word >> 28 != 5);
        let counts = words.split_off(before_counts(&words));
        words.extend(vec![0x53AA_BBCC; length / 3]);
        let rest: [&[u32]; 3] = [&[], &[0x51DD_0000], &[0x52DD_EE00]];
        words.extend(rest[length % 3]);
        words.extend(counts);
    }
    Some((words, Known::Only(WordsCause::HeldOver4096)))
}

/// Kind 2 without kind 5.
fn no_bytes(_: &mut Rng, case: &Case) -> Option<(Vec<u32>, Known)> {
    let mut words = case.words();
    words.retain(|word| word >> 28 != 5);
    (!case.held.is_empty()).then_some((words, Known::Only(WordsCause::NoBytes)))
}

/// Kind 5 without kind 2.
fn bytes_of_nothing(rng: &mut Rng, case: &Case) -> Option<(Vec<u32>, Known)> {
    let mut words = case.words();
    words.retain(|word| word >> 28 != 2);
    if case.held.is_empty() {
        let data = [0x5100_0000, 0x52AB_CD00, 0x53AB_CDEF][rng.below(3)];
        words.insert(before_counts(&words), data);
    }
    Some((words, Known::Only(WordsCause::BytesOfNothing)))
}

/// More or fewer bytes than kind 2 says: another length there, or a word more or less.
fn other_count(rng: &mut Rng, case: &Case) -> Option<(Vec<u32>, Known)> {
    let mut words = case.words();
    let place = one_of(rng, &places(&words, 2))?;
    let held = case.held.len();
    let behind = before_counts(&words);
    match rng.below(3) {
        0 if held > 3 => drop(words.remove(behind - 1)),
        1 if held % 3 == 0 => {
            let data = [0x5100_0000, 0x5200_0000, 0x5300_0000][rng.below(3)];
            words.insert(behind, data);
        }
        _ => {
            let other = [held - 1, held + 1, rng.within(1, 4_096)][rng.below(3)];
            if other == held || other == 0 || other > 4_096 {
                return None;
            }
            words[place] = words[place] & 0xFFFF_0000 | other as u32;
        }
    }
    Some((words, Known::Only(WordsCause::OtherCount)))
}

/// A word of no bytes among those of kind 5; behind a short one, that one is not the
/// last.
fn count_zero(rng: &mut Rng, case: &Case) -> Option<(Vec<u32>, Known)> {
    let mut words = case.words();
    let behind = before_counts(&words);
    let place = one_of(rng, &[places(&words, 5), vec![behind]].concat())?;
    let behind_short = place == behind && case.held.len() % 3 != 0;
    words.insert(place, 0x5000_0000);
    let known = match (case.held.is_empty(), behind_short) {
        (false, false) => Known::Only(WordsCause::CountZero),
        _ => Known::Has(WordsCause::CountZero),
    };
    Some((words, known))
}

/// The right bytes, with a word under three before the last.
fn short_before_last(rng: &mut Rng, case: &Case) -> Option<(Vec<u32>, Known)> {
    let full = case.held.len() / 3;
    let short = rng.within(1, 2);
    let place = [0, full.saturating_sub(1), rng.below(full + 1)][rng.below(3)];
    let before = 3 * place + short;
    if before >= case.held.len() {
        return None;
    }
    let mut sizes = vec![3; place];
    sizes.push(short);
    let left = case.held.len() - before;
    sizes.extend(vec![3; left / 3]);
    sizes.extend((left % 3 > 0).then_some(left % 3));
    Some((
        case.words_in(&sizes),
        Known::Only(WordsCause::ShortBeforeLast),
    ))
}

/// Applied services that are not known and not 0.
fn services_not_known(rng: &mut Rng, case: &Case) -> Option<(Vec<u32>, Known)> {
    let mut words = case.words();
    let place = one_of(rng, &places(&words, 4))?;
    words[place] = words[place] & 0xFFFF_F0FF | (rng.within(1, 7) as u32) << 8;
    Some((words, Known::Only(WordsCause::ServicesNotKnown)))
}

/// Applied services known where none are kept.
fn services_not_kept(rng: &mut Rng, case: &Case) -> Option<(Vec<u32>, Known)> {
    let mut words = case.words();
    let place = one_of(rng, &places(&words, 4))?;
    words[place] = words[place] & 0xFFFF_F0FF | (rng.within(8, 15) as u32) << 8;
    (!keeps(&case.line)).then_some((words, Known::Only(WordsCause::ServicesNotKept)))
}

/// Kind 6 in one to four words, or in six or more; the others anywhere among them.
fn not_five(rng: &mut Rng, case: &Case) -> Option<(Vec<u32>, Known)> {
    let mut words = case.words();
    let counts = places(&words, 6);
    let first = *counts.first()?;
    match rng.below(2) {
        0 => {
            for _ in 0..rng.within(1, 4) {
                words.remove(first + rng.below(words.len() - first));
            }
        }
        _ => {
            for _ in 0..[1, 1, 5, rng.within(1, 12)][rng.below(4)] {
                let word = 6 << 28 | [0, 1, 63, rng.below(0x1_0000) as u32][rng.below(4)];
                words.insert(first + rng.below(words.len() + 1 - first), word);
            }
        }
    }
    Some((words, Known::Only(WordsCause::NotFive)))
}

/// Kind 6 with delivered 0, whatever else it says.
fn nothing_delivered(rng: &mut Rng, case: &Case) -> Option<(Vec<u32>, Known)> {
    let mut words = case.words();
    let first = *places(&words, 6).first()?;
    words[first..first + 2].fill(6 << 28);
    if rng.below(3) == 0 {
        words[first + 2..].fill(6 << 28);
    }
    Some((words, Known::Only(WordsCause::NothingDelivered)))
}

/// Kind 6 with a last number over 63.
fn last_over(rng: &mut Rng, case: &Case) -> Option<(Vec<u32>, Known)> {
    let mut words = case.words();
    let last = *places(&words, 6).last()?;
    let over = [64, 65, 127, 128, 255, 256, 0xFFFF, rng.within(64, 0xFFFF)][rng.below(8)];
    words[last] = 6 << 28 | over as u32;
    Some((words, Known::Only(WordsCause::Last)))
}

const DEFECTS: [Defect; 19] = [
    no_mode,
    unknown_kind,
    repeated,
    not_rising,
    unused_bit,
    mode_and_stream,
    sequence,
    nothing_held,
    held_over,
    no_bytes,
    bytes_of_nothing,
    other_count,
    count_zero,
    short_before_last,
    services_not_known,
    services_not_kept,
    not_five,
    nothing_delivered,
    last_over,
];

/// Each defect, in words of each mode and stream, of today's and of older firmware.
#[test]
fn defects() {
    let mut rng = seeded("defects", 0xA13_0005);
    let mut lists = Lists::default();
    for case in 0..240_000 {
        let line = TABLE[case % TABLE.len()];
        let mut receiver = Case::new(&mut rng, line);
        if rng.below(3) == 0 {
            (receiver.register, receiver.programs) = (rng.below(2) == 0, rng.below(2) == 0);
        }
        let defect = DEFECTS[case / TABLE.len() % DEFECTS.len()];
        if let Some((words, known)) = defect(&mut rng, &receiver) {
            assert_eq!(lists.load(&mut rng, &words, &known), 25);
        }
    }
    lists.report("defects");
    assert!(lists.lists >= 150_000);
    let unknown = (snapshot::KINDS as u32..16).map(WordsCause::UnknownKind);
    let others = [
        WordsCause::NoMode,
        WordsCause::ModeAndStream,
        WordsCause::Sequence,
        WordsCause::NothingHeld,
        WordsCause::HeldOver4096,
        WordsCause::NoBytes,
        WordsCause::BytesOfNothing,
        WordsCause::OtherCount,
        WordsCause::CountZero,
        WordsCause::ShortBeforeLast,
        WordsCause::ServicesNotKnown,
        WordsCause::ServicesNotKept,
        WordsCause::NotFive,
        WordsCause::NothingDelivered,
        WordsCause::Last,
    ];
    let kinds = (0..5).map(WordsCause::Repeated);
    let not_rising = (0..6).map(WordsCause::NotRising);
    let bits = (0..7).map(WordsCause::UnusedBit);
    let all = unknown.chain(others).chain(kinds).chain(not_rising);
    for cause in all.chain(bits) {
        let count = lists.alone.get(&cause).copied().unwrap_or(0);
        assert!(count >= 300, "{cause:?}: {count}");
    }
}

/// Every single bit of short word lists flipped, and each word left out, doubled and
/// swapped with the next.
#[test]
fn each_place() {
    let mut rng = seeded("each place", 0xA13_0006);
    let mut lists = Lists::default();
    for case in 0..400 {
        let line = TABLE[case % TABLE.len()];
        let held = case / TABLE.len() % 10;
        let mut right = Case::holding(&mut rng, line, held);
        (right.register, right.programs) = (case % 7 > 0, case % 3 > 0);
        let words = right.words();
        for place in 0..words.len() {
            for bit in 0..32 {
                let mut flipped = words.clone();
                flipped[place] ^= 1 << bit;
                lists.load(&mut rng, &flipped, &Known::Nothing);
            }
            let mut less = words.clone();
            less.remove(place);
            lists.load(&mut rng, &less, &Known::Nothing);
            let mut more = words.clone();
            more.insert(place, words[place]);
            lists.load(&mut rng, &more, &Known::Nothing);
            if place > 0 {
                let mut swapped = words.clone();
                swapped.swap(place - 1, place);
                lists.load(&mut rng, &swapped, &Known::Nothing);
            }
        }
    }
    lists.report("each place");
    assert!(lists.lists >= 80_000 && lists.loaded >= 15_000 && lists.refused >= 40_000);
}

/// What words say of which this bit of this one of the five words of kind 6 is flipped;
/// nothing is known where the kind is another then.
fn flipped(case: &Case, place: usize, bit: usize) -> Known {
    let mut receiver = case.receiver;
    match (place, bit) {
        (_, 28..) => return Known::Nothing,
        (_, 16..) => return Known::Only(WordsCause::UnusedBit(6)),
        (0, _) => receiver.delivered ^= 1 << (bit + 16),
        (1, _) => receiver.delivered ^= 1 << bit,
        (2, _) => receiver.missing ^= 1 << (bit + 16),
        (3, _) => receiver.missing ^= 1 << bit,
        (_, 6..) => return Known::Only(WordsCause::Last),
        _ => receiver.last ^= 1 << bit,
    }
    match receiver.delivered {
        0 => Known::Only(WordsCause::NothingDelivered),
        _ => Known::Right(receiver, case.held.clone()),
    }
}

/// Kind 6 word by word: every bit of each of its five words flipped, and every number of
/// words from none to eleven.
#[test]
fn words_of_counts() {
    let mut rng = seeded("kind 6", 0xA13_0009);
    let mut lists = Lists::default();
    let mut places: BTreeMap<(usize, u32), u64> = BTreeMap::new();
    let mut numbers: BTreeMap<(usize, u32), u64> = BTreeMap::new();
    for turn in 0..600 {
        let mut case = Case::holding(&mut rng, TABLE[turn % TABLE.len()], turn / TABLE.len() % 7);
        case.receiver.delivered = match turn / TABLE.len() % 4 {
            0 => 1 << rng.below(32),
            _ => some_count(&mut rng).max(1),
        };
        let words = case.words();
        let first = words.len() - 5;
        for (place, bit) in (0..5).flat_map(|place| (0..32).map(move |bit| (place, bit))) {
            let mut other = words.clone();
            other[first + place] ^= 1 << bit;
            let number = lists.load(&mut rng, &other, &flipped(&case, place, bit));
            assert!(bit < 28 || number == refusal::WORDS);
            *places.entry((place, number)).or_default() += 1;
        }
        for count in 0..12 {
            let counts = words[first..].iter().cycle().take(count);
            let other: Vec<u32> = words[..first].iter().chain(counts).copied().collect();
            let mut none = case.receiver;
            (none.delivered, none.missing, none.last) = (0, 0, 0);
            let known = match count {
                0 => Known::Right(none, case.held.clone()),
                5 => Known::Right(case.receiver, case.held.clone()),
                _ => Known::Only(WordsCause::NotFive),
            };
            let number = lists.load(&mut rng, &other, &known);
            *numbers.entry((count, number)).or_default() += 1;
        }
    }
    lists.report("kind 6");
    println!("kind 6: by word and number {places:?}, by count of words and number {numbers:?}");
    assert!(lists.lists >= 100_000 && numbers.len() == 12);
    assert!(places.len() == 10 && places.values().all(|&count| count >= 3_000));
    assert!(lists.alone[&WordsCause::NothingDelivered] >= 100);
}

/// Words that are altered anyhow, in several places, and any words at all.
#[test]
fn altered() {
    let mut rng = seeded("altered", 0xA13_0007);
    let mut lists = Lists::default();
    for case in 0..100_000 {
        let line = TABLE[case % TABLE.len()];
        let mut words = Case::new(&mut rng, line).words();
        for _ in 0..rng.within(1, 3) {
            let place = rng.below(words.len().max(1));
            match rng.below(8) {
                _ if words.is_empty() => {}
                0 => drop(words.remove(place)),
                1 => words.insert(place, rng.bits() as u32),
                2 => words.insert(place, (rng.below(8) as u32) << 28 | rng.below(256) as u32),
                3 => words.truncate(place),
                4 => words[place] = rng.bits() as u32 & 0x7F00_FFFF,
                _ => words[place] ^= 1 << rng.below(32),
            }
        }
        lists.load(&mut rng, &words, &Known::Nothing);
    }
    lists.report("altered");
    assert!(lists.loaded >= 5_000 && lists.refused >= 50_000);
}

/// Short packets and PDUs, so that many drives can be made.
const SHORT: [usize; 5] = [0, 3, 6, 7, 8];

/// What interrupted drives had.
#[derive(Default)]
struct Stops {
    drives: u64,
    interrupted: u64,
    /// Interruptions by how many bytes were held: none, some, over 100.
    held: [u64; 3],
    /// With the sequence unknown, and with applied services known.
    unknown: u64,
    serviced: u64,
    /// With packets delivered, and with some missing.
    counted: u64,
    missing: u64,
    words: u64,
    /// Words in the logs of these drives.
    logged: u64,
}

/// A receiver saved, and loaded with another carry of the same length, by reference and
/// product.
fn restart(rng: &mut Rng, stops: &mut Stops, receiver: &mut Receiver, carry: &mut Vec<u8>) {
    let lent = Lent::of(rng, carry);
    let (answer, words) = save(rng, receiver, &lent, 1_376);
    assert_eq!(answer.refusal, 0);
    let mut own = Lent::random(rng, carry.len());
    let mut other = own.clone();
    let loaded = snapshot::load(&words, own.bytes_mut());
    let words = LentLog::of(rng, &words);
    let is_so = product_calls::load(&words, &mut other);
    assert_eq!(
        (is_so.refusal, is_so.receiver),
        (0, receiver_for(&loaded.receiver))
    );
    assert!(other == own && loaded.receiver == *receiver);
    let held = usize::from(receiver.held);
    assert_eq!(other.bytes()[..held], carry[..held]);
    stops.interrupted += 1;
    stops.held[usize::from(held > 0) + usize::from(held > 100)] += 1;
    stops.unknown += u64::from(!receiver.known);
    stops.serviced += u64::from(receiver.serviced);
    stops.counted += u64::from(receiver.delivered > 0);
    stops.missing += u64::from(receiver.missing > 0);
    stops.words += answer.words as u64;
    *receiver = loaded.receiver;
    *carry = other.bytes().to_vec();
}

/// Whole drives with pairs, batches, marks, calls in place, lost PDUs and refused calls,
/// each twice: without an interruption, and interrupted before any of its calls. At each
/// call the receivers and what they hold are equal, and so are the logs.
#[test]
fn driving() {
    let mut rng = seeded("interrupted drives", 0xA13_0008);
    let mut roads = Roads::default();
    let mut stops = Stops::default();
    for case in 0..10_000 {
        let line = TABLE[case % TABLE.len()];
        let style: Style = match case / TABLE.len() % 25 {
            0 => STYLES[rng.below(STYLES.len())],
            turn => STYLES[SHORT[turn % SHORT.len()]],
        };
        let register = [0, 255, rng.byte()][rng.below(3)];
        let list = List::random_with(&mut rng, line, style, register, calls::paid_settings);
        let run = drives::some_run(&mut rng, list.pdus.len());
        let lost = drives::some_lost(&mut rng, run.len(), usize::from(line.sequences));
        let programs: Vec<u8> = (0..8).filter(|_| rng.below(2) == 0).collect();
        let opened = receiver::open_entitled(line.mode, line.stream, register, &programs);
        let opened = opened.expect("a line of the table and programs");
        let mut again = rng.clone();
        let mut stations: Vec<(Receiver, Vec<u8>)> = Vec::new();
        let mut note = |receiver: &mut Receiver, carry: &mut Vec<u8>| {
            let held = carry[..usize::from(receiver.held)].to_vec();
            stations.push((*receiver, held));
        };
        let mut plain = Roads::default();
        let (came, joined, left) = roads::drive_between(
            &mut rng, &mut plain, &list, &run, &lost, opened, true, &mut note,
        );
        let one_of = [1, 2, 5][case % 3];
        let mut own = Rng::new(0xA13_1000 + case as u64);
        let mut passed = stations.iter();
        let mut stop = |receiver: &mut Receiver, carry: &mut Vec<u8>| {
            let (wanted, held) = passed.next().expect("as many calls");
            assert_eq!((&*receiver, &carry[..held.len()]), (wanted, &held[..]));
            if own.below(one_of) == 0 {
                restart(&mut own, &mut stops, receiver, carry);
            }
        };
        let (came_too, joined_too, left_too) = roads::drive_between(
            &mut again, &mut roads, &list, &run, &lost, opened, true, &mut stop,
        );
        assert!(came_too == came && joined_too == joined, "drive {case}");
        assert_eq!(left_too, left, "drive {case}");
        assert!(passed.next().is_none());
        let withheld = list.withheld(&run, &lost, &programs);
        let (sums, left) = (&mut roads.sums, drives::counts(&left_too));
        drives::check_served(
            stops.drives,
            sums,
            &list,
            &run,
            &came,
            &withheld,
            &joined_too,
            left,
        );
        stops.drives += 1;
        stops.logged += joined.len() as u64;
        *roads.lines.entry((line.mode, line.stream)).or_default() += 1;
    }
    println!(
        "interrupted drives: {} drives, {} interruptions, with nothing held, some bytes and over \
         100 {:?}, {} with the sequence unknown, {} with applied services known; {} words saved \
         and loaded, {} words logged",
        stops.drives,
        stops.interrupted,
        stops.held,
        stops.unknown,
        stops.serviced,
        stops.words,
        stops.logged
    );
    println!(
        "interrupted drives: {} pairs received, {} single calls, {} of them with marks and {} in \
         place, {} batches of {} PDUs, {} lost, refused {:?} pairs, {} single calls, {} batches",
        roads.pairs.accepted,
        roads.single,
        roads.marked,
        roads.in_place,
        roads.batches,
        roads.in_batches,
        roads.lost,
        roads.refused_pairs,
        roads.refused_single,
        roads.refused_batches
    );
    assert_eq!(roads.lines.len(), TABLE.len());
    assert!(stops.interrupted >= 50_000 && stops.held.iter().all(|&count| count >= 3_000));
    println!(
        "interrupted drives: {} interruptions with packets delivered, {} with packets missing",
        stops.counted, stops.missing
    );
    roads.sums.report("interrupted drives");
    assert!(roads.sums.with_missing >= 2_000);
    assert!(stops.counted >= 20_000 && stops.missing >= 10_000);
    assert!(stops.unknown >= 5_000 && stops.serviced >= 5_000);
    assert!(roads.single >= 5_000 && roads.marked >= 1_000 && roads.batches >= 2_000);
    assert!(roads.pairs.accepted >= 20_000 && roads.lost >= 20_000);
}
