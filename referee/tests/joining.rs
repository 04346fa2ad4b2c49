//! Compares the product's joining of two logs with the reference (document 02,
//! Ask 11): logs of every kind, each defect of 23 at each place of either log,
//! every order of a few numbers over the turn at 64, result buffers around the
//! right length, and what the referee's receivers logged.

#[allow(dead_code)]
mod lent;
#[path = "product/joining.rs"]
mod product;

use lent::LentLog;
use product::Joined;
use referee::joining::{self, Defect};
use referee::log::{self, Entry};
use referee::receiver;
use referee::rng::Rng;
use referee::settings::Settings;
use referee::writer::{self, Offer};
use std::collections::BTreeMap;

/// How many pairs of logs were compared, and what came of them.
#[derive(Default)]
struct Seen {
    pairs: u64,
    accepted: u64,
    empty: u64,
    words: u64,
    refused: BTreeMap<u32, u64>,
    core: BTreeMap<Defect, u64>,
    enhanced: BTreeMap<Defect, u64>,
}

impl Seen {
    fn report(&self, class: &str) {
        println!(
            "{class}: {} pairs of logs, {} joined ({} of them to no words; {} words), refused \
             {:?}; defects of the core {:?}, of the enhanced {:?}",
            self.pairs,
            self.accepted,
            self.empty,
            self.words,
            self.refused,
            self.core,
            self.enhanced
        );
    }
}

/// Compares a join into so much room: answer, every word of the result, and that
/// the logs are as they were.
fn compare(rng: &mut Rng, seen: &mut Seen, core: &[u32], enhanced: &[u32], room: usize) {
    let wanted = joining::join(core, enhanced, room);
    let (core, enhanced) = (LentLog::of(rng, core), LentLog::of(rng, enhanced));
    let (core_before, enhanced_before) = (core.clone(), enhanced.clone());
    let mut result = LentLog::random(rng, room);
    let mut after = result.clone();
    let answer = product::join(&core, &enhanced, &mut result);
    let told = match &wanted {
        Ok(words) => {
            after.words_mut()[..words.len()].copy_from_slice(words);
            Joined {
                refusal: 0,
                words: words.len(),
            }
        }
        Err(number) => Joined {
            refusal: *number,
            words: 0,
        },
    };
    let pair = (core.words(), enhanced.words());
    assert_eq!(answer, told, "{pair:X?}, room {room}");
    assert!(result == after, "{pair:X?}: {}", result.differences(&after));
    assert!(
        core == core_before && enhanced == enhanced_before,
        "{pair:X?}"
    );
    seen.pairs += 1;
    match wanted {
        Ok(words) => {
            seen.accepted += 1;
            seen.empty += u64::from(words.is_empty());
            seen.words += words.len() as u64;
        }
        Err(number) => {
            *seen.refused.entry(number).or_default() += 1;
            for (log, count) in [(&core, &mut seen.core), (&enhanced, &mut seen.enhanced)] {
                if let Err(defect) = joining::packets(log.words()) {
                    *count.entry(defect).or_default() += 1;
                }
            }
        }
    }
}

/// Compares with room to spare, with just enough, and with one word too few.
fn compare_rooms(rng: &mut Rng, seen: &mut Seen, core: &[u32], enhanced: &[u32]) {
    let all = core.len() + enhanced.len();
    compare(rng, seen, core, enhanced, all + rng.clone().below(5));
    if let Ok(words) = joining::join(core, enhanced, usize::MAX) {
        assert!(
            words.len() <= all,
            "as many words as both logs have are enough"
        );
        compare(rng, seen, core, enhanced, words.len());
        if !words.is_empty() {
            compare(rng, seen, core, enhanced, words.len() - 1);
        }
    }
}

/// So many bytes.
fn bytes(rng: &mut Rng, length: usize) -> Vec<u8> {
    let mut bytes = vec![0; length];
    rng.fill(&mut bytes);
    bytes
}

/// A log of packets whose numbers rise, with PSD and notes between them. Notes
/// have any cause and piece: no bit of theirs is without meaning.
fn some_log(rng: &mut Rng, most: usize, longest: usize) -> Vec<u32> {
    let (first, mut counted) = (rng.below(64), 0);
    let mut words = Vec::new();
    for _ in 0..rng.below(most + 1) {
        match rng.below(6) {
            0 => words.push(3 << 30 | rng.bits() as u32 >> 2),
            1 => {
                let length = 1 + rng.below(longest);
                words.extend(Entry::Psd(bytes(rng, length)).words());
            }
            _ if counted < 64 => {
                let number = ((first + counted) % 64) as u8;
                let length = 1 + rng.below(longest);
                words.extend(Entry::Packet(number, bytes(rng, length)).words());
                counted += 1 + rng.below(3) * rng.below(9);
            }
            _ => (),
        }
    }
    words
}

#[test]
fn logs_of_every_kind() {
    let mut rng = Rng::new(0x11_01);
    let mut seen = Seen::default();
    for (count, most, longest) in [
        (30_000, 12, 9),
        (6_000, 90, 7),
        (300, 70, 400),
        (60, 70, 4_096),
    ] {
        for _ in 0..count {
            let core = some_log(&mut rng, most, longest);
            let enhanced = some_log(&mut rng, most, longest);
            compare_rooms(&mut rng, &mut seen, &core, &enhanced);
        }
    }
    // The longest packet, the longest PSD, and one byte more.
    for length in [1, 2, 3, 4_095, 4_096, 4_097, 65_535] {
        let psd = Entry::Psd(bytes(&mut rng, length)).words();
        let packet = Entry::Packet(7, bytes(&mut rng, length)).words();
        for (core, enhanced) in [(&psd, &packet), (&packet, &psd), (&packet, &packet)] {
            compare_rooms(&mut rng, &mut seen, core, enhanced);
        }
    }
    seen.report("logs of every kind");
    assert!(seen.accepted > 60_000 && seen.refused[&13] > 30_000);
}

/// The same words with one thing wrong at a place, each way that there is.
fn spoiled(words: &[u32], place: usize) -> Vec<Vec<u32>> {
    let with = |word: u32| {
        let mut words = words.to_vec();
        words[place] = word;
        words
    };
    let word = words[place];
    let mut all: Vec<Vec<u32>> = (0..32).map(|bit| with(word ^ 1 << bit)).collect();
    // A word missing, one twice, and each kind of word put in before it.
    let (before, after) = words.split_at(place);
    all.push([before, &after[1..]].concat());
    all.push([before, &after[..1], after].concat());
    for more in [
        0x0005_0001,
        0x4107_0000,
        0x4207_0700,
        0x4307_0707,
        0x8000_0001,
        0xC006_0000,
    ] {
        all.push([before, &[more], after].concat());
        all.push(with(more));
    }
    // Cut before it.
    all.push(before.to_vec());
    match word >> 30 {
        // Lengths: 0, one less, one more, over the longest packet.
        0 | 2 => {
            let length = word & 0xFFFF;
            for other in [0, length - 1, length + 1, 4_096, 4_097, 65_535] {
                all.push(with(word & 0xFFFF_0000 | other));
            }
        }
        // Counts of 0 to 3, with the bytes as they are and with unused ones zero;
        // a full word's bytes in two words.
        1 => {
            for count in 0..4 {
                let kept = 0x00FF_FFFFu32 & !(0x00FF_FFFFu64 >> (8 * count)) as u32;
                all.push(with(1 << 30 | count << 24 | word & 0x00FF_FFFF));
                all.push(with(1 << 30 | count << 24 | word & kept));
            }
            let two = [
                0x4200_0000 | word & 0x00FF_FF00,
                0x4100_0000 | (word & 0xFF) << 16,
            ];
            all.push([before, &two, &after[1..]].concat());
        }
        _ => (),
    }
    all
}

#[test]
fn each_defect_at_each_place() {
    let mut rng = Rng::new(0x11_23);
    let mut seen = Seen::default();
    for _ in 0..150 {
        let good = some_log(&mut rng, 10, 8);
        let words = some_log(&mut rng, 14, 8);
        for place in 0..words.len() {
            for wrong in spoiled(&words, place) {
                compare(&mut rng, &mut seen, &wrong, &good, wrong.len() + good.len());
                compare(&mut rng, &mut seen, &good, &wrong, wrong.len() + good.len());
            }
        }
    }
    seen.report("each defect at each place");
    assert!(seen.pairs > 200_000);
    for defects in [&seen.core, &seen.enhanced] {
        assert_eq!(defects.len(), 7, "each defect");
        assert!(defects.values().all(|&count| count > 1_000), "{defects:?}");
    }
}

#[test]
fn each_order_of_numbers() {
    let mut rng = Rng::new(0x11_24);
    let mut seen = Seen::default();
    // Every list of up to four of these numbers in either log, over the turn.
    let numbers = [0u8, 1, 5, 62, 63];
    let mut lists = vec![vec![]];
    let mut from = 0;
    for _ in 0..4 {
        let end = lists.len();
        for at in from..end {
            for number in numbers {
                let mut more: Vec<u8> = lists[at].clone();
                more.push(number);
                lists.push(more);
            }
        }
        from = end;
    }
    let words = |list: &[u8]| -> Vec<u32> {
        list.iter()
            .flat_map(|&number| Entry::Packet(number, vec![number + 1]).words())
            .collect()
    };
    for core in &lists {
        for _ in 0..40 {
            let enhanced = &lists[rng.below(lists.len())];
            compare(&mut rng, &mut seen, &words(core), &words(enhanced), 16);
        }
    }
    // Each number counted from each first one, and all 64 from each.
    for first in 0..64u8 {
        for second in 0..64u8 {
            compare(
                &mut rng,
                &mut seen,
                &words(&[first, second]),
                &words(&[second]),
                6,
            );
            compare(
                &mut rng,
                &mut seen,
                &words(&[second]),
                &words(&[first, second]),
                4,
            );
            compare(&mut rng, &mut seen, &[], &words(&[first, second]), 0);
        }
        let all: Vec<u8> = (0..64).map(|counted| (first + counted) % 64).collect();
        let again: Vec<u8> = all.iter().copied().chain([first]).collect();
        compare(
            &mut rng,
            &mut seen,
            &words(&all),
            &words(&(0..64).collect::<Vec<u8>>()),
            256,
        );
        compare(&mut rng, &mut seen, &words(&again), &words(&all), 300);
        compare(&mut rng, &mut seen, &words(&all), &words(&again), 300);
    }
    seen.report("each order of numbers");
    assert!(seen.refused[&24] > 10_000 && seen.accepted > 1_000);
}

/// The logs, one after another, of the referee's receiver for the PDUs of a
/// stream, some of them lost, some with a byte altered. `receiving.rs` holds the
/// product's receiver to that one.
fn received(rng: &mut Rng, (mode, stream): (u8, u8), lengths: &[u16]) -> Vec<u32> {
    let mut writer = writer::open(mode, stream).expect("a listed mode");
    let mut receiver = receiver::open(mode, stream).expect("a listed mode");
    let mut carry = vec![0; receiver::CARRY_BYTES];
    let mut left = lengths;
    let mut words = Vec::new();
    while !left.is_empty() {
        let bytes = bytes(rng, left.iter().map(|&length| usize::from(length)).sum());
        let psd: &[u8] = if stream == 0 { b"psd" } else { b"" };
        let offer = Offer {
            settings: Settings::default(),
            psd,
            lengths: left,
            bytes: &bytes,
        };
        let mut pdu = vec![0; rng.within(150, 700)];
        let written = writer::write(writer, &offer, &mut pdu);
        assert_eq!(written.refusal, 0);
        writer = written.writer;
        left = &left[written.ended..];
        let mut log = vec![0; receiver::LOG_WORDS];
        if rng.below(3) == 0 {
            let place = rng.below(pdu.len());
            pdu[place] ^= rng.nonzero_byte();
        }
        let mut answer = receiver::receive(receiver, &mut carry, &mut pdu, &mut log);
        if answer.refusal != 0 || rng.below(8) == 0 {
            answer = receiver::mark_lost(receiver, &mut log);
        }
        receiver = answer.receiver;
        words.extend(&log[..answer.words]);
    }
    words
}

#[test]
fn what_receivers_logged() {
    let mut rng = Rng::new(0x11_13);
    let mut seen = Seen::default();
    for _ in 0..1_500 {
        let count = rng.within(1, 70);
        let lengths: Vec<u16> = (0..count).map(|_| 1 + rng.below(120) as u16).collect();
        let core = received(&mut rng, (1, 0), &lengths);
        let enhanced = received(&mut rng, (1, 1), &lengths);
        for log in [&core, &enhanced] {
            assert!(joining::packets(log).is_ok(), "a log: {log:X?}");
            // Each entry that the papers' receiver has, read by the other reader of logs.
            let entries = log::entries(log).expect("entries");
            assert_eq!(log::words(&entries), **log);
        }
        compare_rooms(&mut rng, &mut seen, &core, &enhanced);
    }
    seen.report("what receivers logged");
    assert!(!seen.refused.contains_key(&23));
}
