//! Compares the product's bench for latency settings with the reference
//! (document 02, Ask 7): the smallest latency, the trial of each latency, and the
//! packets that wait, on every short list of counts, on random ones of every
//! length up to the longest, and at the edges of both refusals.

#[allow(dead_code)]
mod lent;
#[path = "product/latency.rs"]
mod product;

use lent::LentLog;
use product::{Smallest, Trial, Waiting};
use referee::latency::{self, Tick, LARGEST_COUNT, LATENCIES, MOST_COUNTS};
use referee::modes::TABLE;
use referee::refusal;
use referee::rng::Rng;
use std::collections::BTreeMap;

/// How many calls were compared, and what came of them.
#[derive(Default)]
struct Seen {
    smallest: u64,
    trials: u64,
    rows: u64,
    ticks: u64,
    /// By the smallest latency; none last.
    found: BTreeMap<u8, u64>,
    none: u64,
    refused: BTreeMap<u32, u64>,
}

impl Seen {
    fn report(&self, class: &str) {
        println!(
            "{class}: {} calls for the smallest latency ({:?}, none {}, refused {:?}), {} trials \
             of one latency, {} rows of packets that wait; {} ticks compared",
            self.smallest, self.found, self.none, self.refused, self.trials, self.rows, self.ticks
        );
    }
}

/// Counts between guards.
fn lend(rng: &mut Rng, counts: &[u32]) -> LentLog {
    let mut lent = LentLog::random(rng, counts.len());
    lent.words_mut().copy_from_slice(counts);
    lent
}

/// What a trial has to answer, from its ticks.
fn trial_of(ticks: &[Tick]) -> Trial {
    let dry: Vec<usize> = (0..ticks.len()).filter(|&tick| ticks[tick].dry).collect();
    let most = ticks.iter().map(|tick| tick.waiting).max();
    Trial {
        refusal: 0,
        ticks: ticks.len() as u32,
        dry: dry.len() as u32,
        first_dry: dry.first().map_or(0, |&tick| tick as u32),
        most_waiting: most.expect("a tick") as u32,
    }
}

/// Packets added are packets taken plus packets waiting, at every tick of the
/// reference.
fn check_conserved(ticks: &[Tick]) {
    let (mut added, mut taken) = (0, 0);
    for tick in ticks {
        added += tick.added;
        assert_eq!(added, taken + tick.waiting);
        taken += usize::from(tick.taken);
    }
}

/// Compares all calls on these counts.
fn compare(rng: &mut Rng, seen: &mut Seen, mode: (u8, u8), counts: &[u32], rows: usize) {
    let lent = lend(rng, counts);
    let before = lent.clone();
    match latency::judge(mode.0, mode.1, counts) {
        Err(number) => compare_refused(rng, seen, mode, &lent, number),
        Ok(between) => compare_taken(rng, seen, mode, &lent, between, rows),
    }
    assert!(lent == before, "the counts stay");
}

fn compare_refused(rng: &mut Rng, seen: &mut Seen, mode: (u8, u8), lent: &LentLog, number: u32) {
    let answer = product::smallest(mode, lent);
    let wanted = Smallest {
        refusal: number,
        latency: 0,
        found: 0,
    };
    assert_eq!(answer, wanted);
    let v = rng.byte();
    let refused = Trial {
        refusal: number,
        ..Trial::default()
    };
    assert_eq!(product::try_latency(mode, lent, v), refused);
    let mut row = LentLog::random(rng, 5);
    let before = row.clone();
    let shown = product::waiting(mode, lent, v, rng.below(3), &mut row);
    assert_eq!((shown.refusal, shown.count), (number, 0));
    assert!(row == before, "a refused row stays");
    *seen.refused.entry(number).or_default() += 1;
    seen.smallest += 1;
    seen.trials += 1;
    seen.rows += 1;
}

fn compare_taken(
    rng: &mut Rng,
    seen: &mut Seen,
    mode: (u8, u8),
    lent: &LentLog,
    between: usize,
    rows: usize,
) {
    let counts = lent.words();
    let smallest = latency::smallest(between, counts);
    if counts.len() <= 64 {
        assert_eq!(latency::smallest_by_sums(between, counts), smallest);
    }
    let answer = product::smallest(mode, lent);
    let wanted = Smallest {
        refusal: 0,
        latency: smallest.map_or(0, u32::from),
        found: u8::from(smallest.is_some()),
    };
    assert_eq!(answer, wanted, "{counts:?}");
    seen.smallest += 1;
    match smallest {
        Some(v) => *seen.found.entry(v).or_default() += 1,
        None => seen.none += 1,
    }
    for v in LATENCIES {
        let ticks = latency::run(between, counts, v);
        check_conserved(&ticks);
        let trial = product::try_latency(mode, lent, v);
        assert_eq!(trial, trial_of(&ticks), "{counts:?}, latency {v}");
        seen.trials += 1;
        seen.ticks += ticks.len() as u64;
    }
    for _ in 0..rows {
        compare_row(rng, seen, mode, lent, between);
    }
}

/// Compares the packets that wait, from any tick on, around the end too.
fn compare_row(rng: &mut Rng, seen: &mut Seen, mode: (u8, u8), lent: &LentLog, between: usize) {
    let v = [rng.byte(), rng.below(8) as u8][rng.below(2)];
    let ticks = latency::run(between, lent.words(), v);
    let first = rng.below(ticks.len() + 3);
    let room = [3, ticks.len() + 3][rng.below(2)];
    let mut row = LentLog::random(rng, room);
    let mut wanted = row.clone();
    let shown: Vec<u32> = ticks
        .iter()
        .skip(first)
        .take(row.words().len())
        .map(|tick| tick.waiting as u32)
        .collect();
    wanted.words_mut()[..shown.len()].copy_from_slice(&shown);
    let answer = product::waiting(mode, lent, v, first, &mut row);
    let said = Waiting {
        refusal: 0,
        count: shown.len() as u32,
    };
    assert_eq!(answer, said);
    assert!(row == wanted, "{}", row.differences(&wanted));
    seen.rows += 1;
    seen.ticks += shown.len() as u64;
}

/// Every list of up to five counts from 0 to 6, for both ticks between PDUs.
#[test]
fn every_short_list() {
    let mut rng = Rng::new(0x7A_0001);
    let mut seen = Seen::default();
    let mut lists = 0;
    for length in 1..=5u32 {
        for number in 0..7u32.pow(length) {
            let counts: Vec<u32> = (0..length).map(|k| number / 7u32.pow(k) % 7).collect();
            for mode in [(1, 0), (0, 0)] {
                compare(&mut rng, &mut seen, mode, &counts, 2);
            }
            lists += 1;
        }
    }
    seen.report("every list of up to five counts from 0 to 6, N 4 and 32");
    assert_eq!(lists, 19_607);
    assert!(seen.found.keys().copied().eq(LATENCIES) && seen.none > 0);
}

/// Counts about as many as are taken, so that every latency is met: each mode
/// and stream, lists of up to sixty counts.
#[test]
fn random_lists() {
    let mut rng = Rng::new(0x7A_0002);
    let mut seen = Seen::default();
    for line in TABLE {
        let between = latency::ticks_between(line.sequences);
        for _ in 0..3_000 {
            let counts = random_counts(&mut rng, between, 60);
            compare(&mut rng, &mut seen, (line.mode, line.stream), &counts, 2);
        }
    }
    seen.report("random lists of up to sixty counts, each mode and stream");
    assert!(seen.found.keys().copied().eq(LATENCIES) && seen.none > 0);
}

/// Counts around the ticks between PDUs: what one lacks, a later one may have.
fn random_counts(rng: &mut Rng, between: usize, most: usize) -> Vec<u32> {
    let spread = rng.within(1, between);
    let mut owed = rng.below(3) as i64;
    let mut counts = Vec::new();
    for _ in 0..rng.within(1, most) {
        let count = (between as i64 + owed + rng.below(2 * spread + 1) as i64 - spread as i64)
            .clamp(0, i64::from(LARGEST_COUNT));
        owed += between as i64 - count;
        counts.push(count as u32);
    }
    counts
}

/// Long lists, up to the longest.
#[test]
fn long_lists() {
    let mut rng = Rng::new(0x7A_0003);
    let mut seen = Seen::default();
    for line in TABLE {
        let between = latency::ticks_between(line.sequences);
        for turn in 0..6 {
            let mut counts = random_counts(&mut rng, between, MOST_COUNTS);
            if turn == 0 {
                counts.resize(MOST_COUNTS, between as u32);
            }
            compare(&mut rng, &mut seen, (line.mode, line.stream), &counts, 1);
        }
    }
    seen.report("long lists of counts, each mode and stream");
}

/// Every mode with every stream, with counts that are taken, with a count over
/// 63, and with none.
#[test]
fn every_mode_and_stream() {
    let mut rng = Rng::new(0x7A_0004);
    let mut seen = Seen::default();
    for mode in 0..=255 {
        for stream in 0..=255 {
            let counts: [&[u32]; 4] = [&[3, 5], &[63], &[64, 0], &[]];
            for counts in counts {
                compare(&mut rng, &mut seen, (mode, stream), counts, 1);
            }
        }
    }
    seen.report("every mode with every stream");
    assert_eq!(seen.refused[&refusal::MODE_AND_STREAM], 4 * (65_536 - 10));
    assert_eq!(seen.refused[&refusal::COUNTS], 2 * 10);
}

/// Number 21 at its edges: how many counts, and how large each may be.
#[test]
fn edges() {
    let mut rng = Rng::new(0x7A_0005);
    let mut seen = Seen::default();
    for line in TABLE {
        let mode = (line.mode, line.stream);
        for length in [
            0,
            1,
            2,
            MOST_COUNTS - 1,
            MOST_COUNTS,
            MOST_COUNTS + 1,
            5_000,
        ] {
            for count in [0, 1, LARGEST_COUNT, LARGEST_COUNT + 1, 255, 256, u32::MAX] {
                compare(&mut rng, &mut seen, mode, &vec![count; length], 1);
            }
        }
        for length in [1, 2, 3, 70, MOST_COUNTS] {
            for place in [0, length / 2, length - 1] {
                for count in [LARGEST_COUNT, LARGEST_COUNT + 1] {
                    let mut counts = vec![line.sequences as u32; length];
                    counts[place] = count;
                    compare(&mut rng, &mut seen, mode, &counts, 1);
                }
            }
        }
    }
    seen.report("the edges of number 21, each mode and stream");
    assert!(seen.refused[&refusal::COUNTS] > 300 && seen.smallest > 700);
}
