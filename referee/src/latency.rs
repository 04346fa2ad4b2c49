//! A bench for latency settings (document 02, Ask 7): packets stand in a queue,
//! PDU by PDU they come, and tick by tick one is taken.

use crate::modes;
use crate::refusal;
use std::collections::VecDeque;

/// The most counts, and the largest count.
pub const MOST_COUNTS: usize = 4_096;
pub const LARGEST_COUNT: u32 = 63;

/// The latencies that a PDU can say.
pub const LATENCIES: std::ops::Range<u8> = 0..8;

/// What a tick did.
#[derive(Clone, Copy, Debug, PartialEq, Eq)]
pub struct Tick {
    /// How many packets were added.
    pub added: usize,
    /// How many wait then.
    pub waiting: usize,
    /// Whether one of them was taken.
    pub taken: bool,
    /// Whether one should have been taken, and none waited.
    pub dry: bool,
}

/// The ticks from one PDU to the next: 4 for sequence range 0-7, 32 for 0-1.
pub fn ticks_between(sequences: u8) -> usize {
    match sequences {
        8 => 4,
        2 => 32,
        _ => panic!("no sequence range has {sequences}"),
    }
}

/// The ticks between PDUs for these counts; or the number that refuses them.
pub fn judge(mode: u8, stream: u8, counts: &[u32]) -> Result<usize, u32> {
    let Some(line) = modes::line_for(mode, stream) else {
        return Err(refusal::MODE_AND_STREAM);
    };
    let many = counts.is_empty() || counts.len() > MOST_COUNTS;
    if many || counts.iter().any(|&count| count > LARGEST_COUNT) {
        return Err(refusal::COUNTS);
    }
    Ok(ticks_between(line.sequences))
}

/// Runs the bench: `between` ticks for each count.
pub fn run(between: usize, counts: &[u32], latency: u8) -> Vec<Tick> {
    let mut queue = VecDeque::new();
    let mut ticks = Vec::with_capacity(between * counts.len());
    for (pdu, &count) in counts.iter().enumerate() {
        for tick in between * pdu..between * (pdu + 1) {
            let added = if tick == between * pdu { count } else { 0 } as usize;
            queue.extend((0..added).map(|packet| (pdu, packet)));
            let waiting = queue.len();
            let begun = tick >= 2 * usize::from(latency);
            let taken = begun && queue.pop_front().is_some();
            ticks.push(Tick {
                added,
                waiting,
                taken,
                dry: begun && !taken,
            });
        }
    }
    ticks
}

/// The smallest latency without a dry tick, if any.
pub fn smallest(between: usize, counts: &[u32]) -> Option<u8> {
    LATENCIES.into_iter().find(|&latency| {
        let ticks = run(between, counts, latency);
        ticks.iter().all(|tick| !tick.dry)
    })
}

/// The same from sums: while no tick is dry, tick t has t minus 2v packets taken
/// before it, so it is not dry if more than these have been added by then.
pub fn smallest_by_sums(between: usize, counts: &[u32]) -> Option<u8> {
    let suffices = |latency: &u8| {
        let start = 2 * usize::from(*latency);
        (start..between * counts.len()).all(|tick| {
            let added: u32 = counts[..=tick / between].iter().sum();
            added as usize > tick - start
        })
    };
    LATENCIES.into_iter().find(suffices)
}

#[cfg(test)]
mod tests {
    use super::*;

    #[test]
    fn runs_by_hand() {
        let runs: [(usize, &[u32], Option<u8>); 9] = [
            (4, &[0], Some(2)),
            (4, &[3], Some(1)),
            (4, &[4, 4], Some(0)),
            (4, &[3, 5], Some(1)),
            (4, &[0, 0, 0], Some(6)),
            (4, &[0, 0, 0, 2], Some(7)),
            (4, &[0, 0, 0, 0], None),
            (32, &[0], None),
            (32, &[31, 33], Some(1)),
        ];
        for (between, counts, wanted) in runs {
            assert_eq!(smallest(between, counts), wanted, "{counts:?}");
            assert_eq!(smallest_by_sums(between, counts), wanted, "{counts:?}");
        }
    }

    #[test]
    fn refusals() {
        assert_eq!(judge(0, 0, &[0]), Ok(32));
        assert_eq!(judge(1, 0, &[63]), Ok(4));
        assert_eq!(judge(1, 1, &[63]), Ok(32));
        assert_eq!(judge(10, 0, &[63; 4_096]), Ok(32));
        assert_eq!(judge(10, 1, &[63; 4_096]), Ok(4));
        assert_eq!(judge(13, 0, &[63; 4_097]), Err(21));
        assert_eq!(judge(13, 0, &[64]), Err(21));
        assert_eq!(judge(13, 0, &[]), Err(21));
        assert_eq!(judge(13, 1, &[]), Err(5));
    }
}
