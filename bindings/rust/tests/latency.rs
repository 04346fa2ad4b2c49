//! The bench for latency settings (document 02, Ask 7).

use barzhilup::{
    smallest_latency, try_latency, waiting_packets, LatencyTrial, Mode, Refusal, Stream,
    COUNTS_MAX, COUNT_MAX, LATENCY_MAX,
};

const CORE: Stream = Stream::Core;
const ENHANCED: Stream = Stream::Enhanced;

#[test]
fn runs_by_hand() {
    let runs: [(Mode, Stream, &[u32], Option<u8>); 11] = [
        (Mode::M1, CORE, &[0], Some(2)),
        (Mode::M1, CORE, &[3], Some(1)),
        (Mode::M13, CORE, &[4, 4], Some(0)),
        (Mode::M10, ENHANCED, &[3, 5], Some(1)),
        (Mode::M2, CORE, &[0, 0, 0], Some(6)),
        (Mode::M3, CORE, &[0, 0, 0, 2], Some(7)),
        (Mode::M3, CORE, &[0, 0, 0, 0], None),
        (Mode::M0, CORE, &[0], None),
        (Mode::M10, CORE, &[31, 33], Some(1)),
        (Mode::M1, ENHANCED, &[31, 33], Some(1)),
        (Mode::M1, CORE, &[COUNT_MAX], Some(0)),
    ];
    for (mode, stream, counts, wanted) in runs {
        let smallest = smallest_latency(mode, stream, counts);
        assert_eq!(smallest, Ok(wanted), "{mode}, {stream}, {counts:?}");
        for latency in 0..=LATENCY_MAX {
            let trial = try_latency(mode, stream, counts, latency).unwrap();
            assert_eq!(trial.dry == 0, trial.first_dry.is_none());
            if wanted.is_none_or(|wanted| latency <= wanted) {
                assert_eq!(trial.dry == 0, wanted == Some(latency));
            }
        }
    }
}

#[test]
fn trials() {
    let late = LatencyTrial {
        ticks: 4,
        dry: 0,
        first_dry: None,
        most_waiting: 3,
    };
    assert_eq!(try_latency(Mode::M1, CORE, &[3], 255), Ok(late));
    let early = LatencyTrial {
        ticks: 64,
        dry: 64,
        first_dry: Some(0),
        most_waiting: 0,
    };
    assert_eq!(try_latency(Mode::M0, CORE, &[0, 0], 0), Ok(early));
}

#[test]
fn packets_that_wait() {
    let mut waiting = [9; 4];
    let shown = waiting_packets(Mode::M1, CORE, &[3, 5], 1, 5, &mut waiting);
    assert_eq!((shown, waiting), (Ok(3), [5, 4, 3, 9]));
    let shown = waiting_packets(Mode::M1, CORE, &[3, 5], 1, 8, &mut waiting);
    assert_eq!((shown, waiting), (Ok(0), [5, 4, 3, 9]));
    assert_eq!(waiting_packets(Mode::M1, CORE, &[3], 0, 0, &mut []), Ok(0));
}

#[test]
fn n21_counts() {
    let most = [COUNT_MAX; COUNTS_MAX];
    assert_eq!(smallest_latency(Mode::M0, CORE, &most), Ok(Some(0)));
    let over: [&[u32]; 4] = [
        &[],
        &[COUNT_MAX; COUNTS_MAX + 1],
        &[COUNT_MAX + 1],
        &[0, u32::MAX],
    ];
    for counts in over {
        let refused = Err(Refusal::Counts);
        assert_eq!(smallest_latency(Mode::M1, CORE, counts), refused);
        assert_eq!(try_latency(Mode::M1, CORE, counts, 0), Err(Refusal::Counts));
        let mut waiting = [7; 3];
        let shown = waiting_packets(Mode::M1, CORE, counts, 0, 0, &mut waiting);
        assert_eq!((shown, waiting), (Err(Refusal::Counts), [7; 3]));
        // 5 comes first
        let refused = Err(Refusal::Mode);
        assert_eq!(smallest_latency(Mode::M13, ENHANCED, counts), refused);
    }
    assert_eq!(Refusal::Counts.number(), 21);
    assert!(Refusal::Counts.to_string().starts_with("refusal 21: "));
}
