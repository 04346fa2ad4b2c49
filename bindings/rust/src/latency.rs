//! A bench for latency settings (document 02, Ask 7).

use crate::ffi::latency as ffi;
use crate::{Mode, Refusal, Stream};

/// What came of trying one latency.
#[derive(Clone, Copy, Debug, PartialEq, Eq)]
#[must_use = "what came of the trial stands in this answer alone"]
pub struct LatencyTrial {
    /// How many ticks the bench ran: N for each count.
    pub ticks: u32,
    /// How many of them are dry.
    pub dry: u32,
    /// The first dry tick, counted from 0, if any.
    pub first_dry: Option<u32>,
    /// The most packets that wait at a tick, after any adding and before one is
    /// taken: the packets that a buffer has to hold.
    pub most_waiting: u32,
}

/// The smallest latency from 0 to 7 without a dry tick, or `None` where all
/// eight have one.
///
/// `counts` has the packets that end in each PDU, as
/// [`Writer::write`](crate::Writer::write) answers them: 1 to 4,096 counts, each 0
/// to 63.
///
/// The packets of one PDU are added to those that wait at tick 0 and every N ticks;
/// N is 4 for modes and streams of PDU sequence 0 to 7, and 32 for those of 0 to 1.
/// With latency v nothing is taken before tick 2 times v; from there each tick takes
/// one packet, after any adding, or is dry if none waits. There are N ticks for each
/// count.
///
/// # Errors
///
/// The first of these that applies:
///
/// - [`Refusal::Mode`]: the mode has no such stream.
/// - [`Refusal::Counts`]: no counts, more than 4,096, or one over 63.
///
/// # Example
///
/// ```
/// use barzhilup::{smallest_latency, Mode, Stream};
///
/// // 3 packets in one PDU and 5 in the next, for 4 ticks each
/// assert_eq!(smallest_latency(Mode::M1, Stream::Core, &[3, 5]), Ok(Some(1)));
/// ```
pub fn smallest_latency(mode: Mode, stream: Stream, counts: &[u32]) -> Result<Option<u8>, Refusal> {
    let answer = ffi::smallest(mode.number(), stream.number(), counts);
    Refusal::check(answer.refusal, 0)?;
    Ok(answer.found.then_some(answer.latency as u8))
}

/// Tries one latency, 0 to 7, by the rules that stand at [`smallest_latency`]; a
/// larger one, which no PDU can say, is tried all the same.
///
/// # Errors
///
/// As for [`smallest_latency`].
///
/// # Example
///
/// ```
/// use barzhilup::{try_latency, LatencyTrial, Mode, Stream};
///
/// let trial = try_latency(Mode::M1, Stream::Core, &[3, 5], 0);
/// let wanted = LatencyTrial {
///     ticks: 8,
///     dry: 1,
///     first_dry: Some(3),
///     most_waiting: 5,
/// };
/// assert_eq!(trial, Ok(wanted));
/// ```
pub fn try_latency(
    mode: Mode,
    stream: Stream,
    counts: &[u32],
    latency: u8,
) -> Result<LatencyTrial, Refusal> {
    let trial = ffi::try_latency(mode.number(), stream.number(), counts, latency);
    Refusal::check(trial.refusal, 0)?;
    Ok(LatencyTrial {
        ticks: trial.ticks,
        dry: trial.dry,
        first_dry: (trial.dry > 0).then_some(trial.first_dry),
        most_waiting: trial.most_waiting,
    })
}

/// Writes the packets that wait at each tick into `waiting`, from tick `first`
/// on, after any adding and before one is taken: as many ticks as the run has
/// from there, and as `waiting` has room for. Answers how many; later entries
/// stay as they are.
///
/// # Errors
///
/// As for [`smallest_latency`]; `waiting` is then as it was.
///
/// # Example
///
/// ```
/// use barzhilup::{waiting_packets, Mode, Stream};
///
/// let mut waiting = [0; 10];
/// let ticks = waiting_packets(Mode::M1, Stream::Core, &[3, 5], 1, 0, &mut waiting);
/// assert_eq!(ticks, Ok(8));
/// assert_eq!(waiting, [3, 3, 3, 2, 6, 5, 4, 3, 0, 0]);
/// ```
pub fn waiting_packets(
    mode: Mode,
    stream: Stream,
    counts: &[u32],
    latency: u8,
    first: usize,
    waiting: &mut [u32],
) -> Result<usize, Refusal> {
    let (mode, stream) = (mode.number(), stream.number());
    let answer = ffi::waiting(mode, stream, counts, latency, first, waiting);
    Refusal::check(answer.refusal, 0)?;
    Ok(answer.count as usize)
}
