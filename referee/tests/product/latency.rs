//! The product's bench for latency settings, as the tests call it.

use crate::lent::LentLog;

/// The answer to trying all latencies. Yes and no are a byte here, so that a
/// byte that is neither 1 nor 0 shows.
#[repr(C)]
#[derive(Clone, Copy, Debug, PartialEq, Eq)]
pub struct Smallest {
    pub refusal: u32,
    pub latency: u32,
    pub found: u8,
}

/// The answer to trying one latency.
#[repr(C)]
#[derive(Clone, Copy, Debug, Default, PartialEq, Eq)]
pub struct Trial {
    pub refusal: u32,
    pub ticks: u32,
    pub dry: u32,
    pub first_dry: u32,
    pub most_waiting: u32,
}

/// The answer to asking for the packets that wait.
#[repr(C)]
#[derive(Clone, Copy, Debug, PartialEq, Eq)]
pub struct Waiting {
    pub refusal: u32,
    pub count: u32,
}

#[link(name = "capi", kind = "static")]
extern "C" {
    fn barzhilup_smallest_latency(
        mode: u8,
        stream: u8,
        counts: *const u32,
        count: usize,
    ) -> Smallest;
    fn barzhilup_try_latency(
        mode: u8,
        stream: u8,
        counts: *const u32,
        count: usize,
        latency: u8,
    ) -> Trial;
    fn barzhilup_waiting_packets(
        mode: u8,
        stream: u8,
        counts: *const u32,
        count: usize,
        latency: u8,
        first: usize,
        waiting: *mut u32,
        length: usize,
    ) -> Waiting;
}

/// Tries all latencies on lent counts.
pub fn smallest((mode, stream): (u8, u8), counts: &LentLog) -> Smallest {
    let counts = counts.words();
    unsafe { barzhilup_smallest_latency(mode, stream, counts.as_ptr(), counts.len()) }
}

/// Tries one latency on lent counts.
pub fn try_latency((mode, stream): (u8, u8), counts: &LentLog, latency: u8) -> Trial {
    let counts = counts.words();
    unsafe { barzhilup_try_latency(mode, stream, counts.as_ptr(), counts.len(), latency) }
}

/// Asks for the packets that wait from a tick on, into a lent row.
pub fn waiting(
    (mode, stream): (u8, u8),
    counts: &LentLog,
    latency: u8,
    first: usize,
    row: &mut LentLog,
) -> Waiting {
    let counts = counts.words();
    let row = row.words_mut();
    unsafe {
        barzhilup_waiting_packets(
            mode,
            stream,
            counts.as_ptr(),
            counts.len(),
            latency,
            first,
            row.as_mut_ptr(),
            row.len(),
        )
    }
}
