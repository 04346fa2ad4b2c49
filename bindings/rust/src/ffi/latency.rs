//! The bench for latency settings, on the C side.

/// What came of trying all latencies.
#[repr(C)]
pub(crate) struct Answer {
    pub(crate) refusal: u32,
    pub(crate) latency: u32,
    pub(crate) found: bool,
}

/// What came of trying one latency.
#[repr(C)]
pub(crate) struct Trial {
    pub(crate) refusal: u32,
    pub(crate) ticks: u32,
    pub(crate) dry: u32,
    pub(crate) first_dry: u32,
    pub(crate) most_waiting: u32,
}

/// What came of asking for the packets that wait.
#[repr(C)]
pub(crate) struct Waiting {
    pub(crate) refusal: u32,
    pub(crate) count: u32,
}

/// The functions of libcapi.a.
mod c {
    use super::*;

    #[link(name = "capi", kind = "static")]
    extern "C" {
        pub fn barzhilup_smallest_latency(
            mode: u8,
            stream: u8,
            counts: *const u32,
            count: usize,
        ) -> Answer;
        pub fn barzhilup_try_latency(
            mode: u8,
            stream: u8,
            counts: *const u32,
            count: usize,
            latency: u8,
        ) -> Trial;
        pub fn barzhilup_waiting_packets(
            mode: u8,
            stream: u8,
            counts: *const u32,
            count: usize,
            latency: u8,
            first: usize,
            waiting: *mut u32,
            length: usize,
        ) -> Waiting;
    }
}

/// Tries all latencies.
pub(crate) fn smallest(mode: u8, stream: u8, counts: &[u32]) -> Answer {
    // SAFETY: a slice with its length.
    unsafe { c::barzhilup_smallest_latency(mode, stream, counts.as_ptr(), counts.len()) }
}

/// Tries one latency.
pub(crate) fn try_latency(mode: u8, stream: u8, counts: &[u32], latency: u8) -> Trial {
    // SAFETY: a slice with its length.
    unsafe { c::barzhilup_try_latency(mode, stream, counts.as_ptr(), counts.len(), latency) }
}

/// The packets that wait from a tick on.
pub(crate) fn waiting(
    mode: u8,
    stream: u8,
    counts: &[u32],
    latency: u8,
    first: usize,
    waiting: &mut [u32],
) -> Waiting {
    // SAFETY: slices with their lengths; the one that is written is borrowed
    // alone.
    unsafe {
        c::barzhilup_waiting_packets(
            mode,
            stream,
            counts.as_ptr(),
            counts.len(),
            latency,
            first,
            waiting.as_mut_ptr(),
            waiting.len(),
        )
    }
}
