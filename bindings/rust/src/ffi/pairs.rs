//! The C side of two copies of a PDU (document 02, Ask 5).

use super::{Received, Receiver};

/// The functions of libcapi.a.
mod c {
    use super::*;

    #[link(name = "capi", kind = "static")]
    extern "C" {
        pub fn barzhilup_choose(
            first: *const u8,
            first_length: usize,
            second: *const u8,
            second_length: usize,
        ) -> u32;
        pub fn barzhilup_receive_pair(
            receiver: Receiver,
            carry: *mut u8,
            carry_length: usize,
            first: *mut u8,
            first_length: usize,
            second: *mut u8,
            second_length: usize,
            log: *mut u32,
            log_length: usize,
        ) -> Received;
    }
}

/// Which copy is chosen: 1 the first, 2 the second, 0 where neither can be
/// corrected.
pub(crate) fn choose(first: &[u8], second: &[u8]) -> u32 {
    // SAFETY: slices with their lengths; both are only read.
    unsafe { c::barzhilup_choose(first.as_ptr(), first.len(), second.as_ptr(), second.len()) }
}

/// Receives a pair of PDUs.
pub(crate) fn receive(
    receiver: Receiver,
    carry: &mut [u8],
    first: &mut [u8],
    second: &mut [u8],
    log: &mut [u32],
) -> Received {
    // SAFETY: slices with their lengths, each borrowed alone.
    unsafe {
        c::barzhilup_receive_pair(
            receiver,
            carry.as_mut_ptr(),
            carry.len(),
            first.as_mut_ptr(),
            first.len(),
            second.as_mut_ptr(),
            second.len(),
            log.as_mut_ptr(),
            log.len(),
        )
    }
}
