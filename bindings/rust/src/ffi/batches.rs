//! The C side of PDUs received in one call (document 02, Ask 1).

use super::Receiver;

/// What came of receiving a batch of PDUs.
#[repr(C)]
pub(crate) struct Batch {
    pub(crate) refusal: u32,
    pub(crate) wrong_locator: u32,
    pub(crate) taken: usize,
    pub(crate) words: usize,
    pub(crate) receiver: Receiver,
}

/// The function of libcapi.a.
mod c {
    use super::*;

    #[link(name = "capi", kind = "static")]
    extern "C" {
        pub fn barzhilup_receive_batch(
            receiver: Receiver,
            carry: *mut u8,
            carry_length: usize,
            pdus: *mut u8,
            pdus_length: usize,
            lengths: *const usize,
            count: usize,
            log: *mut u32,
            log_length: usize,
        ) -> Batch;
    }
}

/// Receives a batch of PDUs.
pub(crate) fn receive(
    receiver: Receiver,
    carry: &mut [u8],
    pdus: &mut [u8],
    lengths: &[usize],
    log: &mut [u32],
) -> Batch {
    // SAFETY: slices with their lengths; those that are written are each
    // borrowed alone. A `size_t` is a `usize`.
    unsafe {
        c::barzhilup_receive_batch(
            receiver,
            carry.as_mut_ptr(),
            carry.len(),
            pdus.as_mut_ptr(),
            pdus.len(),
            lengths.as_ptr(),
            lengths.len(),
            log.as_mut_ptr(),
            log.len(),
        )
    }
}

/// The alignment that C gives the struct.
const _: () = assert!(align_of::<Batch>() == align_of::<usize>());
