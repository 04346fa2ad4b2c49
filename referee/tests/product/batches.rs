//! The product's batches of PDUs (document 02, Ask 1), as the tests call them.

use super::receiver::Receiver;
use crate::lent::{Lent, LentLog, LentSizes};

/// The answer.
#[repr(C)]
#[derive(Clone, Copy, Debug, PartialEq, Eq)]
pub struct Batch {
    pub refusal: u32,
    pub wrong_locator: u32,
    pub taken: usize,
    pub words: usize,
    pub receiver: Receiver,
}

extern "C" {
    fn barzhilup_receive_batch(
        receiver: Receiver,
        carry: *mut u8,
        carry_length: usize,
        pdus: *mut u8,
        pdus_length: usize,
        lengths: *const usize,
        count: usize,
        log: *mut u32,
        log_length: usize,
    ) -> Batch;
}

/// Receives PDUs that are joined in one buffer.
pub fn receive(
    receiver: Receiver,
    carry: &mut Lent,
    pdus: &mut Lent,
    lengths: &LentSizes,
    log: &mut LentLog,
) -> Batch {
    let carry = carry.bytes_mut();
    let pdus = pdus.bytes_mut();
    let lengths = lengths.sizes();
    let log = log.words_mut();
    unsafe {
        barzhilup_receive_batch(
            receiver,
            carry.as_mut_ptr(),
            carry.len(),
            pdus.as_mut_ptr(),
            pdus.len(),
            lengths.as_ptr(),
            lengths.len(),
            log.as_mut_ptr(),
            log.len(),
        )
    }
}
