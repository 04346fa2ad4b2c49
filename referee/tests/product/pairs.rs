//! The product's calls over two copies of a PDU (document 02, Ask 5), as the tests
//! make them.

use super::receiver::{Received, Receiver};
use crate::lent::{Lent, LentLog};

extern "C" {
    fn barzhilup_choose(
        first: *const u8,
        first_length: usize,
        second: *const u8,
        second_length: usize,
    ) -> u32;
    fn barzhilup_receive_pair(
        receiver: Receiver,
        carry: *mut u8,
        carry_length: usize,
        first: *mut u8,
        first_length: usize,
        second: *mut u8,
        second_length: usize,
        log: *mut u32,
        log_length: usize,
    ) -> Received;
}

/// Which copy is chosen: 1 the first, 2 the second, 0 where neither can be mended.
pub fn choose(first: &Lent, second: &Lent) -> u32 {
    let (first, second) = (first.bytes(), second.bytes());
    unsafe { barzhilup_choose(first.as_ptr(), first.len(), second.as_ptr(), second.len()) }
}

/// Receives both copies.
pub fn receive(
    receiver: Receiver,
    carry: &mut Lent,
    first: &mut Lent,
    second: &mut Lent,
    log: &mut LentLog,
) -> Received {
    let carry = carry.bytes_mut();
    let first = first.bytes_mut();
    let second = second.bytes_mut();
    let log = log.words_mut();
    unsafe {
        barzhilup_receive_pair(
            receiver,
            carry.as_mut_ptr(),
            carry.len(),
            first.as_mut_ptr(),
            first.len(),
            second.as_mut_ptr(),
            second.len(),
            log.as_mut_ptr(),
            log.len(),
        )
    }
}
