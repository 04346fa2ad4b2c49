//! The product's receivers saved as words and loaded again (document 02, Ask 13), as the
//! tests call them.

use super::receiver::{Opened, Receiver};
use crate::lent::{Lent, LentLog};

/// The answer to saving; refused, no words are written.
#[repr(C)]
#[derive(Clone, Copy, Debug, PartialEq, Eq)]
pub struct Saved {
    pub refusal: u32,
    pub words: u32,
}

extern "C" {
    fn barzhilup_save_receiver(
        receiver: Receiver,
        carry: *const u8,
        carry_length: usize,
        words: *mut u32,
        words_length: usize,
    ) -> Saved;
    fn barzhilup_load_receiver(
        words: *const u32,
        words_length: usize,
        carry: *mut u8,
        carry_length: usize,
    ) -> Opened;
}

/// Saves a receiver.
pub fn save(receiver: Receiver, carry: &Lent, words: &mut LentLog) -> Saved {
    let carry = carry.bytes();
    let words = words.words_mut();
    unsafe {
        barzhilup_save_receiver(
            receiver,
            carry.as_ptr(),
            carry.len(),
            words.as_mut_ptr(),
            words.len(),
        )
    }
}

/// Loads a receiver.
pub fn load(words: &LentLog, carry: &mut Lent) -> Opened {
    let words = words.words();
    let carry = carry.bytes_mut();
    unsafe { barzhilup_load_receiver(words.as_ptr(), words.len(), carry.as_mut_ptr(), carry.len()) }
}
