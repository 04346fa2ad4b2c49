//! The C side of receivers saved as words and loaded again (document 02, Ask 13).

use super::{Receiver, ReceiverOpened};

/// What came of saving a receiver.
#[repr(C)]
pub(crate) struct Saved {
    pub(crate) refusal: u32,
    pub(crate) words: u32,
}

/// The functions of libcapi.a.
mod c {
    use super::*;

    #[link(name = "capi", kind = "static")]
    extern "C" {
        pub fn barzhilup_save_receiver(
            receiver: Receiver,
            carry: *const u8,
            carry_length: usize,
            words: *mut u32,
            words_length: usize,
        ) -> Saved;
        pub fn barzhilup_load_receiver(
            words: *const u32,
            words_length: usize,
            carry: *mut u8,
            carry_length: usize,
        ) -> ReceiverOpened;
    }
}

/// Saves a receiver.
pub(crate) fn save(receiver: Receiver, carry: &[u8], words: &mut [u32]) -> Saved {
    // SAFETY: slices with their lengths; the words, which are written, are borrowed
    // alone.
    unsafe {
        c::barzhilup_save_receiver(
            receiver,
            carry.as_ptr(),
            carry.len(),
            words.as_mut_ptr(),
            words.len(),
        )
    }
}

/// Loads a receiver.
pub(crate) fn load(words: &[u32], carry: &mut [u8]) -> ReceiverOpened {
    // SAFETY: slices with their lengths; the carry, which is written, is borrowed
    // alone.
    unsafe {
        c::barzhilup_load_receiver(words.as_ptr(), words.len(), carry.as_mut_ptr(), carry.len())
    }
}

/// Size and alignment as C has them.
const _: () = assert!(size_of::<Saved>() == 8 && align_of::<Saved>() == 4);
