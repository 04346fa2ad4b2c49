//! The product's joining of two logs (document 02, Ask 11), as the tests call it.

use crate::lent::LentLog;

/// The answer.
#[repr(C)]
#[derive(Clone, Copy, Debug, PartialEq, Eq)]
pub struct Joined {
    pub refusal: u32,
    pub words: usize,
}

#[link(name = "capi", kind = "static")]
extern "C" {
    fn barzhilup_join(
        core: *const u32,
        core_length: usize,
        enhanced: *const u32,
        enhanced_length: usize,
        result: *mut u32,
        result_length: usize,
    ) -> Joined;
}

/// Joins two lent logs into a lent buffer.
pub fn join(core: &LentLog, enhanced: &LentLog, result: &mut LentLog) -> Joined {
    let (core, enhanced, result) = (core.words(), enhanced.words(), result.words_mut());
    unsafe {
        barzhilup_join(
            core.as_ptr(),
            core.len(),
            enhanced.as_ptr(),
            enhanced.len(),
            result.as_mut_ptr(),
            result.len(),
        )
    }
}
