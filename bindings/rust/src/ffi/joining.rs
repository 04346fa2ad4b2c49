//! The C side of two logs joined (document 02, Ask 11).

/// What came of joining two logs.
#[repr(C)]
pub(crate) struct Joined {
    pub(crate) refusal: u32,
    pub(crate) words: usize,
}

/// The function of libcapi.a.
mod c {
    use super::*;

    #[link(name = "capi", kind = "static")]
    extern "C" {
        pub fn barzhilup_join(
            core: *const u32,
            core_length: usize,
            enhanced: *const u32,
            enhanced_length: usize,
            result: *mut u32,
            result_length: usize,
        ) -> Joined;
    }
}

/// Joins two logs.
pub(crate) fn join(core: &[u32], enhanced: &[u32], result: &mut [u32]) -> Joined {
    // SAFETY: slices with their lengths; the one that is written is borrowed
    // alone. A `size_t` is a `usize`.
    unsafe {
        c::barzhilup_join(
            core.as_ptr(),
            core.len(),
            enhanced.as_ptr(),
            enhanced.len(),
            result.as_mut_ptr(),
            result.len(),
        )
    }
}
