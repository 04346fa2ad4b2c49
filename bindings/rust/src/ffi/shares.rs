//! The C side of parity as bytes arrive (document 02, Ask 8).

use super::Values;
use crate::PARITY_BYTES;

/// What came of adding a byte's share to a parity.
#[repr(C)]
pub(crate) struct Added {
    pub(crate) refusal: u32,
    pub(super) parity: Values,
}

impl Added {
    /// The eight bytes: with the share added, or as they came.
    pub(crate) fn parity(&self) -> [u8; PARITY_BYTES] {
        self.parity.values
    }
}

/// The function of libcapi.a.
mod c {
    use super::*;

    #[link(name = "capi", kind = "static")]
    extern "C" {
        pub fn barzhilup_add_parity_share(parity: Values, place: usize, byte: u8) -> Added;
    }
}

/// Adds the share of a byte to a parity.
pub(crate) fn add(parity: [u8; PARITY_BYTES], place: usize, byte: u8) -> Added {
    // SAFETY: no pointers.
    unsafe { c::barzhilup_add_parity_share(Values { values: parity }, place, byte) }
}

/// The size and alignment that C gives the struct.
const _: () = assert!(size_of::<Added>() == 12 && align_of::<Added>() == 4);
