//! The product's parity as bytes arrive (document 02, Ask 8), as the tests call
//! it.

/// Eight bytes of parity, as they are handed over.
#[repr(C)]
struct Parity {
    values: [u8; 8],
}

/// The answer.
#[repr(C)]
struct Answer {
    refusal: u32,
    parity: Parity,
}

extern "C" {
    fn barzhilup_add_parity_share(parity: Parity, place: usize, byte: u8) -> Answer;
}

/// Adds a byte's share; answers 0 or the refusal's number, and the eight bytes.
pub fn add_parity_share(parity: [u8; 8], place: usize, byte: u8) -> (u32, [u8; 8]) {
    let answer = unsafe { barzhilup_add_parity_share(Parity { values: parity }, place, byte) };
    (answer.refusal, answer.parity.values)
}
