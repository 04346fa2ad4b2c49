//! Parity as bytes arrive (document 02, Ask 8).

use crate::{ffi, Refusal, PARITY_BYTES};

/// Adds the share of a byte to the parity of a header that is filled piecemeal.
///
/// Begin with eight zero bytes. When the shares of bytes 8 to 95 are added, in
/// any order, each once, they are what [`parity`](crate::parity) gives for that
/// header. The share of a byte 0 is zero: it can be left out. Where a byte
/// changes once its share was added, add the share of the old byte exclusive or
/// the new one.
///
/// # Errors
///
/// [`Refusal::Value`]: the place is outside 8 to 95.
///
/// # Example
///
/// ```
/// use barzhilup::{add_parity_share, parity, Refusal};
///
/// fn main() -> Result<(), Refusal> {
///     let mut header = [0; 96];
///     let mut known = [0; 8];
///     for (place, byte) in [(60, 0x5A), (8, 0x40), (95, 0xFF)] {
///         header[place] = byte;
///         known = add_parity_share(known, place, byte)?;
///     }
///     assert_eq!(known, parity(&header));
///
///     known = add_parity_share(known, 60, header[60] ^ 0x21)?;
///     header[60] = 0x21;
///     assert_eq!(known, parity(&header));
///
///     assert_eq!(add_parity_share(known, 7, 1), Err(Refusal::Value));
///     Ok(())
/// }
/// ```
pub fn add_parity_share(
    parity: [u8; PARITY_BYTES],
    place: usize,
    byte: u8,
) -> Result<[u8; PARITY_BYTES], Refusal> {
    let answer = ffi::shares::add(parity, place, byte);
    Refusal::check(answer.refusal, 0)?;
    Ok(answer.parity())
}
