//! The better of two copies of a PDU (document 02, Ask 5).

use crate::ffi;

/// Of two copies of a PDU, the one to take: the one in whose header fewer bytes
/// have to be corrected, the first if equal; the other where one can't be
/// corrected. A length that no PDU has, under 96 or over 20,480, counts as one
/// that can't. Where neither can, an empty part of the first.
///
/// What is handed back is the chosen buffer itself, whole and uncorrected. The
/// lengths may differ. Nothing is refused, and nothing else is judged: mode,
/// locators and CRCs make no difference. To have each piece from the copy in which
/// it is right, receive both with
/// [`Receiver::receive_pair`](crate::Receiver::receive_pair).
///
/// # Example
///
/// ```
/// use barzhilup::choose;
///
/// let (mut first, mut second) = ([0; 96], [0; 200]); // zeros are a code word
/// first[17] = 0x80;
/// assert_eq!(choose(&first, &second).as_ptr(), second.as_ptr());
///
/// second[95] = 0x01; // one byte in each: the first
/// assert_eq!(choose(&first, &second), first);
///
/// assert_eq!(choose(&first[..95], &second), second);
/// assert!(choose(&first[..95], &second[..95]).is_empty());
/// ```
#[must_use]
pub fn choose<'a>(first: &'a [u8], second: &'a [u8]) -> &'a [u8] {
    match ffi::pairs::choose(first, second) {
        1 => first,
        2 => second,
        _ => &first[..0],
    }
}
