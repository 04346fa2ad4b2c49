//! The header code and the CRC-8 (document 01, "Header code" and "Expansion,
//! PSD, pieces"; document 02, Asks 2 and 3; 001, 5.2.3.1 and 5.2.3.2).

use crate::{ffi, Refusal, HEADER_BYTES, PARITY_BYTES};

/// The syndromes S1 to S8 of a header: Sj is the sum of byte i times a^(i times
/// j) in GF(256), where a is 2 and a^8 = a^4 + a^3 + a^2 + 1. All zero: the header
/// is a code word.
///
/// ```
/// let mut header = [0; 96]; // zeros are a code word
/// assert_eq!(barzhilup::syndromes(&header), [0; 8]);
/// header[0] = 0x21; // byte 0 is added to each as it is
/// assert_eq!(barzhilup::syndromes(&header), [0x21; 8]);
/// ```
#[must_use]
pub fn syndromes(header: &[u8; HEADER_BYTES]) -> [u8; PARITY_BYTES] {
    ffi::syndromes(header)
}

/// The parity that makes bytes 8 to 95 of a header a code word: what its bytes
/// 0 to 7 have to be. What they are makes no difference.
///
/// ```
/// use barzhilup::{parity, syndromes};
///
/// let mut header = [0x5A; 96];
/// let wanted = parity(&header);
/// header[..8].copy_from_slice(&wanted);
/// assert_eq!(syndromes(&header), [0; 8]);
/// ```
#[must_use]
pub fn parity(header: &[u8; HEADER_BYTES]) -> [u8; PARITY_BYTES] {
    ffi::parity(header)
}

/// Writes the parity of a PDU's header into its bytes 0 to 7; the other bytes
/// stay as they are.
///
/// # Errors
///
/// [`Refusal::PduLength`]: the PDU has not 96 to 20,480 bytes.
///
/// # Example
///
/// ```
/// let mut pdu = [0x5A; 300];
/// barzhilup::write_parity(&mut pdu)?;
/// assert_eq!(barzhilup::correct_header(&mut pdu), Ok(0));
/// # Ok::<(), barzhilup::Refusal>(())
/// ```
pub fn write_parity(pdu: &mut [u8]) -> Result<(), Refusal> {
    Refusal::check(ffi::write_parity(pdu), 0)
}

/// Corrects the header of a PDU in place: its first 96 bytes become the one
/// code word that differs from them in at most four bytes. Answers in how many
/// they differed, 0 to 4.
///
/// # Errors
///
/// - [`Refusal::PduLength`]: the PDU has not 96 to 20,480 bytes.
/// - [`Refusal::Uncorrectable`]: there is no such code word.
///
/// # Example
///
/// ```
/// let mut pdu = [0; 96]; // zeros are a code word
/// pdu[17] = 0x80;
/// pdu[95] = 0x01;
/// assert_eq!(barzhilup::correct_header(&mut pdu), Ok(2));
/// assert_eq!(pdu, [0; 96]);
/// ```
pub fn correct_header(pdu: &mut [u8]) -> Result<usize, Refusal> {
    let answer = ffi::correct_header(pdu);
    Refusal::check(answer.refusal, 0)?;
    Ok(answer.corrected as usize)
}

/// Corrects the header of a PDU of which some places are marked, because
/// whoever demodulated it guessed their bytes: its first 96 bytes become the
/// one code word for which twice the differing unmarked bytes plus the count of
/// marks is at most eight. Marked bytes may hold anything. Answers in how many
/// bytes, marked or not, they differed, 0 to 8.
///
/// `marks` has the marked places, each 0 to 95, at most eight and none twice, in
/// any order. Each costs one, also where its byte turns out to be right: with
/// four marks two other bytes can be wrong, with seven or eight none. A header
/// with eight marks is never uncorrectable. With none this is
/// [`correct_header`].
///
/// # Errors
///
/// The first of these that applies:
///
/// - [`Refusal::PduLength`]: the PDU has not 96 to 20,480 bytes.
/// - [`Refusal::Marks`]: more than eight marks, one over 95, or one repeated.
/// - [`Refusal::Uncorrectable`]: there is no such code word.
///
/// # Example
///
/// ```
/// use barzhilup::{correct_header, correct_header_marked, Refusal};
///
/// let mut pdu = [0; 96]; // zeros are a code word
/// for place in [8, 9, 10, 11, 60, 95] {
///     pdu[place] = 0x5A;
/// }
/// assert_eq!(correct_header(&mut pdu), Err(Refusal::Uncorrectable));
/// assert_eq!(correct_header_marked(&mut pdu, &[8, 9, 10, 11]), Ok(6));
/// assert_eq!(pdu, [0; 96]);
/// ```
pub fn correct_header_marked(pdu: &mut [u8], marks: &[u8]) -> Result<usize, Refusal> {
    let answer = ffi::correct_header_marked(pdu, marks);
    Refusal::check(answer.refusal, 0)?;
    Ok(answer.corrected as usize)
}

/// The CRC-8 of a piece: its bytes times x^8, divided by x^8 + x^5 + x^4 + 1,
/// top bit of each byte first, register starting at 0. The CRC of no bytes is
/// 0.
///
/// ```
/// assert_eq!(barzhilup::crc8(&[0x01]), 0x31);
/// ```
#[must_use]
pub fn crc8(bytes: &[u8]) -> u8 {
    ffi::crc8(bytes)
}

/// The CRC-8 of a piece with a register that starts at this value, any byte: it
/// is added, with exclusive or, to the first byte. The CRC of no bytes is the
/// start itself; from 0 this is [`crc8`].
///
/// ```
/// use barzhilup::{crc8_from, CRC_START_OFF_AIR};
///
/// assert_eq!(crc8_from(CRC_START_OFF_AIR, &[0x01]), 0x9D);
/// assert_eq!(crc8_from(CRC_START_OFF_AIR, b"123456789"), 0xF7);
/// ```
#[must_use]
pub fn crc8_from(start: u8, bytes: &[u8]) -> u8 {
    ffi::crc8_from(start, bytes)
}
