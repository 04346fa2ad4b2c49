//! The product's calls as the tests make them: its static libraries behind
//! plain functions.

#![allow(dead_code)]

use referee::header::Header;

/// PDUs received in one call.
pub mod batches;

/// Two copies of a PDU.
pub mod pairs;

/// The receiver's calls.
pub mod receiver;

/// Parity as bytes arrive.
pub mod shares;

/// A receiver saved as words and loaded again.
pub mod snapshots;

/// The writer's calls.
pub mod writer;

/// The C side of the product.
mod c {
    #[repr(C)]
    pub struct Syndromes {
        pub values: [u8; 8],
    }

    #[repr(C)]
    pub struct Parity {
        pub values: [u8; 8],
    }

    #[repr(C)]
    pub struct Correction {
        pub refusal: u32,
        pub corrected: u32,
    }

    #[link(name = "panel", kind = "static")]
    extern "C" {
        pub fn barzhilup_list_pieces(
            pdu: *mut u8,
            length: usize,
            register: u8,
            list: *mut super::Piece,
            count: usize,
        ) -> super::Reading;
    }

    #[link(name = "capi", kind = "static")]
    extern "C" {
        pub fn barzhilup_product(x: u8, y: u8) -> u8;
        pub fn barzhilup_syndromes(header: *const [u8; 96]) -> Syndromes;
        pub fn barzhilup_parity(header: *const [u8; 96]) -> Parity;
        pub fn barzhilup_write_parity(pdu: *mut u8, length: usize) -> u32;
        pub fn barzhilup_correct_header(pdu: *mut u8, length: usize) -> Correction;
        pub fn barzhilup_correct_header_marked(
            pdu: *mut u8,
            length: usize,
            marks: *const u8,
            count: usize,
        ) -> Correction;
        pub fn barzhilup_crc8(bytes: *const u8, length: usize) -> u8;
        pub fn barzhilup_crc8_from(start: u8, bytes: *const u8, length: usize) -> u8;
        pub fn barzhilup_read(pdu: *mut u8, length: usize) -> super::Reading;
    }
}

/// The control word in an answer. Yes and no are bytes here, so that a byte
/// that is neither 1 nor 0 shows.
#[repr(C)]
#[derive(Clone, Copy, Debug, PartialEq, Eq)]
pub struct ControlWord {
    pub mode: u8,
    pub stream: u8,
    pub sequence: u8,
    pub blend: u8,
    pub gain: u8,
    pub common_delay: u8,
    pub latency: u8,
    pub pfirst: u8,
    pub plast: u8,
    pub start: u8,
    pub nop: u8,
    pub expansion: u8,
    pub la: u8,
}

/// The expansion fields in an answer.
#[repr(C)]
#[derive(Clone, Copy, Debug, PartialEq, Eq)]
pub struct Expansion {
    pub class_code: u8,
    pub program: u8,
    pub displacement: u16,
    pub access: u8,
    pub type_code: u8,
    pub services: u8,
    pub marker: u32,
}

/// The answer to reading a PDU without a receiver.
#[repr(C)]
#[derive(Clone, Copy, Debug, PartialEq, Eq)]
pub struct Reading {
    pub refusal: u32,
    pub wrong_locator: u32,
    pub control: ControlWord,
    pub expansion: Expansion,
    pub psd_start: u32,
    pub psd_length: u32,
    pub starts: [u16; 64],
    pub lengths: [u16; 64],
}

impl Reading {
    /// An answer with 0 in every field.
    pub fn zero() -> Reading {
        Reading {
            refusal: 0,
            wrong_locator: 0,
            control: ControlWord {
                mode: 0,
                stream: 0,
                sequence: 0,
                blend: 0,
                gain: 0,
                common_delay: 0,
                latency: 0,
                pfirst: 0,
                plast: 0,
                start: 0,
                nop: 0,
                expansion: 0,
                la: 0,
            },
            expansion: Expansion {
                class_code: 0,
                program: 0,
                displacement: 0,
                access: 0,
                type_code: 0,
                services: 0,
                marker: 0,
            },
            psd_start: 0,
            psd_length: 0,
            starts: [0; 64],
            lengths: [0; 64],
        }
    }
}

/// A piece in a list. The verdict is a byte here, so that one that is neither 1
/// nor 0 shows, and so is the byte behind it, which C leaves unused.
#[repr(C)]
#[derive(Clone, Copy, Debug, PartialEq, Eq)]
pub struct Piece {
    pub start: u16,
    pub length: u16,
    pub right: u8,
    pub unused: u8,
}

/// The product of two bytes.
pub fn product(x: u8, y: u8) -> u8 {
    unsafe { c::barzhilup_product(x, y) }
}

/// The sums S1 to S8 of a header.
pub fn syndromes(header: &Header) -> [u8; 8] {
    unsafe { c::barzhilup_syndromes(header) }.values
}

/// The parity for a header.
pub fn parity(header: &Header) -> [u8; 8] {
    unsafe { c::barzhilup_parity(header) }.values
}

/// Writes the parity into a PDU; answers 0 or the refusal's number.
pub fn write_parity(pdu: &mut [u8]) -> u32 {
    unsafe { c::barzhilup_write_parity(pdu.as_mut_ptr(), pdu.len()) }
}

/// Mends a PDU's header; answers 0 or the refusal's number, and the count.
pub fn correct_header(pdu: &mut [u8]) -> (u32, u32) {
    let answer = unsafe { c::barzhilup_correct_header(pdu.as_mut_ptr(), pdu.len()) };
    (answer.refusal, answer.corrected)
}

/// Mends a PDU's header with places marked; answers 0 or the refusal's number,
/// and the count.
pub fn correct_header_marked(pdu: &mut [u8], marks: &[u8]) -> (u32, u32) {
    let answer = unsafe {
        c::barzhilup_correct_header_marked(pdu.as_mut_ptr(), pdu.len(), marks.as_ptr(), marks.len())
    };
    (answer.refusal, answer.corrected)
}

/// The CRC-8 of the bytes.
pub fn crc8(bytes: &[u8]) -> u8 {
    unsafe { c::barzhilup_crc8(bytes.as_ptr(), bytes.len()) }
}

/// The CRC-8 of the bytes with the register starting at this value.
pub fn crc8_from(start: u8, bytes: &[u8]) -> u8 {
    unsafe { c::barzhilup_crc8_from(start, bytes.as_ptr(), bytes.len()) }
}

/// Reads a PDU without a receiver.
pub fn read(pdu: &mut [u8]) -> Reading {
    unsafe { c::barzhilup_read(pdu.as_mut_ptr(), pdu.len()) }
}

/// Fills a list with the pieces of a PDU, the register of whose CRCs starts at
/// this value.
pub fn list_pieces(pdu: &mut [u8], register: u8, list: &mut [Piece]) -> Reading {
    unsafe {
        c::barzhilup_list_pieces(
            pdu.as_mut_ptr(),
            pdu.len(),
            register,
            list.as_mut_ptr(),
            list.len(),
        )
    }
}
