//! The C side: the structs of `include/barzhilup.h` as C lays them out, its
//! functions, and a thin safe call for each. All unsafe code of the crate stands
//! here.
//!
//! What makes every call safe: a slice's pointer is not null and points at as
//! many elements as the slice says, also where it has none; a slice that is
//! written is borrowed alone, so it overlaps no other; a `bool` is true or
//! false. The functions ask for nothing else: they take any values, and keep no
//! pointer after the call.

use crate::{Piece, HEADER_BYTES, PARITY_BYTES};

pub(crate) mod batches;
pub(crate) mod joining;
pub(crate) mod latency;
pub(crate) mod pairs;
pub(crate) mod shares;
pub(crate) mod snapshots;

/// Eight bytes: syndromes or parity.
#[repr(C)]
struct Values {
    values: [u8; PARITY_BYTES],
}

/// What came of correcting a header.
#[repr(C)]
pub(crate) struct Correction {
    pub(crate) refusal: u32,
    pub(crate) corrected: u32,
}

/// The control word.
#[repr(C)]
pub(crate) struct ControlWord {
    pub(crate) mode: u8,
    pub(crate) stream: u8,
    pub(crate) sequence: u8,
    pub(crate) blend: u8,
    pub(crate) gain: u8,
    pub(crate) common_delay: u8,
    pub(crate) latency: u8,
    pub(crate) pfirst: u8,
    pub(crate) plast: u8,
    pub(crate) start: u8,
    pub(crate) nop: u8,
    pub(crate) expansion: u8,
    pub(crate) la: u8,
}

/// The expansion fields.
#[repr(C)]
pub(crate) struct Expansion {
    pub(crate) class_code: u8,
    pub(crate) program: u8,
    pub(crate) displacement: u16,
    pub(crate) access: u8,
    pub(crate) type_code: u8,
    pub(crate) services: u8,
    pub(crate) marker: u32,
}

/// What a PDU holds.
#[repr(C)]
pub(crate) struct Reading {
    pub(crate) refusal: u32,
    pub(crate) wrong_locator: u32,
    pub(crate) control: ControlWord,
    pub(crate) expansion: Expansion,
    pub(crate) psd_start: u32,
    pub(crate) psd_length: u32,
    pub(crate) starts: [u16; 64],
    pub(crate) lengths: [u16; 64],
}

/// What a writer was opened with and what it remembers.
#[repr(C)]
#[derive(Clone, Copy, PartialEq, Eq)]
pub(crate) struct Writer {
    pub(crate) mode: u8,
    pub(crate) stream: u8,
    pub(crate) crc_start: u8,
    pub(crate) sequence: u8,
    pub(crate) number: u8,
    pub(crate) sent: u16,
}

/// What came of opening a writer.
#[repr(C)]
pub(crate) struct WriterOpened {
    pub(crate) refusal: u32,
    pub(crate) writer: Writer,
}

/// A PDU's settings.
#[repr(C)]
#[derive(Clone, Copy, Default)]
pub(crate) struct Settings {
    pub(crate) blend: u8,
    pub(crate) gain: u8,
    pub(crate) common_delay: u8,
    pub(crate) latency: u8,
    pub(crate) classed: bool,
    pub(crate) class_code: u8,
    pub(crate) programmed: bool,
    pub(crate) program: u8,
    pub(crate) displaced: bool,
    pub(crate) typed: bool,
    pub(crate) access: u8,
    pub(crate) type_code: u8,
    pub(crate) serviced: bool,
    pub(crate) services: u8,
    pub(crate) marker: u32,
}

/// What came of writing a PDU.
#[repr(C)]
pub(crate) struct Written {
    pub(crate) refusal: u32,
    pub(crate) ended: u32,
    pub(crate) writer: Writer,
}

/// What a receiver was opened with and what it remembers.
#[repr(C)]
#[derive(Clone, Copy, PartialEq, Eq)]
pub(crate) struct Receiver {
    pub(crate) mode: u8,
    pub(crate) stream: u8,
    pub(crate) crc_start: u8,
    pub(crate) entitled: u8,
    pub(crate) known: bool,
    pub(crate) sequence: u8,
    pub(crate) held: u16,
    pub(crate) number: u8,
    pub(crate) serviced: bool,
    pub(crate) services: u8,
    pub(crate) delivered: u32,
    pub(crate) missing: u32,
    pub(crate) last: u8,
}

/// What came of opening a receiver, or of loading one.
#[repr(C)]
pub(crate) struct ReceiverOpened {
    pub(crate) refusal: u32,
    pub(crate) receiver: Receiver,
}

/// What came of receiving a PDU or a pair, or marking a PDU lost.
#[repr(C)]
pub(crate) struct Received {
    pub(crate) refusal: u32,
    pub(crate) wrong_locator: u32,
    pub(crate) words: u32,
    pub(crate) receiver: Receiver,
}

/// The functions of libpanel.a and libcapi.a.
mod c {
    use super::*;

    #[link(name = "panel", kind = "static")]
    extern "C" {
        pub fn barzhilup_list_pieces(
            pdu: *mut u8,
            pdu_length: usize,
            crc_start: u8,
            list: *mut Piece,
            count: usize,
        ) -> Reading;
    }

    #[link(name = "capi", kind = "static")]
    extern "C" {
        pub fn barzhilup_syndromes(header: *const [u8; HEADER_BYTES]) -> Values;
        pub fn barzhilup_parity(header: *const [u8; HEADER_BYTES]) -> Values;
        pub fn barzhilup_write_parity(pdu: *mut u8, length: usize) -> u32;
        pub fn barzhilup_correct_header(pdu: *mut u8, length: usize) -> Correction;
        pub fn barzhilup_correct_header_marked(
            pdu: *mut u8,
            length: usize,
            marks: *const u8,
            count: usize,
        ) -> Correction;
        pub fn barzhilup_crc8(bytes: *const u8, length: usize) -> u8;
        pub fn barzhilup_crc8_from(start: u8, bytes: *const u8, length: usize) -> u8;
        pub fn barzhilup_read(pdu: *mut u8, length: usize) -> Reading;
        pub fn barzhilup_open_writer_with(mode: u8, stream: u8, crc_start: u8) -> WriterOpened;
        pub fn barzhilup_write(
            writer: Writer,
            settings: Settings,
            psd: *const u8,
            psd_length: usize,
            lengths: *const u16,
            count: usize,
            bytes: *const u8,
            bytes_length: usize,
            pdu: *mut u8,
            pdu_length: usize,
        ) -> Written;
        pub fn barzhilup_open_receiver_with(mode: u8, stream: u8, crc_start: u8) -> ReceiverOpened;
        pub fn barzhilup_open_receiver_entitled(
            mode: u8,
            stream: u8,
            crc_start: u8,
            programs: *const u8,
            count: usize,
        ) -> ReceiverOpened;
        pub fn barzhilup_receive(
            receiver: Receiver,
            carry: *mut u8,
            carry_length: usize,
            pdu: *mut u8,
            pdu_length: usize,
            log: *mut u32,
            log_length: usize,
        ) -> Received;
        pub fn barzhilup_receive_marked(
            receiver: Receiver,
            carry: *mut u8,
            carry_length: usize,
            pdu: *mut u8,
            pdu_length: usize,
            marks: *const u8,
            count: usize,
            log: *mut u32,
            log_length: usize,
        ) -> Received;
        pub fn barzhilup_mark_lost(
            receiver: Receiver,
            log: *mut u32,
            log_length: usize,
        ) -> Received;
    }
}

/// The syndromes of a header.
pub(crate) fn syndromes(header: &[u8; HEADER_BYTES]) -> [u8; PARITY_BYTES] {
    // SAFETY: the header has 96 bytes.
    unsafe { c::barzhilup_syndromes(header) }.values
}

/// The parity of a header.
pub(crate) fn parity(header: &[u8; HEADER_BYTES]) -> [u8; PARITY_BYTES] {
    // SAFETY: the header has 96 bytes.
    unsafe { c::barzhilup_parity(header) }.values
}

/// Writes a PDU's parity; answers 0 or the refusal's number.
pub(crate) fn write_parity(pdu: &mut [u8]) -> u32 {
    // SAFETY: a slice with its length, borrowed alone.
    unsafe { c::barzhilup_write_parity(pdu.as_mut_ptr(), pdu.len()) }
}

/// Corrects a PDU's header.
pub(crate) fn correct_header(pdu: &mut [u8]) -> Correction {
    // SAFETY: a slice with its length, borrowed alone.
    unsafe { c::barzhilup_correct_header(pdu.as_mut_ptr(), pdu.len()) }
}

/// Corrects a PDU's header with places marked.
pub(crate) fn correct_header_marked(pdu: &mut [u8], marks: &[u8]) -> Correction {
    // SAFETY: slices with their lengths; the PDU, which is written, is borrowed
    // alone.
    unsafe {
        c::barzhilup_correct_header_marked(pdu.as_mut_ptr(), pdu.len(), marks.as_ptr(), marks.len())
    }
}

/// The CRC-8 of the bytes.
pub(crate) fn crc8(bytes: &[u8]) -> u8 {
    // SAFETY: a slice with its length.
    unsafe { c::barzhilup_crc8(bytes.as_ptr(), bytes.len()) }
}

/// The CRC-8 of the bytes with a register that starts at this value.
pub(crate) fn crc8_from(start: u8, bytes: &[u8]) -> u8 {
    // SAFETY: a slice with its length.
    unsafe { c::barzhilup_crc8_from(start, bytes.as_ptr(), bytes.len()) }
}

/// Reads a PDU without a receiver.
pub(crate) fn read(pdu: &mut [u8]) -> Reading {
    // SAFETY: a slice with its length, borrowed alone.
    unsafe { c::barzhilup_read(pdu.as_mut_ptr(), pdu.len()) }
}

/// Reads a PDU without a receiver and fills a list with its pieces.
pub(crate) fn list_pieces(pdu: &mut [u8], crc_start: u8, list: &mut [Piece]) -> Reading {
    // SAFETY: slices with their lengths, each borrowed alone.
    unsafe {
        c::barzhilup_list_pieces(
            pdu.as_mut_ptr(),
            pdu.len(),
            crc_start,
            list.as_mut_ptr(),
            list.len(),
        )
    }
}

/// Opens a writer.
pub(crate) fn open_writer(mode: u8, stream: u8, crc_start: u8) -> WriterOpened {
    // SAFETY: no pointers.
    unsafe { c::barzhilup_open_writer_with(mode, stream, crc_start) }
}

/// Writes a PDU.
pub(crate) fn write(
    writer: Writer,
    settings: Settings,
    psd: &[u8],
    lengths: &[u16],
    bytes: &[u8],
    pdu: &mut [u8],
) -> Written {
    // SAFETY: slices with their lengths; the PDU, which is written, is borrowed
    // alone.
    unsafe {
        c::barzhilup_write(
            writer,
            settings,
            psd.as_ptr(),
            psd.len(),
            lengths.as_ptr(),
            lengths.len(),
            bytes.as_ptr(),
            bytes.len(),
            pdu.as_mut_ptr(),
            pdu.len(),
        )
    }
}

/// Opens a receiver.
pub(crate) fn open_receiver(mode: u8, stream: u8, crc_start: u8) -> ReceiverOpened {
    // SAFETY: no pointers.
    unsafe { c::barzhilup_open_receiver_with(mode, stream, crc_start) }
}

/// Opens a receiver with the programs that it is entitled to.
pub(crate) fn open_receiver_entitled(
    mode: u8,
    stream: u8,
    crc_start: u8,
    programs: &[u8],
) -> ReceiverOpened {
    // SAFETY: a slice with its length, only read.
    unsafe {
        c::barzhilup_open_receiver_entitled(
            mode,
            stream,
            crc_start,
            programs.as_ptr(),
            programs.len(),
        )
    }
}

/// Receives a PDU.
pub(crate) fn receive(
    receiver: Receiver,
    carry: &mut [u8],
    pdu: &mut [u8],
    log: &mut [u32],
) -> Received {
    // SAFETY: slices with their lengths, each borrowed alone.
    unsafe {
        c::barzhilup_receive(
            receiver,
            carry.as_mut_ptr(),
            carry.len(),
            pdu.as_mut_ptr(),
            pdu.len(),
            log.as_mut_ptr(),
            log.len(),
        )
    }
}

/// Receives a PDU with places of its header marked.
pub(crate) fn receive_marked(
    receiver: Receiver,
    carry: &mut [u8],
    pdu: &mut [u8],
    marks: &[u8],
    log: &mut [u32],
) -> Received {
    // SAFETY: slices with their lengths; those that are written are each
    // borrowed alone.
    unsafe {
        c::barzhilup_receive_marked(
            receiver,
            carry.as_mut_ptr(),
            carry.len(),
            pdu.as_mut_ptr(),
            pdu.len(),
            marks.as_ptr(),
            marks.len(),
            log.as_mut_ptr(),
            log.len(),
        )
    }
}

/// Marks a PDU lost.
pub(crate) fn mark_lost(receiver: Receiver, log: &mut [u32]) -> Received {
    // SAFETY: a slice with its length, borrowed alone.
    unsafe { c::barzhilup_mark_lost(receiver, log.as_mut_ptr(), log.len()) }
}

/// Sizes and alignments that C gives the structs on every machine where a
/// `uint32_t` is aligned to four bytes.
const _: () = {
    assert!(size_of::<Values>() == 8 && align_of::<Values>() == 1);
    assert!(size_of::<Correction>() == 8 && align_of::<Correction>() == 4);
    assert!(size_of::<ControlWord>() == 13 && align_of::<ControlWord>() == 1);
    assert!(size_of::<Expansion>() == 12 && align_of::<Expansion>() == 4);
    assert!(size_of::<Reading>() == 300 && align_of::<Reading>() == 4);
    assert!(size_of::<Writer>() == 8 && align_of::<Writer>() == 2);
    assert!(size_of::<WriterOpened>() == 12 && align_of::<WriterOpened>() == 4);
    assert!(size_of::<Settings>() == 20 && align_of::<Settings>() == 4);
    assert!(size_of::<Written>() == 16 && align_of::<Written>() == 4);
    assert!(size_of::<Receiver>() == 24 && align_of::<Receiver>() == 4);
    assert!(size_of::<ReceiverOpened>() == 28 && align_of::<ReceiverOpened>() == 4);
    assert!(size_of::<Received>() == 36 && align_of::<Received>() == 4);
    assert!(size_of::<Piece>() == 6 && align_of::<Piece>() == 2);
};

#[cfg(test)]
mod tests;
