//! The product's writer, as the tests call it.

use crate::lent::{Lent, LentLengths};

/// A writer.
#[repr(C)]
#[derive(Clone, Copy, Debug, PartialEq, Eq)]
pub struct Writer {
    pub mode: u8,
    pub stream: u8,
    pub register: u8,
    pub sequence: u8,
    pub number: u8,
    pub sent: u16,
}

/// The answer to opening a writer; refused, the writer is all 0.
#[repr(C)]
#[derive(Clone, Copy, Debug, PartialEq, Eq)]
pub struct Opened {
    pub refusal: u32,
    pub writer: Writer,
}

/// Settings; the flags say what is asked for.
#[repr(C)]
#[derive(Clone, Copy, Debug, PartialEq, Eq)]
pub struct Settings {
    pub blend: u8,
    pub gain: u8,
    pub common_delay: u8,
    pub latency: u8,
    pub classed: bool,
    pub class_code: u8,
    pub programmed: bool,
    pub program: u8,
    pub displaced: bool,
    pub typed: bool,
    pub access: u8,
    pub type_code: u8,
    pub serviced: bool,
    pub services: u8,
    pub marker: u32,
}

/// The answer to a writing call; refused, none ended and the writer is as it
/// came.
#[repr(C)]
#[derive(Clone, Copy, Debug, PartialEq, Eq)]
pub struct Written {
    pub refusal: u32,
    pub ended: u32,
    pub writer: Writer,
}

extern "C" {
    fn barzhilup_open_writer(mode: u8, stream: u8) -> Opened;
    fn barzhilup_open_writer_with(mode: u8, stream: u8, register: u8) -> Opened;
    fn barzhilup_write(
        writer: Writer,
        settings: Settings,
        psd: *const u8,
        psd_length: usize,
        lengths: *const u16,
        count: usize,
        bytes: *const u8,
        bytes_length: usize,
        pdu: *mut u8,
        pdu_length: usize,
    ) -> Written;
}

/// Opens a writer.
pub fn open(mode: u8, stream: u8) -> Opened {
    unsafe { barzhilup_open_writer(mode, stream) }
}

/// Opens a writer with what the register of its CRCs starts at.
pub fn open_with(mode: u8, stream: u8, register: u8) -> Opened {
    unsafe { barzhilup_open_writer_with(mode, stream, register) }
}

/// What is lent to a writing call. All of it is lent so that a change of what
/// may only be read would show.
#[derive(Clone, PartialEq, Eq)]
pub struct Loan {
    pub psd: Lent,
    pub lengths: LentLengths,
    pub bytes: Lent,
    pub pdu: Lent,
}

/// Writes a PDU.
pub fn write(writer: Writer, settings: Settings, loan: &mut Loan) -> Written {
    let psd = loan.psd.bytes_mut();
    let lengths = loan.lengths.words_mut();
    let bytes = loan.bytes.bytes_mut();
    let pdu = loan.pdu.bytes_mut();
    unsafe {
        barzhilup_write(
            writer,
            settings,
            psd.as_mut_ptr(),
            psd.len(),
            lengths.as_mut_ptr(),
            lengths.len(),
            bytes.as_mut_ptr(),
            bytes.len(),
            pdu.as_mut_ptr(),
            pdu.len(),
        )
    }
}
