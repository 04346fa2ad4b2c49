//! The referee's writer and receiver behind the signatures of the C library
//! (include/barzhilup.h), so that the benchmark can time all of them on the
//! same inputs.
//!
//! What is passed in is what the C header asks for: pointers at as many
//! elements as said.

use referee::receiver::{self, Receiver};
use referee::settings::{Applied, ProgramType, Settings};
use referee::writer::{self, Offer, Writer};
use std::slice::{from_raw_parts, from_raw_parts_mut};

#[repr(C)]
#[derive(Clone, Copy)]
pub struct CWriter {
    mode: u8,
    stream: u8,
    crc_start: u8,
    sequence: u8,
    number: u8,
    sent: u16,
}

#[repr(C)]
#[derive(Clone, Copy)]
pub struct CSettings {
    blend: u8,
    gain: u8,
    common_delay: u8,
    latency: u8,
    classed: bool,
    class_code: u8,
    programmed: bool,
    program: u8,
    displaced: bool,
    typed: bool,
    access: u8,
    type_code: u8,
    serviced: bool,
    services: u8,
    marker: u32,
}

#[repr(C)]
pub struct CWritten {
    refusal: u32,
    ended: u32,
    writer: CWriter,
}

#[repr(C)]
#[derive(Clone, Copy)]
pub struct CReceiver {
    mode: u8,
    stream: u8,
    crc_start: u8,
    entitled: u8,
    known: bool,
    sequence: u8,
    held: u16,
    number: u8,
    serviced: bool,
    services: u8,
    delivered: u32,
    missing: u32,
    last: u8,
}

#[repr(C)]
pub struct CReceived {
    refusal: u32,
    wrong_locator: u32,
    words: u32,
    receiver: CReceiver,
}

impl From<CSettings> for Settings {
    fn from(s: CSettings) -> Settings {
        Settings {
            blend: s.blend,
            gain: s.gain,
            common_delay: s.common_delay,
            latency: s.latency,
            class_code: s.classed.then_some(s.class_code),
            program: s.programmed.then_some(s.program),
            displaced: s.displaced,
            program_type: s.typed.then_some(ProgramType {
                access: s.access,
                code: s.type_code,
            }),
            applied: s.serviced.then_some(Applied {
                services: s.services,
                marker: s.marker,
            }),
        }
    }
}

impl From<CWriter> for Writer {
    fn from(w: CWriter) -> Writer {
        Writer {
            mode: w.mode,
            stream: w.stream,
            register: w.crc_start,
            sequence: w.sequence,
            number: w.number,
            sent: w.sent,
        }
    }
}

impl From<Writer> for CWriter {
    fn from(w: Writer) -> CWriter {
        CWriter {
            mode: w.mode,
            stream: w.stream,
            crc_start: w.register,
            sequence: w.sequence,
            number: w.number,
            sent: w.sent,
        }
    }
}

impl From<CReceiver> for Receiver {
    fn from(r: CReceiver) -> Receiver {
        Receiver {
            mode: r.mode,
            stream: r.stream,
            register: r.crc_start,
            entitled: std::array::from_fn(|program| r.entitled >> program & 1 != 0),
            known: r.known,
            sequence: r.sequence,
            held: r.held,
            number: r.number,
            serviced: r.serviced,
            services: r.services,
            delivered: r.delivered,
            missing: r.missing,
            last: r.last,
        }
    }
}

impl From<Receiver> for CReceiver {
    fn from(r: Receiver) -> CReceiver {
        CReceiver {
            mode: r.mode,
            stream: r.stream,
            crc_start: r.register,
            entitled: (0..8).map(|p| u8::from(r.entitled[p]) << p).sum(),
            known: r.known,
            sequence: r.sequence,
            held: r.held,
            number: r.number,
            serviced: r.serviced,
            services: r.services,
            delivered: r.delivered,
            missing: r.missing,
            last: r.last,
        }
    }
}

/// As `barzhilup_write`.
///
/// # Safety
/// The pointers are not null and point at as many elements as said.
#[no_mangle]
#[allow(clippy::too_many_arguments)]
pub unsafe extern "C" fn referee_write(
    writer: CWriter,
    settings: CSettings,
    psd: *const u8,
    psd_length: usize,
    lengths: *const u16,
    count: usize,
    bytes: *const u8,
    bytes_length: usize,
    pdu: *mut u8,
    pdu_length: usize,
) -> CWritten {
    let offer = Offer {
        settings: settings.into(),
        psd: from_raw_parts(psd, psd_length),
        lengths: from_raw_parts(lengths, count),
        bytes: from_raw_parts(bytes, bytes_length),
    };
    let answer = writer::write(writer.into(), &offer, from_raw_parts_mut(pdu, pdu_length));
    CWritten {
        refusal: answer.refusal,
        ended: answer.ended as u32,
        writer: answer.writer.into(),
    }
}

/// As `barzhilup_receive`.
///
/// # Safety
/// The pointers are not null and point at as many elements as said.
#[no_mangle]
pub unsafe extern "C" fn referee_receive(
    receiver: CReceiver,
    carry: *mut u8,
    carry_length: usize,
    pdu: *mut u8,
    pdu_length: usize,
    log: *mut u32,
    log_length: usize,
) -> CReceived {
    let answer = receiver::receive(
        receiver.into(),
        from_raw_parts_mut(carry, carry_length),
        from_raw_parts_mut(pdu, pdu_length),
        from_raw_parts_mut(log, log_length),
    );
    CReceived {
        refusal: answer.refusal,
        wrong_locator: answer.k() as u32,
        words: answer.words as u32,
        receiver: answer.receiver.into(),
    }
}
