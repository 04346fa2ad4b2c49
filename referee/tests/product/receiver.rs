//! The product's receiver, as the tests call it.

use crate::lent::{Lent, LentLog};
use std::cell::Cell;

/// A receiver. Whether the sequence is known is a byte here, so that one that
/// is neither 1 nor 0 shows, and so is whether applied services are.
#[repr(C)]
#[derive(Clone, Copy, Debug, PartialEq, Eq)]
pub struct Receiver {
    pub mode: u8,
    pub stream: u8,
    pub register: u8,
    /// Bit p for program p.
    pub entitled: u8,
    pub known: u8,
    pub sequence: u8,
    pub held: u16,
    pub number: u8,
    pub serviced: u8,
    pub services: u8,
    pub delivered: u32,
    pub missing: u32,
    pub last: u8,
}

/// The answer to opening a receiver; refused, the receiver is all 0.
#[repr(C)]
#[derive(Clone, Copy, Debug, PartialEq, Eq)]
pub struct Opened {
    pub refusal: u32,
    pub receiver: Receiver,
}

/// The answer to receiving a PDU or marking one lost; refused, no words are
/// written and the receiver is as it came.
#[repr(C)]
#[derive(Clone, Copy, Debug, PartialEq, Eq)]
pub struct Received {
    pub refusal: u32,
    pub wrong_locator: u32,
    pub words: u32,
    pub receiver: Receiver,
}

/// The answer to the same calls in place: the receiver stands where it stood.
#[repr(C)]
#[derive(Clone, Copy, Debug, PartialEq, Eq)]
pub struct Stepped {
    pub refusal: u32,
    pub wrong_locator: u32,
    pub words: u32,
}

/// A receiver that is stepped in place. Bytes before and after it belong to
/// nobody and must never change.
#[repr(C)]
#[derive(Clone, Copy, Debug, PartialEq, Eq)]
pub struct Place {
    before: [u8; 24],
    pub receiver: Receiver,
    after: [u8; 24],
}

impl Place {
    /// A place for this receiver.
    pub fn of(receiver: Receiver) -> Place {
        Place {
            before: [0xA5; 24],
            receiver,
            after: [0x5A; 24],
        }
    }

    /// Where the receiver stands, as it is handed over.
    fn pointer(&mut self) -> *mut Receiver {
        let place: *mut Place = self;
        unsafe { &raw mut (*place).receiver }
    }
}

extern "C" {
    fn barzhilup_open_receiver(mode: u8, stream: u8) -> Opened;
    fn barzhilup_open_receiver_with(mode: u8, stream: u8, register: u8) -> Opened;
    fn barzhilup_open_receiver_entitled(
        mode: u8,
        stream: u8,
        register: u8,
        programs: *const u8,
        count: usize,
    ) -> Opened;
    fn barzhilup_receive(
        receiver: Receiver,
        carry: *mut u8,
        carry_length: usize,
        pdu: *mut u8,
        pdu_length: usize,
        log: *mut u32,
        log_length: usize,
    ) -> Received;
    fn barzhilup_receive_marked(
        receiver: Receiver,
        carry: *mut u8,
        carry_length: usize,
        pdu: *mut u8,
        pdu_length: usize,
        marks: *const u8,
        count: usize,
        log: *mut u32,
        log_length: usize,
    ) -> Received;
    fn barzhilup_mark_lost(receiver: Receiver, log: *mut u32, log_length: usize) -> Received;
    fn barzhilup_receive_in_place(
        receiver: *mut Receiver,
        carry: *mut u8,
        carry_length: usize,
        pdu: *mut u8,
        pdu_length: usize,
        log: *mut u32,
        log_length: usize,
    ) -> Stepped;
    fn barzhilup_mark_lost_in_place(
        receiver: *mut Receiver,
        log: *mut u32,
        log_length: usize,
    ) -> Stepped;
}

/// Opens a receiver.
pub fn open(mode: u8, stream: u8) -> Opened {
    unsafe { barzhilup_open_receiver(mode, stream) }
}

/// Opens a receiver with what the register of its CRCs starts at.
pub fn open_with(mode: u8, stream: u8, register: u8) -> Opened {
    unsafe { barzhilup_open_receiver_with(mode, stream, register) }
}

/// Opens a receiver that is entitled to these programs.
pub fn open_entitled(mode: u8, stream: u8, register: u8, programs: &Lent) -> Opened {
    let programs = programs.bytes();
    unsafe {
        barzhilup_open_receiver_entitled(mode, stream, register, programs.as_ptr(), programs.len())
    }
}

/// Receives a PDU.
pub fn receive(
    receiver: Receiver,
    carry: &mut Lent,
    pdu: &mut Lent,
    log: &mut LentLog,
) -> Received {
    receive_part(
        receiver,
        carry.bytes_mut(),
        pdu.bytes_mut(),
        log.words_mut(),
    )
}

/// Receives a PDU that is a part of a lent buffer, with a part of a lent log.
pub fn receive_part(
    receiver: Receiver,
    carry: &mut [u8],
    pdu: &mut [u8],
    log: &mut [u32],
) -> Received {
    unsafe {
        barzhilup_receive(
            receiver,
            carry.as_mut_ptr(),
            carry.len(),
            pdu.as_mut_ptr(),
            pdu.len(),
            log.as_mut_ptr(),
            log.len(),
        )
    }
}

/// Receives a PDU of whose header some places are marked.
pub fn receive_marked(
    receiver: Receiver,
    carry: &mut Lent,
    pdu: &mut Lent,
    marks: &Lent,
    log: &mut LentLog,
) -> Received {
    let carry = carry.bytes_mut();
    let pdu = pdu.bytes_mut();
    let marks = marks.bytes();
    let log = log.words_mut();
    unsafe {
        barzhilup_receive_marked(
            receiver,
            carry.as_mut_ptr(),
            carry.len(),
            pdu.as_mut_ptr(),
            pdu.len(),
            marks.as_ptr(),
            marks.len(),
            log.as_mut_ptr(),
            log.len(),
        )
    }
}

/// Marks a PDU lost.
pub fn mark_lost(receiver: Receiver, log: &mut LentLog) -> Received {
    let log = log.words_mut();
    unsafe { barzhilup_mark_lost(receiver, log.as_mut_ptr(), log.len()) }
}

thread_local! {
    /// How many calls were made in place.
    static IN_PLACE: Cell<u64> = const { Cell::new(0) };
}

/// How many calls this thread has made in place.
pub fn calls_in_place() -> u64 {
    IN_PLACE.get()
}

/// Receives a PDU in place.
pub fn receive_in_place(
    place: &mut Place,
    carry: &mut Lent,
    pdu: &mut Lent,
    log: &mut LentLog,
) -> Stepped {
    let carry = carry.bytes_mut();
    let pdu = pdu.bytes_mut();
    let log = log.words_mut();
    IN_PLACE.set(IN_PLACE.get() + 1);
    unsafe {
        barzhilup_receive_in_place(
            place.pointer(),
            carry.as_mut_ptr(),
            carry.len(),
            pdu.as_mut_ptr(),
            pdu.len(),
            log.as_mut_ptr(),
            log.len(),
        )
    }
}

/// Marks a PDU lost in place.
pub fn mark_lost_in_place(place: &mut Place, log: &mut LentLog) -> Stepped {
    let log = log.words_mut();
    IN_PLACE.set(IN_PLACE.get() + 1);
    unsafe { barzhilup_mark_lost_in_place(place.pointer(), log.as_mut_ptr(), log.len()) }
}
