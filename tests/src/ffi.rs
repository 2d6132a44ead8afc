//! The C calls of the static library, as include/rembulfose.h declares them, and a safe function
//! for each. Nothing checks these declarations against the header: keep them side by side. The structs
//! of an intake are the second program's own, which are laid out as the header's.

use second::crossing::{Answer, NumberAnswer};
use second::intake::{Delivery, Intake};

/// `rembulfose_answer`.
#[repr(C)]
struct RawAnswer {
    number: u32,
    place: u32,
    first: u32,
    second: u32,
}

/// `rembulfose_number`.
#[repr(C)]
struct RawNumber {
    number: u32,
    place: u32,
    format: u32,
    bits: u64,
}

extern "C" {
    fn rembulfose_read_message(
        side: u32,
        src: *const u8,
        src_len: usize,
        list: *mut u8,
        list_len: usize,
    ) -> RawAnswer;

    fn rembulfose_intake_start(side: u32, room_len: usize) -> Intake;

    fn rembulfose_intake_reset(intake: Intake) -> Intake;

    fn rembulfose_intake_take(
        intake: Intake,
        src: *const u8,
        src_len: usize,
        room: *mut u8,
        room_len: usize,
    ) -> Delivery;

    fn rembulfose_write_message(
        side: u32,
        type_byte: u8,
        list: *const u8,
        list_len: usize,
        src: *const u8,
        src_len: usize,
        out: *mut u8,
        out_len: usize,
    ) -> RawAnswer;

    fn rembulfose_compile(
        descriptor: *const u8,
        descriptor_len: usize,
        root: *const u8,
        root_len: usize,
        plan: *mut u8,
        plan_len: usize,
    ) -> RawAnswer;

    fn rembulfose_run(
        plan: *const u8,
        plan_len: usize,
        value: *const u8,
        value_len: usize,
        list: *mut u8,
        list_len: usize,
    ) -> RawAnswer;

    fn rembulfose_write_value(
        plan: *const u8,
        plan_len: usize,
        list: *const u8,
        list_len: usize,
        src: *const u8,
        src_len: usize,
        out: *mut u8,
        out_len: usize,
    ) -> RawAnswer;

    fn rembulfose_find(
        plan: *const u8,
        plan_len: usize,
        value: *const u8,
        value_len: usize,
        path: *const u8,
        path_len: usize,
    ) -> RawAnswer;

    fn rembulfose_find_number(
        plan: *const u8,
        plan_len: usize,
        value: *const u8,
        value_len: usize,
        path: *const u8,
        path_len: usize,
    ) -> RawNumber;
}

impl From<RawNumber> for NumberAnswer {
    fn from(raw: RawNumber) -> NumberAnswer {
        NumberAnswer {
            number: raw.number,
            place: raw.place,
            format: raw.format,
            bits: raw.bits,
        }
    }
}

impl From<RawAnswer> for Answer {
    fn from(raw: RawAnswer) -> Answer {
        Answer {
            number: raw.number,
            place: raw.place,
            first: raw.first,
            second: raw.second,
        }
    }
}

/// Makes a C call: first its numbers, then each slice that it reads and the room that it writes, as
/// pointer and length.
macro_rules! call {
    ($function:ident($($number:ident),*); reads $($read:ident),+ $(; writes $room:ident)?) => {
        // SAFETY: each pointer and length come from one slice, and the room, which is borrowed to be
        // written, overlaps nothing.
        unsafe {
            $function(
                $($number,)*
                $($read.as_ptr(), $read.len(),)+
                $($room.as_mut_ptr(), $room.len(),)?
            )
        }
        .into()
    };
}

pub fn read_message(side: u32, src: &[u8], list: &mut [u8]) -> Answer {
    call!(rembulfose_read_message(side); reads src; writes list)
}

pub fn intake_start(side: u32, room: usize) -> Intake {
    // SAFETY: numbers alone go in and come out.
    unsafe { rembulfose_intake_start(side, room) }
}

pub fn intake_reset(intake: Intake) -> Intake {
    // SAFETY: numbers alone go in and come out.
    unsafe { rembulfose_intake_reset(intake) }
}

/// Inlined, so that the benchmark's calls of a few bytes are timed and not the copies of their structs.
#[inline]
pub fn intake_take(intake: Intake, src: &[u8], room: &mut [u8]) -> Delivery {
    call!(rembulfose_intake_take(intake); reads src; writes room)
}

pub fn write_message(side: u32, type_byte: u8, list: &[u8], src: &[u8], out: &mut [u8]) -> Answer {
    call!(rembulfose_write_message(side, type_byte); reads list, src; writes out)
}

pub fn compile(descriptor: &[u8], root: &[u8], plan: &mut [u8]) -> Answer {
    call!(rembulfose_compile(); reads descriptor, root; writes plan)
}

pub fn run(plan: &[u8], value: &[u8], list: &mut [u8]) -> Answer {
    call!(rembulfose_run(); reads plan, value; writes list)
}

pub fn write_value(plan: &[u8], list: &[u8], src: &[u8], out: &mut [u8]) -> Answer {
    call!(rembulfose_write_value(); reads plan, list, src; writes out)
}

pub fn find(plan: &[u8], value: &[u8], path: &[u8]) -> Answer {
    call!(rembulfose_find(); reads plan, value, path)
}

pub fn find_number(plan: &[u8], value: &[u8], path: &[u8]) -> NumberAnswer {
    call!(rembulfose_find_number(); reads plan, value, path)
}
