//! The calls as a C host makes them: numbers and lent bytes in, one answer and written bytes out.

use crate::descriptor;
use crate::entry::Entry;
use crate::find;
use crate::message;
use crate::number;
use crate::off_descriptor;
use crate::plan::Plan;
use crate::refusal::{self, Refusal};
use crate::supply;
use crate::value;
use crate::words;

/// The four numbers that every call returns.
#[derive(Clone, Copy, Debug, Default, PartialEq, Eq)]
pub struct Answer {
    pub number: u32,
    pub place: u32,
    pub first: u32,
    pub second: u32,
}

impl Answer {
    /// On success number and place are 0 (R1.2).
    fn accepted(first: usize, second: usize) -> Answer {
        Answer {
            number: 0,
            place: 0,
            first: first as u32,
            second: second as u32,
        }
    }

    /// A refusal has a number and a place, and nothing else (R1.1).
    fn refused(refusal: Refusal) -> Answer {
        Answer {
            number: refusal.number,
            place: refusal.place,
            first: 0,
            second: 0,
        }
    }
}

/// `rembulfose_read_message`: first = bytes used, second = words written.
pub fn read_message(side: u32, src: &[u8], list: &mut [u8]) -> Answer {
    match message::read_message(side, src, words::room(list)) {
        Ok(read) => {
            words::put(&read.words, list);
            Answer::accepted(read.used, read.words.len())
        }
        Err(refusal) => Answer::refused(refusal),
    }
}

/// `rembulfose_write_message`: first = bytes written.
pub fn write_message(side: u32, type_byte: u8, list: &[u8], src: &[u8], out: &mut [u8]) -> Answer {
    put_out(written(side, type_byte, list, src, out.len()), out)
}

/// Puts out the bytes that a writer gives, whose refusals all have the place 0.
fn put_out(given: Result<Vec<u8>, u32>, out: &mut [u8]) -> Answer {
    match given {
        Ok(given) => {
            out[..given.len()].copy_from_slice(&given);
            Answer::accepted(given.len(), 0)
        }
        Err(number) => Answer::refused(Refusal::at_start(number)),
    }
}

/// A list that cannot cross is 6 at 6's own turn, so an unknown type byte comes before it (R9.5).
fn written(side: u32, type_byte: u8, list: &[u8], src: &[u8], room: usize) -> Result<Vec<u8>, u32> {
    if message::layout(side, type_byte).is_none() {
        return Err(refusal::UNKNOWN_TYPE);
    }
    let words = words::from_bytes(list).ok_or(refusal::BAD_FIELD)?;
    message::write_message(side, type_byte, &words, src, room)
}

/// `rembulfose_run`: first = words written.
pub fn run(plan: &[u8], value: &[u8], list: &mut [u8]) -> Answer {
    answer(listed(plan, value, words::room(list)), list)
}

/// Puts out the words of a call that gives nothing else.
fn answer(given: Result<Vec<u32>, Refusal>, room: &mut [u8]) -> Answer {
    match given {
        Ok(given) => {
            words::put(&given, room);
            Answer::accepted(given.len(), 0)
        }
        Err(refusal) => Answer::refused(refusal),
    }
}

/// A plan that cannot cross is 33, which comes first anyway (R9.4).
fn listed(plan: &[u8], value: &[u8], room_words: usize) -> Result<Vec<u32>, Refusal> {
    match words::from_bytes(plan) {
        Some(plan) => value::run(&plan, value, room_words),
        None => Err(Refusal::at_start(refusal::BAD_PLAN)),
    }
}

/// `rembulfose_write_value`: first = bytes written.
pub fn write_value(plan: &[u8], list: &[u8], src: &[u8], out: &mut [u8]) -> Answer {
    put_out(supplied(plan, list, src, out.len()), out)
}

/// A list that cannot cross is 34 at 34's own turn, so a plan that is not well formed comes before
/// it (R9.5).
fn supplied(plan: &[u8], list: &[u8], src: &[u8], room: usize) -> Result<Vec<u8>, u32> {
    let plan = words::from_bytes(plan).and_then(|words| Plan::read(&words));
    let plan = plan.ok_or(refusal::BAD_PLAN)?;
    let list = words::from_bytes(list).ok_or(refusal::NO_VALUE)?;
    supply::write_value(&plan, &list, src, room)
}

/// `rembulfose_find`: first = start, second = length.
pub fn find(plan: &[u8], value: &[u8], path: &[u8]) -> Answer {
    match found(plan, value, path) {
        Ok((_, entry)) => Answer::accepted(entry.start as usize, entry.length as usize),
        Err(refusal) => Answer::refused(refusal),
    }
}

/// The plan's words and the entry found. A path that cannot cross is 35 at 35's own turn: after all
/// faults of the value (R9.5).
fn found(plan: &[u8], value: &[u8], path: &[u8]) -> Result<(Vec<u32>, Entry), Refusal> {
    let plan = words::from_bytes(plan).ok_or(Refusal::at_start(refusal::BAD_PLAN))?;
    let list = find::whole_list(&plan, value)?;
    let path = words::from_bytes(path).ok_or(Refusal::at_start(refusal::NO_ENTRY))?;
    let entry = find::named(&list, &path)?;
    Ok((plan, entry))
}

/// What `rembulfose_find_number` returns.
#[derive(Clone, Copy, Debug, Default, PartialEq, Eq)]
pub struct NumberAnswer {
    pub number: u32,
    pub place: u32,
    pub format: u32,
    pub bits: u64,
}

/// `rembulfose_find_number`: what finding refuses, and then 37 (R1.11).
pub fn find_number(plan: &[u8], value: &[u8], path: &[u8]) -> NumberAnswer {
    let found = found(plan, value, path);
    match found.and_then(|(plan, entry)| number::number(&plan, value, entry)) {
        Ok(found) => NumberAnswer {
            number: 0,
            place: 0,
            format: found.format,
            bits: found.bits,
        },
        Err(refusal) => NumberAnswer {
            number: refusal.number,
            place: refusal.place,
            format: 0,
            bits: 0,
        },
    }
}

/// `rembulfose_compile`: first = words written.
pub fn compile(descriptor: &[u8], root: &[u8], plan: &mut [u8]) -> Answer {
    answer(
        descriptor::compile(descriptor, root, words::room(plan)),
        plan,
    )
}

/// What `rembulfose_compile` and then `rembulfose_run` must come to where the plan had room: the
/// rules read off the descriptor, their list room counted as the call counts it (R4.10).
pub fn run_off_descriptor(descriptor: &[u8], root: &[u8], value: &[u8], list: &mut [u8]) -> Answer {
    let room = words::room(list);
    answer(off_descriptor::run(descriptor, root, value, room), list)
}
