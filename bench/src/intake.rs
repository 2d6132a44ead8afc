//! The intake on what the demo's server sends, handed in by deliveries of one size: beside the second
//! program's intake, and beside the least that a host must do who has all of it, which is to copy it
//! once and to read each message there with the library's own reader.
//!
//! The aim is about deliveries of 1,448 bytes, what a packet carries: at most 1.3 times as long as
//! copying and reading, so a ratio of 0.77 or more.

use crate::race::race;
use crate::table;
use compare::ffi;
use compare::panel::joined::FIRST_LINE;
use second::intake::{self, Delivery, Intake};
use second::message::SERVER;
use std::hint::black_box;

const CAPTURE: &[u8] = include_bytes!("../../demo/acid-batches.capture");

/// So many times the server's bytes are sent: four of the largest deliveries, and all buffers together
/// stay in a cache.
const TIMES: usize = 27;

/// Room for any message, `REMBULFOSE_MOST_MESSAGE`, and for any list that can cross, `REMBULFOSE_ROOM`.
const ROOM: usize = 65_536;
const LIST: usize = 32_768;

pub fn print() {
    let stream = server_bytes(CAPTURE).repeat(TIMES);
    let name = format!("Intake, {} bytes of a server", stream.len());
    table::head_of(&name, ["second", "copy+read"]);
    for (name, size) in [
        ("deliveries of one byte", 1),
        ("deliveries of 16 bytes", 16),
        ("deliveries of 1,448 bytes", 1_448),
        ("deliveries of 65,536 bytes", 65_536),
    ] {
        table::row(name, times(&stream, size));
    }
}

/// What the server sends in a side-marked capture: after its first line, each record has a side, a
/// length of four bytes, and so many bytes.
fn server_bytes(capture: &[u8]) -> Vec<u8> {
    let mut records = capture.strip_prefix(FIRST_LINE).expect("side-marked");
    let mut bytes = Vec::new();
    while let Some((&[side, a, b, c, d], rest)) = records.split_first_chunk() {
        let (record, rest) = rest.split_at(u32::from_be_bytes([a, b, c, d]) as usize);
        if u32::from(side) == SERVER {
            bytes.extend(record);
        }
        records = rest;
    }
    bytes
}

/// Microseconds of the library, of the second program, and of copying and reading.
fn times(stream: &[u8], size: usize) -> [f64; 3] {
    let (mut ours, mut theirs) = (vec![0; ROOM], vec![0; ROOM]);
    let (mut copy, mut list) = (vec![0; stream.len()], vec![0; LIST]);
    let messages = copied_and_read(stream, &mut copy, &mut list);
    race([
        &mut || {
            let given = taken(black_box(stream), size, &mut ours, ffi::intake_take);
            assert_eq!(given, messages);
        },
        &mut || {
            let given = taken(black_box(stream), size, &mut theirs, intake::take);
            assert_eq!(given, messages);
        },
        &mut || {
            let read = copied_and_read(black_box(stream), &mut copy, &mut list);
            assert_eq!(read, messages);
        },
    ])
}

/// A call that takes: state, source and room.
trait Take: Fn(Intake, &[u8], &mut [u8]) -> Delivery {}
impl<T: Fn(Intake, &[u8], &mut [u8]) -> Delivery> Take for T {}

/// How many messages are given in deliveries of a size, at whose end nothing is held.
fn taken(stream: &[u8], size: usize, room: &mut [u8], take: impl Take) -> usize {
    let start = intake::start(SERVER, room.len());
    let (mut intake, mut messages) = (start, 0);
    for delivery in stream.chunks(size) {
        messages += delivered(&mut intake, delivery, room, &take);
    }
    assert_eq!(intake, start);
    messages
}

/// How many messages a delivery gives: the loop of the header.
fn delivered(intake: &mut Intake, mut delivery: &[u8], room: &mut [u8], take: &impl Take) -> usize {
    let mut messages = 0;
    loop {
        let answer = take(*intake, delivery, room);
        *intake = answer.intake;
        delivery = &delivery[answer.taken as usize..];
        if answer.length == 0 {
            return messages;
        }
        messages += 1;
    }
}

/// How many messages there are, all of them good.
fn copied_and_read(stream: &[u8], copy: &mut [u8], list: &mut [u8]) -> usize {
    copy.copy_from_slice(stream);
    let (mut rest, mut messages) = (&copy[..], 0);
    while !rest.is_empty() {
        let answer = ffi::read_message(SERVER, rest, list);
        assert_eq!(answer.number, 0);
        rest = &rest[answer.first as usize..];
        messages += 1;
    }
    messages
}
