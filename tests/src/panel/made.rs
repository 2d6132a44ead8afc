//! Captures made at random: descriptions with rows of them, good and damaged, among other messages,
//! and descriptions that are sent again. In many of them records cut messages.

use super::again::{self, Record};
use super::cuts;
use super::joined::FIRST_LINE;
use super::table::{complete, data, description, state};
use crate::descriptor::{Descriptors, Second};
use crate::message::draft::Draft;
use crate::program::Comparison;
use crate::rng::Rng;
use second::message::CLIENT;
use std::iter;

/// Bytes of a message's body, so that its length is permitted.
const MOST_BODY: usize = 65_000;

pub fn capture(rng: &mut Rng) -> Vec<u8> {
    let is_marked = !rng.once_in(4);
    let mut capture = if is_marked { FIRST_LINE } else { &[] }.to_vec();
    if rng.once_in(30) {
        return capture; // nothing to check
    }
    if !is_marked && rng.once_in(3) {
        return of_client(rng);
    }
    for (side, bytes) in records(rng) {
        if is_marked {
            capture.push(side);
            capture.extend((bytes.len() as u32).to_be_bytes());
        }
        capture.extend(bytes);
    }
    match rng.below(12) {
        0..=3 => damage(rng, &mut capture),
        4 => capture.extend(&[0, 0, 0, 0][..rng.between(1, 4)]), // of a record's head
        _ => {}
    }
    capture
}

/// Messages of the client alone.
fn of_client(rng: &mut Rng) -> Vec<u8> {
    let mut bytes = Vec::new();
    for _ in 0..rng.between(1, 4) {
        let draft = iter::repeat_with(|| Draft::make(rng)).find(|draft| draft.side == CLIENT);
        bytes.extend(draft.expect("one of the client").message());
    }
    bytes
}

/// Records of descriptions that are sent again, or of any messages, or both.
fn records(rng: &mut Rng) -> Vec<Record> {
    let mut records = Vec::new();
    if rng.once_in(2) {
        records.extend((0..rng.between(1, 6)).map(|_| messages(rng)));
    }
    if !rng.once_in(3) || records.is_empty() {
        records.extend(again::records(rng));
    }
    if rng.once_in(5) {
        records.extend(cuts::ends(rng));
    }
    match rng.below(5) {
        0 => joined(records),
        1 | 2 => cuts::cut(rng, records),
        _ => records,
    }
}

/// With the records of one side after another in one.
fn joined(records: Vec<Record>) -> Vec<Record> {
    let mut all: Vec<Record> = Vec::new();
    for (side, bytes) in records {
        match all.last_mut() {
            Some((last, before)) if *last == side => before.extend(bytes),
            _ => all.push((side, bytes)),
        }
    }
    all
}

/// Messages of one side: a description and a value by it, or one message of any type.
fn messages(rng: &mut Rng) -> Record {
    if rng.once_in(3) {
        let draft = Draft::make(rng);
        return (draft.side as u8, draft.message());
    }
    let case = Descriptors::<Second>::random(&mut Rng::of_case(rng.draw(), 0));
    let (descriptor, root) = (&case.call.descriptor, &case.call.root);
    if root.len() != 16 || descriptor.len() > MOST_BODY {
        return (1, data(&[]));
    }
    let value = case.running.map(|running| running.value);
    let value = value
        .filter(|value| value.len() <= MOST_BODY)
        .unwrap_or_default();
    let bytes = match rng.once_in(4) {
        true => [state(descriptor, root), complete(root, &value)].concat(),
        false => [description(descriptor, root), data(&value)].concat(),
    };
    (1, bytes)
}

/// A few bytes altered, or the end cut off.
fn damage(rng: &mut Rng, capture: &mut Vec<u8>) {
    if rng.once_in(2) {
        capture.truncate(rng.below(capture.len() + 1));
        return;
    }
    for _ in 0..rng.between(1, 4) {
        let at = rng.below(capture.len());
        capture[at] = rng.pick(&[0, 1, 0x7f, 0x80, 0xff, capture[at] ^ 1, capture[at] ^ 0x10]);
    }
}
