//! Descriptions that are sent more than once, with values before and after: good ones, and such as
//! are refused in each way that host/README.md names, among messages whose refusal loses nothing.

use super::table::{complete, data, description_of, message, state, NO_TYPE};
use crate::descriptor::{Descriptors, Second};
use crate::program::Comparison;
use crate::rng::Rng;
use second::descriptor::compile;
use second::message::{CLIENT, SERVER};

/// What one side sent: the side, and whole messages or parts of one.
pub type Record = (u8, Vec<u8>);

pub const CLIENT_SIDE: u8 = CLIENT as u8;
pub const SERVER_SIDE: u8 = SERVER as u8;

/// Bytes of a descriptor or value, so that two of them fit into a message.
const MOST_BYTES: usize = 32_000;
const MOST_WORDS: usize = 8_192;
/// Each annotation of two empty texts has four words.
const TOO_MANY_ANNOTATIONS: u16 = (MOST_WORDS / 4) as u16;

/// Where a T has its count of annotations and its cardinality, if it has no annotations.
const ANNOTATIONS: usize = 5;
const CARDINALITY: usize = 15;
/// Types that neither side knows; some are near to those that are known.
const UNKNOWN_TYPES: [u8; 8] = [b'Q', b't', b'd', b'c', b'U', 0, 0x7f, 0xff];
/// Sides that know no message.
pub const UNKNOWN_SIDES: [u8; 4] = [2, 3, 0x80, 0xff];

/// An accepted descriptor with its root, and a value for it, good or not.
struct Described {
    descriptor: Vec<u8>,
    root: Vec<u8>,
    value: Vec<u8>,
}

impl Described {
    fn make(rng: &mut Rng) -> Described {
        loop {
            let case = Descriptors::<Second>::random(&mut Rng::of_case(rng.draw(), 0));
            let (descriptor, root) = (case.call.descriptor, case.call.root);
            let value = case.running.expect("a value").value;
            let is_short = descriptor.len().max(value.len()) <= MOST_BYTES;
            if is_short && compile(&descriptor, &root, MOST_WORDS).is_ok() {
                return Described {
                    descriptor,
                    root,
                    value,
                };
            }
        }
    }

    /// The descriptor or its root altered, so that it is refused.
    fn spoilt(&self, rng: &mut Rng) -> (Vec<u8>, Vec<u8>) {
        let (mut descriptor, mut root) = (self.descriptor.clone(), self.root.clone());
        match rng.below(3) {
            0 => root[rng.below(16)] ^= 0x55,
            1 => descriptor.insert(0, 12), // a tag that is not known
            _ => descriptor.push(0),       // a block that is cut after its tag
        }
        (descriptor, root)
    }

    fn description(&self, rng: &mut Rng) -> Vec<u8> {
        let itself = (&self.descriptor[..], &self.root[..]);
        let input = rng.pick(&[NO_TYPE, itself]);
        description_of(input, itself)
    }

    fn state(&self) -> Vec<u8> {
        state(&self.descriptor, &self.root)
    }
}

/// Descriptions, some of them sent again, with values after each.
pub fn records(rng: &mut Rng) -> Vec<Record> {
    let described = Described::make(rng);
    match rng.below(8) {
        0 | 1 => return calm(rng, &described),
        2 => return behind_length(rng, &described),
        _ => {}
    }
    let mut records = Vec::new();
    if rng.once_in(3) {
        records.extend(values(rng, &described));
    }
    records.extend(descriptions(rng, &described));
    for _ in 0..rng.between(1, 3) {
        records.extend(values(rng, &described));
        records.push(again(rng, &described));
    }
    records.extend(values(rng, &described));
    records
}

/// Good descriptions, both or one or none.
fn descriptions(rng: &mut Rng, described: &Described) -> Vec<Record> {
    let mut records = Vec::new();
    if !rng.once_in(4) {
        records.push((SERVER_SIDE, described.description(rng)));
    }
    if !rng.once_in(4) {
        records.push((SERVER_SIDE, described.state()));
    }
    records
}

/// A length that is not permitted, not of the server, and bytes behind it among descriptions and
/// values.
fn behind_length(rng: &mut Rng, described: &Described) -> Vec<Record> {
    let unknown_side = rng.pick(&UNKNOWN_SIDES);
    let side = rng.pick(&[CLIENT_SIDE, unknown_side, unknown_side]);
    let mut records = descriptions(rng, described);
    let refused = rng.pick(&[&message(b'S', b""), &described.state()]).clone();
    records.push((side, with_bad_length(rng, refused)));
    for _ in 0..rng.between(1, 3) {
        records.extend(descriptions(rng, described));
        if rng.once_in(2) {
            let length = rng.between(1, 30);
            records.push((side, rng.bytes(length)));
        }
        records.extend(values(rng, described));
    }
    records
}

/// Good values, with or without good descriptions before them: mostly nothing is refused.
fn calm(rng: &mut Rng, described: &Described) -> Vec<Record> {
    let mut messages = Vec::new();
    if !rng.once_in(3) {
        messages.push(described.description(rng));
    }
    if !rng.once_in(3) {
        messages.push(described.state());
    }
    messages.push(data(&described.value));
    messages.push(complete(&described.root, &described.value));
    let of_server = |message| (SERVER_SIDE, message);
    messages.into_iter().map(of_server).collect()
}

/// A row and state data, or one of them, each damaged at times.
fn values(rng: &mut Rng, described: &Described) -> Vec<Record> {
    let mut records = Vec::new();
    if !rng.once_in(4) {
        records.push((SERVER_SIDE, data(&value(rng, described))));
    }
    if !rng.once_in(4) {
        let mut root = described.root.clone();
        if rng.once_in(8) {
            root = rng.pick(&[[0; 16], [0xee; 16]]).to_vec();
        }
        records.push((SERVER_SIDE, complete(&root, &value(rng, described))));
    }
    records
}

fn value(rng: &mut Rng, described: &Described) -> Vec<u8> {
    let mut value = described.value.clone();
    match rng.below(8) {
        0 => value.push(0),
        1 => value.truncate(rng.below(value.len() + 1)),
        _ => {}
    }
    value
}

/// A description sent again, good or refused or not whole, or a message that describes nothing.
fn again(rng: &mut Rng, described: &Described) -> Record {
    let message = match rng.once_in(2) {
        true => described.description(rng),
        false => described.state(),
    };
    let unknown_side = rng.pick(&UNKNOWN_SIDES);
    let any_side = rng.pick(&[SERVER_SIDE, CLIENT_SIDE, CLIENT_SIDE, unknown_side]);
    match rng.below(15) {
        0 => (SERVER_SIDE, message),
        1 => (rng.pick(&[CLIENT_SIDE, unknown_side]), message),
        2 => (SERVER_SIDE, with_type(message, rng.pick(&UNKNOWN_TYPES))),
        3 => (unknown_side, data(&described.value)),
        4 => (SERVER_SIDE, with_bad_fields(rng, message)),
        5 | 6 => (SERVER_SIDE, with_spoilt(rng, described)),
        7 | 8 => (any_side, with_bad_length(rng, message)),
        9 | 10 => (any_side, not_whole(rng, message)),
        _ => describing_nothing(rng),
    }
}

fn with_type(mut message: Vec<u8>, type_byte: u8) -> Vec<u8> {
    message[0] = type_byte;
    message
}

fn with_length(mut message: Vec<u8>, length: u32) -> Vec<u8> {
    message[1..5].copy_from_slice(&length.to_be_bytes());
    message
}

/// Refused with 2.
fn with_bad_length(rng: &mut Rng, message: Vec<u8>) -> Vec<u8> {
    with_length(message, rng.pick(&[0, 3, 65_536, u32::MAX]))
}

/// With its length too large, or without its last bytes: what its side sends next is taken for the
/// rest of it.
fn not_whole(rng: &mut Rng, mut message: Vec<u8>) -> Vec<u8> {
    if rng.once_in(2) {
        message.truncate(rng.between(1, message.len() - 1));
        return message;
    }
    let length = message.len() as u32 + rng.below(300) as u32;
    with_length(message, length)
}

/// Refused with 4, 5, 6 or 31. An s has no field whose content can be refused, and no run.
fn with_bad_fields(rng: &mut Rng, mut message: Vec<u8>) -> Vec<u8> {
    let is_state = message[0] == b's';
    match rng.below(if is_state { 2 } else { 4 }) {
        0 => message.push(0),
        1 => message.truncate(message.len() - 1),
        2 => message[CARDINALITY] = rng.pick(b"\0xNn"),
        _ => {
            let count = TOO_MANY_ANNOTATIONS.to_be_bytes();
            let texts = vec![0; 8 * usize::from(TOO_MANY_ANNOTATIONS)];
            message.splice(ANNOTATIONS..ANNOTATIONS + 2, [&count[..], &texts].concat());
        }
    }
    let length = message.len() as u32 - 1;
    with_length(message, length)
}

/// A T or s of which a descriptor is refused.
fn with_spoilt(rng: &mut Rng, described: &Described) -> Vec<u8> {
    let (descriptor, root) = described.spoilt(rng);
    let spoilt = (&descriptor[..], &root[..]);
    let good = (&described.descriptor[..], &described.root[..]);
    match rng.below(3) {
        0 => description_of(spoilt, good),
        1 => description_of(rng.pick(&[good, NO_TYPE]), spoilt),
        _ => state(&descriptor, &root),
    }
}

/// A message that is refused and loses nothing.
fn describing_nothing(rng: &mut Rng) -> Record {
    match rng.below(5) {
        0 => (CLIENT_SIDE, message(rng.pick(&UNKNOWN_TYPES), b"")),
        1 => (CLIENT_SIDE, message(b'S', b"left")),
        2 => (SERVER_SIDE, message(b'Z', &[0, 0, b'X'])),
        3 => (SERVER_SIDE, message(b'D', &[0, 2, 0, 0, 0, 0])),
        _ => (SERVER_SIDE, message(b'C', b"short")),
    }
}
