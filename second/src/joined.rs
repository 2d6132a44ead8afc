//! Bytes of one side that are all there, read message after message (R10.8): what an intake must
//! come to, however they are cut.

use crate::message::{read_message, HEAD};
use crate::refusal::{self, Refusal};

/// The messages of some bytes, in their order, and how the reading ends.
#[derive(Debug, PartialEq, Eq)]
pub struct Joined<'a> {
    pub messages: Vec<&'a [u8]>,
    pub end: End<'a>,
}

#[derive(Debug, PartialEq, Eq)]
pub enum End<'a> {
    /// What is left is no whole message, and lacks so many bytes of a head or of the message.
    Unfinished {
        left: &'a [u8],
        lacks: usize,
    },
    Refused(Refusal),
}

/// Reads the bytes of a side, as an intake with so many bytes of room must.
pub fn read(side: u32, room: usize, mut bytes: &[u8]) -> Joined<'_> {
    let mut messages = Vec::new();
    loop {
        match next(side, room, bytes) {
            Ok(length) => {
                let (message, rest) = bytes.split_at(length);
                messages.push(message);
                bytes = rest;
            }
            Err(end) => return Joined { messages, end },
        }
    }
}

/// How many bytes the next message has, or how the reading ends. The reader decides (R1.6), and the
/// room after its 2, but before it if there is no room for a head.
fn next(side: u32, room: usize, bytes: &[u8]) -> Result<usize, End<'_>> {
    let read = read_message(side, bytes, usize::MAX);
    let number = read.as_ref().map_or_else(|refusal| refusal.number, |_| 0);
    let needs = needs(bytes);
    let larger = needs > room && number != refusal::BAD_LENGTH;
    if !bytes.is_empty() && (room < HEAD || larger) {
        return Err(End::Refused(Refusal::at_start(refusal::OUTPUT_ROOM)));
    }
    match read {
        Ok(read) => Ok(read.used),
        Err(_) if number == refusal::NOT_WHOLE => Err(End::Unfinished {
            left: bytes,
            lacks: needs - bytes.len(),
        }),
        Err(refusal) => Err(End::Refused(refusal)),
    }
}

/// How many bytes there must be: a head, and when that is there, what it says.
fn needs(bytes: &[u8]) -> usize {
    match bytes.first_chunk() {
        Some(&[_, a, b, c, d]) => 1 + u32::from_be_bytes([a, b, c, d]) as usize,
        None => HEAD,
    }
}
