//! Cases for the reader.

use super::bytes::count_all;
use super::case::ReadCall;
use super::damage;
use super::draft::Draft;
use crate::rng::Rng;
use second::message;

/// A call of the reader.
pub fn make(rng: &mut Rng) -> ReadCall {
    let (side, src) = received(rng);
    let room = room(rng, side, &src);
    ReadCall { side, src, room }
}

/// A side, and a message of it that is good or damaged in one or more ways, with or without bytes
/// after it.
pub fn received(rng: &mut Rng) -> (u32, Vec<u8>) {
    let draft = damage::drafted(rng, 4);
    let mut src = draft.message();
    let mut side = draft.side;
    if rng.once_in(3) {
        damage_bytes(rng, &draft, &mut src);
    }
    if rng.once_in(12) {
        if let Some(type_byte) = src.first_mut() {
            damage::header(rng, &mut side, type_byte);
        }
    }
    if rng.once_in(3) {
        append_after(rng, &mut src);
    }
    (side, src)
}

/// Damages the bytes of a whole message.
fn damage_bytes(rng: &mut Rng, draft: &Draft, message: &mut Vec<u8>) {
    match rng.below(9) {
        0 => flip_bit(rng, message),
        1 => cut_off(rng, message),
        2 => cut_off_and_count(rng, draft, message),
        3 => insert_and_count(rng, message),
        4 => remove_and_count(rng, message),
        5 | 6 => wrong_content_length(rng, draft, message),
        7 => wrong_length_field(rng, message),
        _ => noise(rng, message),
    }
}

fn flip_bit(rng: &mut Rng, message: &mut [u8]) {
    let at = rng.below(message.len());
    message[at] ^= 1 << rng.below(8);
}

/// The message's end has not come yet.
fn cut_off(rng: &mut Rng, message: &mut Vec<u8>) {
    let length = match rng.below(4) {
        0 => rng.below(5),
        1 => message.len() - 1,
        _ => rng.below(message.len()),
    };
    message.truncate(length);
}

/// The message ends early, often just where a field should start, and its length says so.
fn cut_off_and_count(rng: &mut Rng, draft: &Draft, message: &mut Vec<u8>) {
    let length = if draft.parts.is_empty() || rng.once_in(2) {
        rng.between(5, message.len())
    } else {
        rng.pick(&draft.starts())
    };
    message.truncate(length);
    count_all(message);
}

/// Bytes too many, mostly at the end.
fn insert_and_count(rng: &mut Rng, message: &mut Vec<u8>) {
    let at = if rng.once_in(3) {
        rng.between(5, message.len())
    } else {
        message.len()
    };
    let count = rng.pick(&[1, 1, 1, 2, 4, 8, 30]);
    message.splice(at..at, rng.bytes(count));
    count_all(message);
}

fn remove_and_count(rng: &mut Rng, message: &mut Vec<u8>) {
    let at = rng.between(5, message.len());
    let end = (at + rng.between(1, 4)).min(message.len());
    message.drain(at..end);
    count_all(message);
}

/// The length of a text or bytes field to another: just off, to the message's end, or so large that
/// a sum could wrap.
fn wrong_content_length(rng: &mut Rng, draft: &Draft, message: &mut [u8]) {
    let starts = draft.starts();
    let prefixed: Vec<usize> = (0..starts.len())
        .filter(|&index| draft.parts[index].field.has_length())
        .collect();
    if prefixed.is_empty() {
        return;
    }
    let index = rng.pick(&prefixed);
    let start = starts[index];
    let (true_length, to_end) = (draft.parts[index].content.len(), message.len() - start - 4);
    let length = match rng.below(8) {
        0 => (true_length as u32).wrapping_sub(1),
        1 => true_length as u32 + 1,
        2 => to_end as u32,
        3 => to_end as u32 + 1,
        4 => (start as u32 + 4)
            .wrapping_neg()
            .wrapping_add(rng.below(9) as u32),
        5 => rng.pick(&[0, 0xffff, 0x1_0000, 0x7fff_ffff, 0x8000_0000, 0xffff_ffff]),
        6 => rng.below(to_end + 2) as u32,
        _ => rng.word(),
    };
    message[start..start + 4].copy_from_slice(&length.to_be_bytes());
}

/// The message's own length field to one that is not permitted, or only just off.
fn wrong_length_field(rng: &mut Rng, message: &mut [u8]) {
    let true_length = message.len() as u32 - 1;
    let length = match rng.below(6) {
        0 => rng.below(5) as u32,
        1 => true_length + 1,
        2 => true_length - 1,
        3 => rng.between(65_534, 65_537) as u32,
        4 => rng.pick(&[
            0x7fff_ffff,
            0x8000_0000,
            0x8000_0004,
            0xffff_ffff,
            0xffff_0010,
        ]),
        _ => rng.word(),
    };
    message[1..5].copy_from_slice(&length.to_be_bytes());
}

/// A body of random bytes, mostly small ones, so that counts and lengths are now and then met.
fn noise(rng: &mut Rng, message: &mut Vec<u8>) {
    message.truncate(5);
    for _ in 0..rng.below(60) {
        let byte = match rng.below(4) {
            0 => rng.byte(),
            1 => rng.below(5) as u8,
            _ => 0,
        };
        message.push(byte);
    }
    count_all(message);
}

/// Bytes after the message: any, or what looks like the next one.
fn append_after(rng: &mut Rng, src: &mut Vec<u8>) {
    if rng.once_in(2) {
        let count = rng.pick(&[1, 3, 8, 50]);
        src.extend(rng.bytes(count));
    } else {
        src.extend(Draft::make(rng).message());
    }
}

/// Bytes of list room: just enough, just too few, none, odd, or more than can count.
fn room(rng: &mut Rng, side: u32, src: &[u8]) -> usize {
    let enough = match message::read_message(side, src, usize::MAX) {
        Ok(read) => 4 * read.words.len(),
        Err(_) => rng.below(100),
    };
    match rng.below(64) {
        0..16 => enough,
        16..26 => enough + rng.between(1, 7),
        26..34 => enough.saturating_sub(rng.between(1, 9)),
        34..38 => rng.below(enough + 1),
        38..42 => 0,
        42..63 => enough + rng.below(200),
        _ => rng.pick(&[32_764, 32_767, 32_768, 32_769, 32_772, 40_001, 150_000]),
    }
}
