//! Cases for the writer: a list, and a source that it points into.

use super::case::WriteCall;
use super::damage;
use super::draft::Draft;
use crate::crossed::list;
use crate::rng::Rng;
use crate::text;
use second::message::{self, Field};

/// What the pairs of a list point into, and the list.
struct Supply {
    words: Vec<u32>,
    src: Vec<u8>,
}

/// A call of the writer on a list that is good or damaged in one or more ways.
pub fn make(rng: &mut Rng) -> WriteCall {
    let draft = damage::drafted(rng, 20);
    let mut supply = supply(rng, &draft);
    if rng.once_in(3) {
        damage_words(rng, &mut supply);
    }
    if rng.once_in(24) {
        damage_source(rng, &mut supply.src);
    }
    let (mut side, mut type_byte) = (draft.side, draft.type_byte);
    if rng.once_in(16) {
        damage::header(rng, &mut side, &mut type_byte);
    }
    let room = room(rng, side, type_byte, &supply);
    let mut list = list(&supply.words);
    if rng.once_in(24) {
        damage_list(rng, &mut list);
    }
    WriteCall {
        side,
        type_byte,
        list,
        src: supply.src,
        room,
    }
}

fn supply(rng: &mut Rng, draft: &Draft) -> Supply {
    match rng.below(8) {
        0..4 => as_read(draft),
        4..7 => packed(rng, draft),
        _ => echoed(rng, draft),
    }
}

/// The source is the message, and the list is what the reader gives for it.
fn as_read(draft: &Draft) -> Supply {
    let mut words = Vec::with_capacity(2 * draft.parts.len());
    for (part, start) in draft.parts.iter().zip(draft.starts()) {
        let content = start + if part.field.has_length() { 4 } else { 0 };
        words.extend([content as u32, part.content.len() as u32]);
    }
    Supply {
        words,
        src: draft.message(),
    }
}

/// The contents lie anywhere in the source, in no order, with or without gaps; equal ones may lie
/// in the same place and others overlap.
fn packed(rng: &mut Rng, draft: &Draft) -> Supply {
    let mut order: Vec<usize> = (0..draft.parts.len()).collect();
    for last in (1..order.len()).rev() {
        order.swap(last, rng.below(last + 1));
    }
    let gap = rng.pick(&[0, 0, 1, 10]);
    let mut src = rng.bytes(gap);
    let mut words = vec![0; 2 * order.len()];
    for index in order {
        let content = &draft.parts[index].content;
        let start = match find(&src, content) {
            Some(start) if rng.once_in(2) => start,
            _ => {
                src.extend(content);
                src.len() - content.len()
            }
        };
        words[2 * index] = start as u32;
        words[2 * index + 1] = content.len() as u32;
        let gap = rng.below(gap + 1);
        src.extend(rng.bytes(gap));
    }
    Supply { words, src }
}

/// Where a short content lies in the source already.
fn find(src: &[u8], content: &[u8]) -> Option<usize> {
    if content.is_empty() || content.len() > 16 || src.len() > 1_000 {
        return None;
    }
    src.windows(content.len())
        .position(|window| window == content)
}

/// All texts are one and the same place of the source, so that a short source can make a long
/// message.
fn echoed(rng: &mut Rng, draft: &Draft) -> Supply {
    let Supply { mut words, mut src } = as_read(draft);
    // A few times 65,535 bytes in all at most: more would only take longer.
    let most = rng
        .pick(&[10, 1_000, 12_000])
        .min(200_000 / (1 + draft.parts.len()));
    let shared = text::good(rng, most);
    let pair = [src.len() as u32, shared.len() as u32];
    for (index, part) in draft.parts.iter().enumerate() {
        if *part.field == Field::Text {
            words[2 * index..2 * index + 2].copy_from_slice(&pair);
        }
    }
    src.extend(shared);
    Supply { words, src }
}

/// Damages the list's words.
fn damage_words(rng: &mut Rng, supply: &mut Supply) {
    let words = &mut supply.words;
    let pairs = words.len() / 2;
    match rng.below(12) {
        0..5 if pairs > 0 => {
            let at = 2 * rng.below(pairs);
            let damaged = damaged_pair(rng, [words[at], words[at + 1]], supply.src.len());
            words[at..at + 2].copy_from_slice(&damaged);
        }
        5 if pairs > 0 => {
            let at = 2 * rng.below(pairs);
            words.drain(at..at + 2);
        }
        6 => {
            let at = 2 * rng.below(pairs + 1);
            let pair = rng.pick(&[[0, 0], [0, 1], [0, 2], [5, 2], [0, 4]]);
            words.splice(at..at, pair);
        }
        7 if pairs > 0 => {
            let (one, other) = (2 * rng.below(pairs), 2 * rng.below(pairs));
            words.swap(one, other);
            words.swap(one + 1, other + 1);
        }
        8 => odd_words(rng, words),
        9 => words.truncate(2 * rng.below(pairs + 1)),
        10 if rng.once_in(16) => lengthen(rng, words),
        _ => words.reverse(),
    }
}

/// A pair outside the source, or at its very end, or off by a little.
fn damaged_pair(rng: &mut Rng, [start, length]: [u32; 2], src_length: usize) -> [u32; 2] {
    let end = src_length as u32;
    let outside = [
        [end, 0],
        [end, 1],
        [end + 1, 0],
        [0, end + 1],
        [0xffff_ffff, 0],
        [0xffff_ffff, 1],
        [0xffff_ffff, 0xffff_ffff],
        [0x8000_0000, 0x8000_0000],
        [1, 0xffff_ffff],
        [start, start.wrapping_neg()],
        [start, length.wrapping_sub(1 << 31)],
    ];
    match rng.below(8) {
        0..3 => rng.pick(&outside),
        3 => [end.wrapping_sub(length), length],
        4 => [end.wrapping_sub(length).wrapping_add(1), length],
        5 => [start, length.wrapping_add(rng.pick(&[1, u32::MAX]))],
        6 => [start.wrapping_add(rng.pick(&[1, u32::MAX])), length],
        _ => [start, 0],
    }
}

/// A word too few or too many.
fn odd_words(rng: &mut Rng, words: &mut Vec<u32>) {
    if rng.once_in(2) {
        words.pop();
    } else {
        let at = rng.below(words.len() + 1);
        words.insert(at, rng.below(8) as u32);
    }
}

/// More pairs, to about as many words as can cross.
fn lengthen(rng: &mut Rng, words: &mut Vec<u32>) {
    let count = rng.pick(&[8_190, 8_191, 8_192, 8_193, 8_194, 9_000, 16_386]);
    words.resize(count, rng.below(3) as u32);
}

/// Damages the bytes that the pairs point to, or takes some away.
fn damage_source(rng: &mut Rng, src: &mut Vec<u8>) {
    match src.len() {
        0 => {}
        length if rng.once_in(2) => src.truncate(length - 1 - rng.below(length.min(3))),
        length => src[rng.below(length)] ^= 1 << rng.below(8),
    }
}

/// Damages the list as bytes: no whole number of words.
fn damage_list(rng: &mut Rng, list: &mut Vec<u8>) {
    let count = rng.between(1, 3);
    if rng.once_in(2) {
        list.extend(rng.bytes(count));
    } else {
        list.truncate(list.len().saturating_sub(count));
    }
}

/// Bytes of output room: just enough, just too few, none or more.
fn room(rng: &mut Rng, side: u32, type_byte: u8, supply: &Supply) -> usize {
    let Supply { words, src } = supply;
    let enough = match message::write_message(side, type_byte, words, src, usize::MAX) {
        Ok(message) => message.len(),
        Err(_) => rng.below(100),
    };
    match rng.below(16) {
        0..6 => enough,
        6..8 => enough.saturating_sub(1),
        8 => rng.below(enough + 1),
        9 => 0,
        10 => enough + 1,
        15 if rng.once_in(32) => enough + rng.pick(&[4_096, 32_768, 65_536]),
        _ => enough + rng.below(200),
    }
}
