//! Drafts for both calls, and damage that both can meet: to a draft's contents, and to the side and
//! type byte.

use super::draft::{Draft, KINDS};
use crate::rng::Rng;
use crate::text;
use second::message::Field;

/// A draft, damaged once in four times. Of 1,024 about four are long and so many large.
pub fn drafted(rng: &mut Rng, large: usize) -> Draft {
    let mut made = match rng.below(1_024) {
        0..4 => Draft::make_long(rng),
        number if number < 4 + large => Draft::make_large(rng),
        _ => Draft::make(rng),
    };
    if rng.once_in(4) {
        draft(rng, &mut made);
    }
    made
}

/// Damages the contents of some field, or which fields there are. The message that is put together
/// after it has true lengths everywhere. Where the draft has no such field nothing is done.
fn draft(rng: &mut Rng, draft: &mut Draft) {
    match rng.below(9) {
        0 => choice(rng, draft),
        1 | 2 => spoil_text(rng, draft),
        3 => brush_text(rng, draft),
        4 => count(rng, draft),
        5 => width(rng, draft),
        6 => any_byte(rng, draft),
        7 => fewer_or_more_parts(rng, draft),
        _ => swap_parts(rng, draft),
    }
}

/// A byte of a named set, or D's 1, to something else.
fn choice(rng: &mut Rng, draft: &mut Draft) {
    let chosen = |field: &Field| matches!(field, Field::OneOf(_) | Field::One);
    if let Some(part) = draft.pick(rng, chosen) {
        part.content = match part.content.len() {
            1 => vec![near(rng, part.content[0])],
            _ => rng
                .pick(&[[0, 0], [0, 2], [1, 0], [1, 1], [0xff, 0xff]])
                .to_vec(),
        };
    }
}

/// Another byte, with preference for a neighbour or one bit off.
fn near(rng: &mut Rng, byte: u8) -> u8 {
    match rng.below(4) {
        0 => byte.wrapping_add(1),
        1 => byte.wrapping_sub(1),
        2 => byte ^ (1 << rng.below(8)),
        _ => rng.byte(),
    }
}

fn spoil_text(rng: &mut Rng, draft: &mut Draft) {
    if let Some(part) = draft.pick(rng, |field| *field == Field::Text) {
        text::spoil(rng, &mut part.content);
    }
}

fn brush_text(rng: &mut Rng, draft: &mut Draft) {
    if let Some(part) = draft.pick(rng, |field| *field == Field::Text) {
        text::brush(rng, &mut part.content);
    }
}

/// A run's count to one that its items don't have.
fn count(rng: &mut Rng, draft: &mut Draft) {
    if let Some(part) = draft.pick(rng, |field| matches!(field, Field::Run(_))) {
        let true_count = u16::from_be_bytes([part.content[0], part.content[1]]);
        let count = match rng.below(6) {
            0 => true_count.wrapping_sub(1),
            1 => true_count.wrapping_add(1),
            2 => true_count.swap_bytes(),
            3 => 0,
            4 => 0xffff,
            _ => rng.below(0x1_0000) as u16,
        };
        part.content = count.to_be_bytes().to_vec();
    }
}

/// A field of fixed width to one byte more or fewer, or none.
fn width(rng: &mut Rng, draft: &mut Draft) {
    if let Some(part) = draft.pick(rng, |field| field.width().is_some()) {
        match rng.below(3) {
            0 => part.content.push(rng.byte()),
            1 => part.content.truncate(part.content.len() - 1),
            _ => part.content.clear(),
        }
    }
}

fn any_byte(rng: &mut Rng, draft: &mut Draft) {
    if let Some(part) = draft.pick(rng, |_| true) {
        if !part.content.is_empty() {
            let at = rng.below(part.content.len());
            part.content[at] = near(rng, part.content[at]);
        }
    }
}

fn fewer_or_more_parts(rng: &mut Rng, draft: &mut Draft) {
    if !draft.parts.is_empty() {
        let at = rng.below(draft.parts.len());
        let part = draft.parts.remove(at);
        if rng.once_in(2) {
            // Twice, at its own place or at the end.
            draft.parts.insert(at, part.clone());
            let again = rng.pick(&[at, draft.parts.len()]);
            draft.parts.insert(again, part);
        }
    }
}

fn swap_parts(rng: &mut Rng, draft: &mut Draft) {
    if !draft.parts.is_empty() {
        let count = draft.parts.len();
        draft.parts.swap(rng.below(count), rng.below(count));
    }
}

/// Another side or type byte.
pub fn header(rng: &mut Rng, side: &mut u32, type_byte: &mut u8) {
    match rng.below(6) {
        0 => *side ^= 1,
        1 => *side = rng.pick(&[2, 3, 0x100, 0x101, 0x1_0000, 0x8000_0000, u32::MAX]),
        2 => *side = rng.word(),
        3 => *type_byte ^= 0x20,
        4 => *type_byte = rng.pick(&KINDS).1,
        _ => *type_byte = rng.byte(),
    }
}
