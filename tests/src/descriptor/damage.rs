//! Damages a draft of a descriptor. Where all else is good, the number that a damage brings is
//! often known, with the block whose tag is its place: that is the damage of `faults`.

use super::draft::{Content, DescriptorDraft, Field, Role};
use super::faults;
use crate::rng::Rng;
use crate::text;

/// The refusal that a damage brings to a descriptor which has no other.
#[derive(Clone, Copy, Debug, PartialEq, Eq)]
pub struct Fault {
    pub number: u32,
    /// The place in the draft's blocks of the one that is refused.
    pub block: usize,
}

/// Where a field is: its block, and its place among that block's fields.
#[derive(Clone, Copy)]
pub struct Spot {
    pub block: usize,
    pub field: usize,
}

/// Damages the draft in some way. Where there is nothing of the kind nothing is done. `None`: what
/// it brings is not known.
pub fn draft(rng: &mut Rng, draft: &mut DescriptorDraft) -> Option<Fault> {
    match rng.below(26) {
        0 => faults::tag(rng, draft),
        1 | 2 => faults::id(rng, draft),
        3 | 4 => faults::content(rng, draft),
        5 => faults::parentless(rng, draft),
        6..9 => faults::later(rng, draft),
        9..12 => faults::wrong_kind(rng, draft),
        12..15 => faults::name_twice(rng, draft),
        15 => faults::count_over(rng, draft),
        16 => faults::twice(rng, draft),
        17 => other_tag(rng, draft),
        18 => near_count(rng, draft),
        19 | 20 => near_reference(rng, draft),
        21 => text_length(rng, draft),
        22 => remove(rng, draft),
        23 => swap(rng, draft),
        24 => near_id(rng, draft),
        _ => brush(rng, draft),
    }
}

/// One of the fields that are as asked.
pub fn pick(
    rng: &mut Rng,
    draft: &DescriptorDraft,
    asked: impl Fn(&Field) -> bool,
) -> Option<Spot> {
    let mut spots = Vec::new();
    for (block, made) in draft.blocks.iter().enumerate() {
        let fields = made.fields.iter().enumerate();
        let fitting = fields.filter(|(_, field)| asked(field));
        spots.extend(fitting.map(|(field, _)| Spot { block, field }));
    }
    match spots.is_empty() {
        true => None,
        false => Some(rng.pick(&spots)),
    }
}

pub fn pick_role(rng: &mut Rng, draft: &DescriptorDraft, role: Role) -> Option<Spot> {
    pick(rng, draft, |field| field.role == role)
}

/// Where the fields of a block hold a number.
pub fn number(draft: &mut DescriptorDraft, spot: Spot) -> Option<&mut u32> {
    match &mut draft.blocks[spot.block].fields[spot.field].content {
        Content::Number(_, number) => Some(number),
        _ => None,
    }
}

pub fn fault(number: u32, spot: Spot) -> Option<Fault> {
    Some(Fault {
        number,
        block: spot.block,
    })
}

/// One of the texts, and the length that it is given if that is not its own.
fn pick_text<'a>(
    rng: &mut Rng,
    draft: &'a mut DescriptorDraft,
) -> Option<(&'a mut Vec<u8>, &'a mut Option<u32>)> {
    let is_text = |field: &Field| matches!(field.role, Role::Text | Role::Name);
    let spot = pick(rng, draft, is_text)?;
    match &mut draft.blocks[spot.block].fields[spot.field].content {
        Content::Text(text, length) => Some((text, length)),
        _ => None,
    }
}

/// A tag to another known one.
fn other_tag(rng: &mut Rng, draft: &mut DescriptorDraft) -> Option<Fault> {
    let spot = pick_role(rng, draft, Role::Tag)?;
    *number(draft, spot)? = rng.pick(&[0, 1, 3, 4, 5, 6, 7, 8, 9, 10, 11, 13, 0x7f]);
    None
}

fn near_count(rng: &mut Rng, draft: &mut DescriptorDraft) -> Option<Fault> {
    let spot = pick_role(rng, draft, Role::Count)?;
    let count = number(draft, spot)?;
    *count = match rng.below(4) {
        0 => 512,
        1 => count.saturating_sub(1),
        _ => *count + rng.between(1, 3) as u32,
    };
    None
}

/// A reference to a near block, or to any.
fn near_reference(rng: &mut Rng, draft: &mut DescriptorDraft) -> Option<Fault> {
    let spot = pick(rng, draft, |field| field.role.is_reference())?;
    let blocks = draft.blocks.len();
    let index = number(draft, spot)?;
    *index = match rng.below(4) {
        0 => *index + 1,
        1 => index.wrapping_sub(1) & 0xffff,
        _ => rng.below(blocks + 1) as u32,
    };
    None
}

/// A text's length to another than its own.
fn text_length(rng: &mut Rng, draft: &mut DescriptorDraft) -> Option<Fault> {
    let (text, length) = pick_text(rng, draft)?;
    let own = text.len() as u32;
    *length = Some(match rng.below(5) {
        0 => own + 1,
        1 => own.saturating_sub(1),
        2 => rng.below(60) as u32,
        3 => own | rng.pick(&[0x1_0000, 0x0100_0000, 0x8000_0000]),
        _ => rng.pick(&[0xffff_ffff, 0x7fff_ffff, 0x8000_0000, 0xffff_fffc]),
    });
    None
}

/// A block or a field is taken out.
fn remove(rng: &mut Rng, draft: &mut DescriptorDraft) -> Option<Fault> {
    let spot = pick(rng, draft, |_| true)?;
    if rng.once_in(2) {
        draft.blocks.remove(spot.block);
    } else {
        draft.blocks[spot.block].fields.remove(spot.field);
    }
    None
}

/// Two blocks change places.
fn swap(rng: &mut Rng, draft: &mut DescriptorDraft) -> Option<Fault> {
    let count = draft.blocks.len();
    if count > 0 {
        draft.blocks.swap(rng.below(count), rng.below(count));
    }
    None
}

/// A bit of an id: a known one may be no longer so, or another become so.
fn near_id(rng: &mut Rng, draft: &mut DescriptorDraft) -> Option<Fault> {
    let spot = pick_role(rng, draft, Role::Id)?;
    if let Content::Id(id) = &mut draft.blocks[spot.block].fields[spot.field].content {
        let at = rng.pick(&[0, 7, 13, 14, 15, 15]);
        id[at] ^= 1 << rng.below(8);
    }
    None
}

/// A text at the edges of what is well formed.
fn brush(rng: &mut Rng, draft: &mut DescriptorDraft) -> Option<Fault> {
    let (text, _) = pick_text(rng, draft)?;
    text::brush(rng, text);
    None
}
