//! Damage to a draft of a descriptor that brings a known refusal where all else is good.

use super::damage::{fault, number, pick, pick_role, Fault};
use super::draft::{Content, DescriptorDraft, Field, Kind, Role};
use crate::rng::Rng;
use crate::text;

pub fn tag(rng: &mut Rng, draft: &mut DescriptorDraft) -> Option<Fault> {
    let spot = pick_role(rng, draft, Role::Tag)?;
    *number(draft, spot)? = match rng.below(3) {
        0 => rng.pick(&[2, 12, 14, 0x7e, 0x80, 0xff]),
        1 => rng.between(0x80, 0xff) as u32,
        _ => rng.between(14, 0x7e) as u32,
    };
    fault(11, spot)
}

/// An id to zero, or to that of an earlier block.
pub fn id(rng: &mut Rng, draft: &mut DescriptorDraft) -> Option<Fault> {
    let spot = pick_role(rng, draft, Role::Id)?;
    let earlier: Vec<_> = draft.blocks[..spot.block]
        .iter()
        .filter_map(|block| block.id())
        .collect();
    let id = match earlier.is_empty() || rng.once_in(3) {
        true => [0; 16],
        false => rng.pick(&earlier),
    };
    draft.blocks[spot.block].fields[spot.field].content = Content::Id(id);
    fault(15, spot)
}

/// A field's content to what is not permitted.
pub fn content(rng: &mut Rng, draft: &mut DescriptorDraft) -> Option<Fault> {
    let texts = rng.once_in(3);
    let spot = pick(rng, draft, |field| match field.role {
        Role::Text | Role::Name => texts,
        Role::Bool
        | Role::Flags
        | Role::InputFlags
        | Role::Cardinality
        | Role::Operation
        | Role::DimensionCount
        | Role::Dimension => !texts,
        _ => false,
    })?;
    let Field { role, content } = &mut draft.blocks[spot.block].fields[spot.field];
    match content {
        Content::Text(text, _) => text::spoil(rng, text),
        Content::Number(_, number) => *number = not_permitted(rng, *role),
        Content::Id(_) => return None,
    }
    fault(12, spot)
}

/// A number that may not be there.
fn not_permitted(rng: &mut Rng, role: Role) -> u32 {
    let bit = 1 << rng.between(3, 31);
    match role {
        Role::Bool => rng.between(2, 0xff) as u32,
        Role::Flags => rng.below(8) as u32 | bit,
        Role::InputFlags => rng.pick(&[1, 2, 4, 7, bit]),
        Role::Cardinality => rng.pick(&[0, 1, 0x40, 0x42, 0x4c, 0x4e, 0x61, 0x6c, 0x70, 0xff]),
        Role::Operation => rng.pick(&[0, 3, 0x81, 0xff]),
        Role::DimensionCount => rng.pick(&[0, 2, 512, 513, 0x100, 0x101, 0xffff]),
        _ => rng.pick(&[0, 1, 0xffff_fffe, 0xffff, 0x7fff_ffff, 0x00ff_ffff]),
    }
}

/// A scalar whose id is not known loses all ancestors.
pub fn parentless(rng: &mut Rng, draft: &mut DescriptorDraft) -> Option<Fault> {
    let spot = pick_role(rng, draft, Role::Parent)?;
    let fields = &mut draft.blocks[spot.block].fields;
    fields.retain(|field| !matches!(field.role, Role::Parent | Role::Earlier));
    let count = fields.len() - 1;
    fields[count] = Field::number(Role::Count, 2, 0);
    fault(12, spot)
}

/// The index of the block at this place, or that the next block would have.
fn index(draft: &DescriptorDraft, block: usize) -> u32 {
    let before = draft.blocks[..block].iter();
    before.filter(|block| block.kind.has_index()).count() as u32
}

/// A reference to the block itself, or to a later one that may be there or not.
pub fn later(rng: &mut Rng, draft: &mut DescriptorDraft) -> Option<Fault> {
    let spot = pick(rng, draft, |field| field.role.is_reference())?;
    let index = index(draft, spot.block);
    *number(draft, spot)? = match rng.below(4) {
        0 | 1 => index,
        2 => index + rng.below(9) as u32,
        _ => rng.pick(&[0x7fff, 0x8000, 0xffff, 0x0400, index | 0x8000]),
    };
    fault(13, spot)
}

/// A reference to an earlier block that it may not go to.
pub fn wrong_kind(rng: &mut Rng, draft: &mut DescriptorDraft) -> Option<Fault> {
    let indexed = draft.indexed();
    let spot = pick(rng, draft, |field| {
        let role = field.role;
        role.is_reference() && role != Role::Earlier
    })?;
    let role = draft.blocks[spot.block].fields[spot.field].role;
    let index = index(draft, spot.block) as usize;
    let fits = |index: usize| draft.blocks[indexed[index]].kind.fits(role);
    let wrong: Vec<usize> = (0..index).filter(|&index| !fits(index)).collect();
    if wrong.is_empty() {
        return None;
    }
    *number(draft, spot)? = rng.pick(&wrong) as u32;
    fault(14, spot)
}

/// The name of an element to that of another one before it in the same block.
pub fn name_twice(rng: &mut Rng, draft: &mut DescriptorDraft) -> Option<Fault> {
    let spot = pick_role(rng, draft, Role::Name)?;
    let fields = &mut draft.blocks[spot.block].fields;
    let names: Vec<Content> = fields[..spot.field]
        .iter()
        .filter(|field| field.role == Role::Name)
        .map(|field| field.content.clone())
        .collect();
    if names.is_empty() {
        return None;
    }
    fields[spot.field].content = names[rng.below(names.len())].clone();
    fault(16, spot)
}

pub fn count_over(rng: &mut Rng, draft: &mut DescriptorDraft) -> Option<Fault> {
    let spot = pick_role(rng, draft, Role::Count)?;
    *number(draft, spot)? = match rng.below(3) {
        0 => 513,
        1 => rng.pick(&[514, 1_024, 0x7fff, 0x8000, 0xffff]),
        _ => rng.between(513, 0xffff) as u32,
    };
    fault(17, spot)
}

/// A block that is there twice.
pub fn twice(rng: &mut Rng, draft: &mut DescriptorDraft) -> Option<Fault> {
    let count = draft.indexed().len();
    if count == 0 {
        return None;
    }
    let first = rng.below(draft.blocks.len());
    let again = draft.blocks[first].clone();
    let block = rng.between(first + 1, draft.blocks.len());
    let known = again.kind != Kind::Annotation && count < 1_024;
    draft.blocks.insert(block, again);
    known.then_some(Fault { number: 15, block })
}
