//! Makes a case at random: a descriptor with a value of it, and what damage there is to either.

use super::case::{Case, CompileCall, Running};
use super::clothing;
use super::draft::{Content, DescriptorDraft, Field, Id, Laid, Role};
use super::{byte_damage, damage};
use crate::expected::Expected;
use crate::lending::Lending;
use crate::rng::Rng;
use crate::text;
use crate::value::byte_damage as value_damage;
use crate::value::making;
use crate::value::pairing::{pair, Known, Pair};
use crate::value::plan::PlanDraft;

/// A descriptor that was put together, and what compiling it comes to if the room is enough.
struct Made {
    laid: Laid,
    root: Vec<u8>,
    known: Outcome,
}

#[derive(Clone, Copy, PartialEq, Eq)]
enum Outcome {
    /// The plan that it was made from.
    Plan,
    Refused(u32, u32),
    Unknown,
}

/// A call on a descriptor that is good or damaged, and a value to run if it is accepted, which may
/// be damaged or too long.
pub fn make(rng: &mut Rng) -> Case {
    let mut pair = pair(rng);
    if rng.once_in(512) {
        pair.laid.bytes.resize(rng.between(65_536, 65_540), 0);
        pair.known = Known::TooLong;
    } else if rng.once_in(5) {
        value_damage::value(rng, &mut pair.laid);
        pair.known = Known::Nothing;
    }
    let made = descriptor(rng, &pair.plan);
    let words = pair.plan.words();
    let room = making::room(rng, 4 * words.len());
    let expected = expected(made.known, words, room);
    Case {
        call: CompileCall {
            descriptor: made.laid.bytes,
            root: made.root,
            room,
        },
        running: Some(running(rng, pair, made.known)),
        lending: Lending::random(rng),
        expected,
        time: None,
    }
}

/// What the call must answer: a room counts in whole words, at most 8,192 (R9.6).
fn expected(known: Outcome, words: Vec<u32>, room: usize) -> Expected {
    match known {
        Outcome::Unknown => Expected::Unknown,
        Outcome::Refused(number, place) => Expected::Refused(number, place),
        Outcome::Plan if words.len() > (room / 4).min(8_192) => Expected::Refused(30, 0),
        Outcome::Plan => Expected::Written(words),
    }
}

/// What is run by the plan: of a damaged descriptor nothing is known.
fn running(rng: &mut Rng, pair: Pair, known: Outcome) -> Running {
    let room = making::room(rng, 4 * pair.laid.words.len());
    let expected = match known {
        Outcome::Plan => making::expected(pair.known, pair.laid.words, room),
        _ => Expected::Unknown,
    };
    Running {
        value: pair.laid.bytes,
        room,
        expected,
    }
}

/// A descriptor of this plan, good or damaged in one or more ways.
fn descriptor(rng: &mut Rng, plan: &PlanDraft) -> Made {
    let mut draft = clothing::make(rng, plan);
    let passed = passed(&draft, plan);
    match rng.below(1_024) {
        0..512 => whole(draft, passed),
        512..520 => large(rng, draft, passed),
        520..640 => bad_root(rng, draft, passed),
        640..700 => cut(rng, draft, passed),
        700..900 => {
            let fault = damage::draft(rng, &mut draft);
            let refusal = fault.map(|fault| (fault.number, fault.block));
            match (refusal, passed) {
                (Some(refusal), None) => whole(draft, Some(refusal)),
                _ => unknown(draft),
            }
        }
        900..960 => {
            for _ in 0..rng.between(2, 3) {
                damage::draft(rng, &mut draft);
            }
            unknown(draft)
        }
        _ => {
            let mut made = unknown(draft);
            byte_damage::any(rng, &mut made.laid.bytes);
            made
        }
    }
}

/// The first block that passes a size, if the plan does, and its number.
fn passed(draft: &DescriptorDraft, plan: &PlanDraft) -> Option<(u32, usize)> {
    let over = |field: &Field| match (field.role, &field.content) {
        (Role::Count, Content::Number(_, count)) => *count > 512,
        _ => false,
    };
    let wide = draft
        .blocks
        .iter()
        .position(|block| block.fields.iter().any(over));
    let high = plan.nodes.iter().position(|node| node.height > 32);
    let high = high.map(|number| block_of(draft, number));
    let many = draft.indexed().get(1_024).copied();
    let first = [wide, high, many].into_iter().flatten().min();
    first.map(|block| (17, block))
}

/// The place of a node's block: nodes are in the order of the blocks with values.
fn block_of(draft: &DescriptorDraft, number: usize) -> usize {
    let with_values = |block: &usize| draft.blocks[*block].kind.has_values();
    let mut blocks = (0..draft.blocks.len()).filter(with_values);
    blocks.nth(number).unwrap_or(draft.blocks.len())
}

/// A descriptor with this refusal, or none: a number, and the block whose tag is its place.
fn whole(draft: DescriptorDraft, refusal: Option<(u32, usize)>) -> Made {
    let laid = draft.lay();
    let known = match refusal {
        Some((number, block)) => Outcome::Refused(number, laid.tags[block] as u32),
        None => Outcome::Plan,
    };
    Made {
        laid,
        root: draft.root,
        known,
    }
}

fn unknown(draft: DescriptorDraft) -> Made {
    Made {
        laid: draft.lay(),
        root: draft.root,
        known: Outcome::Unknown,
    }
}

/// One of about 65,535 bytes, by an annotation or a longer text at its end.
fn large(rng: &mut Rng, draft: DescriptorDraft, passed: Option<(u32, usize)>) -> Made {
    let mut made = whole(draft, passed);
    let bytes = &mut made.laid.bytes;
    let size = rng.pick(&[65_534, 65_535, 65_535, 65_536, 65_536, 65_537, 70_000]);
    let spare = size - bytes.len().min(size);
    if bytes.is_empty() || spare < 11 {
        made.known = Outcome::Unknown;
        return made;
    }
    let length = spare - 11;
    bytes.extend([0x7f, 0, 0, 0, 0, 0, 0]);
    bytes.extend((length as u32).to_be_bytes());
    bytes.extend(text::letters(length));
    if size > 65_535 {
        made.known = Outcome::Refused(17, 0);
    }
    made
}

/// An id that is not there, of a block without values, zero, or of another length than 16.
fn bad_root(rng: &mut Rng, draft: DescriptorDraft, passed: Option<(u32, usize)>) -> Made {
    let without: Vec<Id> = draft
        .blocks
        .iter()
        .filter(|block| !block.kind.has_values())
        .filter_map(|block| block.id())
        .collect();
    let mut made = whole(draft, passed);
    let missing = match rng.below(8) {
        0..3 if !without.is_empty() => Some(rng.pick(&without).to_vec()),
        0..5 => Some(rng.bytes(16)),
        _ => None,
    };
    let refused = Outcome::Refused(18, made.laid.bytes.len() as u32);
    match missing {
        // Faults in the blocks come before it.
        Some(root) => {
            made.root = root;
            if made.known == Outcome::Plan {
                made.known = refused;
            }
        }
        None => {
            spoil_root(rng, &mut made);
            made.known = refused;
        }
    }
    made
}

/// Zero, unless there are no bytes, or another length: this comes before the blocks.
fn spoil_root(rng: &mut Rng, made: &mut Made) {
    match rng.below(3) {
        0 if !made.laid.bytes.is_empty() => made.root = vec![0; 16],
        1 => made.root.truncate(rng.below(16)),
        _ => {
            let more = rng.pick(&[1, 1, 16]);
            made.root.extend(rng.bytes(more));
        }
    }
}

/// One that ends inside a block: all before it is good.
fn cut(rng: &mut Rng, draft: DescriptorDraft, passed: Option<(u32, usize)>) -> Made {
    let mut made = unknown(draft);
    made.known = match (byte_damage::cut(rng, &mut made.laid), passed) {
        (Some(tag), None) => Outcome::Refused(10, tag as u32),
        _ => Outcome::Unknown,
    };
    made
}
