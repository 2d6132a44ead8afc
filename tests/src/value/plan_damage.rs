//! Damages the words of a plan.

use super::plan::{Node, PlanDraft, Role, Shape, CARDINALITIES};
use super::planning;
use crate::rng::Rng;

/// Damages the words in some way; a few ways leave the plan well formed, but another.
pub fn words(rng: &mut Rng, plan: &PlanDraft, words: &mut Vec<u32>) {
    match rng.below(12) {
        0 => of_role(rng, plan, words, Role::Total, near),
        1 => of_role(rng, plan, words, Role::Root, |rng, word| {
            place(rng, plan, word)
        }),
        2 => of_role(rng, plan, words, Role::Kind, kind),
        3 => of_role(rng, plan, words, Role::Format, format),
        4 => of_role(rng, plan, words, Role::Count, count),
        5 => of_role(rng, plan, words, Role::Reference, |rng, word| {
            place(rng, plan, word)
        }),
        6 | 7 => wrong_kind(rng, plan, words),
        8 => of_role(rng, plan, words, Role::Cardinality, cardinality),
        9 => {
            let at = rng.below(words.len());
            words[at] = near(rng, words[at]);
        }
        10 => cut(rng, words),
        _ => lengthen(rng, words),
    }
}

/// Changes one of the words that stand for this, if there is one.
fn of_role(
    rng: &mut Rng,
    plan: &PlanDraft,
    words: &mut [u32],
    role: Role,
    change: impl Fn(&mut Rng, u32) -> u32,
) {
    let roles = plan.roles();
    let fitting: Vec<usize> = (0..words.len().min(roles.len()))
        .filter(|&at| roles[at] == role)
        .collect();
    if !fitting.is_empty() {
        let at = rng.pick(&fitting);
        words[at] = change(rng, words[at]);
    }
}

fn near(rng: &mut Rng, word: u32) -> u32 {
    match rng.below(6) {
        0 | 1 => word.wrapping_add(1),
        2 | 3 => word.wrapping_sub(1),
        4 => word ^ 1 << rng.below(32),
        _ => rng.word(),
    }
}

/// A position: of a node of any kind, also a later one, or where none starts.
fn place(rng: &mut Rng, plan: &PlanDraft, word: u32) -> u32 {
    let length = plan.length() as u32;
    match rng.below(8) {
        0 | 1 => near(rng, word),
        2 => rng.below(plan.length() + 1) as u32,
        3 => rng.pick(&[0, 1, length, length + 1, 0x8000_0000, 0xffff_ffff]),
        _ if plan.nodes.is_empty() => 2,
        _ => plan.nodes[rng.below(plan.nodes.len())].start,
    }
}

/// The reference of a set, array, set of arrays or range, if there is one, to any earlier node.
fn wrong_kind(rng: &mut Rng, plan: &PlanDraft, words: &mut [u32]) {
    let choosy = |node: &&Node| {
        matches!(
            node.shape,
            Shape::Set(_) | Shape::SetOfArrays(_) | Shape::Range(_)
        )
    };
    let places: Vec<u32> = plan
        .nodes
        .iter()
        .filter(choosy)
        .map(|node| node.start)
        .collect();
    if !places.is_empty() {
        let start = rng.pick(&places);
        let earlier = plan.nodes.partition_point(|node| node.start < start);
        words[start as usize + 1] = plan.nodes[rng.below(earlier)].start;
    }
}

fn kind(rng: &mut Rng, _: u32) -> u32 {
    match rng.below(4) {
        0 => rng.pick(&[0, 9, 10, 0xffff_ffff, 0x101, 0x0100_0002]),
        _ => rng.below(10) as u32,
    }
}

fn format(rng: &mut Rng, format: u32) -> u32 {
    match rng.below(4) {
        0 => 20,
        1 => rng.between(20, 40) as u32,
        2 => rng.pick(&[format | 0x100, format | 0x8000_0000, 0x30, 0xffff_ffff]),
        _ => rng.below(20) as u32,
    }
}

fn count(rng: &mut Rng, count: u32) -> u32 {
    match rng.below(4) {
        0 => rng.pick(&[0, 512, 513, 0xffff_ffff, 0x7fff_ffff, 0x8000_0000]),
        _ => near(rng, count),
    }
}

fn cardinality(rng: &mut Rng, word: u32) -> u32 {
    match rng.below(5) {
        0 => rng.pick(&CARDINALITIES),
        1 => rng.pick(&[0, 1, 0x40, 0x42, 0x4c, 0x4e, 0x61, 0x70, 0xffff_ffff]),
        2 => word | rng.pick(&[0x100, 0x1_0000, 0x8000_0000]),
        3 => word ^ 0x20,
        _ => near(rng, word),
    }
}

/// Words taken away at the end, and total as it was or made true.
fn cut(rng: &mut Rng, words: &mut Vec<u32>) {
    let length = match rng.below(3) {
        0 => rng.below(words.len() + 1),
        _ => words.len() - 1,
    };
    words.truncate(length);
    make_total_true(rng, words);
}

/// Words left over, which may be a node or the beginning of one, or a word put in.
fn lengthen(rng: &mut Rng, words: &mut Vec<u32>) {
    let last = words.len() as u32;
    match rng.below(6) {
        0 => words.push(rng.below(10) as u32),
        1 => words.extend([rng.below(9) as u32, rng.below(9) as u32]),
        2 => words.extend([2, last]),
        3 => words.extend([2, last + 2, 8]),
        4 => words.extend([4, 1, last, 8]),
        _ => {
            let at = rng.below(words.len() + 1);
            words.insert(at, rng.below(9) as u32);
        }
    }
    make_total_true(rng, words);
}

fn make_total_true(rng: &mut Rng, words: &mut [u32]) {
    let length = words.len() as u32;
    if let Some(total) = words.first_mut() {
        if rng.below(4) > 0 {
            *total = length;
        }
    }
}

/// A plan at or past one of the sizes that plans may have, and whether it is past it.
pub fn at_limit(rng: &mut Rng) -> (PlanDraft, bool) {
    match rng.below(16) {
        0 => {
            let nodes = rng.between(1_023, 1_026);
            (planning::make_many(rng, nodes), nodes > 1_024)
        }
        1 => {
            let words = rng.between(8_190, 8_194);
            (planning::make_long(rng, words), words > 8_192)
        }
        2 | 3 => {
            let count = rng.between(511, 514);
            (planning::make_wide(rng, count), count > 512)
        }
        _ => {
            let height = rng.pick(&[31, 32, 33, 33, 34]);
            (planning::make_deep(rng, height), height > 32)
        }
    }
}

/// Damages the plan as bytes: no whole number of words, or far more than can cross.
pub fn bytes(rng: &mut Rng, plan: &mut Vec<u8>) {
    match rng.below(32) {
        0 => plan.resize(
            rng.pick(&[32_764, 32_767, 32_769, 32_772, 40_000, 200_000]),
            0,
        ),
        1..16 => {
            let count = rng.between(1, 3);
            plan.extend(rng.bytes(count));
        }
        _ => plan.truncate(plan.len() - rng.between(1, 3).min(plan.len())),
    }
}
