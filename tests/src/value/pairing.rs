//! Makes pairs of a plan and a value at random, of all sizes.

use super::draft::{Draft, Laid};
use super::drafting::{self, Size};
use super::plan::PlanDraft;
use super::{damage, plan_damage, planning};
use crate::rng::Rng;
use crate::text;

/// A plan and a value, before they are damaged as bytes, and what is known of them.
pub struct Pair {
    pub plan: PlanDraft,
    pub laid: Laid,
    pub known: Known,
}

#[derive(Clone, Copy, PartialEq, Eq)]
pub enum Known {
    Good,
    BadPlan,
    TooLong,
    Nothing,
}

/// A plan and a value that is good or was damaged in one or more ways.
pub fn pair(rng: &mut Rng) -> Pair {
    pair_with(rng, damage_draft)
}

/// A plan and a value that is good, but for what is said to be known of it.
pub fn good_pair(rng: &mut Rng) -> Pair {
    pair_with(rng, |_, _| Known::Good)
}

/// What is done to a draft before it is put together, and what is known of it then.
type Spoiling = fn(&mut Rng, &mut Draft) -> Known;

fn pair_with(rng: &mut Rng, spoil: Spoiling) -> Pair {
    match rng.below(1_024) {
        0..8 => at_limit(rng),
        8..12 => long_list(rng, spoil),
        12..16 => large(rng),
        _ => ordinary(rng, spoil),
    }
}

/// A plan with a value of this size, spoilt before it is put together.
fn drafted(rng: &mut Rng, plan: PlanDraft, size: Size, spoil: Spoiling) -> Pair {
    let mut draft = drafting::make(rng, &plan, size);
    let known = spoil(rng, &mut draft);
    Pair {
        plan,
        laid: draft.lay(),
        known,
    }
}

/// A plan and value of ordinary size.
fn ordinary(rng: &mut Rng, spoil: Spoiling) -> Pair {
    let plan = planning::make(rng);
    if plan.nodes.is_empty() {
        return no_type(rng, plan);
    }
    let full = rng.once_in(3);
    let spare = match full {
        true => rng.pick(&[300, 1_000, 2_000]),
        false => rng.pick(&[0, 20, 80, 80, 300, 300, 1_000]),
    };
    let size = Size {
        spare,
        many: None,
        full,
    };
    drafted(rng, plan, size, spoil)
}

/// "No type" and no bytes, or some.
fn no_type(rng: &mut Rng, plan: PlanDraft) -> Pair {
    let (length, known) = match rng.below(128) {
        0 => (65_535, Known::Nothing),
        1 => (65_536, Known::TooLong),
        2..64 => (rng.between(1, 20), Known::Nothing),
        _ => (0, Known::Good),
    };
    let laid = Laid {
        bytes: vec![0; length],
        words: Vec::new(),
    };
    Pair { plan, laid, known }
}

fn damage_draft(rng: &mut Rng, draft: &mut Draft) -> Known {
    let times = rng.pick(&[0, 0, 0, 0, 1, 1, 1, 2, 3]);
    for _ in 0..times {
        damage::draft(rng, draft);
    }
    let sparse = rng.once_in(12);
    if sparse {
        damage::sparse_again(rng, draft);
    }
    if times == 0 && !sparse {
        Known::Good
    } else {
        Known::Nothing
    }
}

/// A plan at or past one of the limits, with a good value.
fn at_limit(rng: &mut Rng) -> Pair {
    let (plan, past) = plan_damage::at_limit(rng);
    let spare = if plan.length() > 8_192 { 0 } else { 300 };
    let size = Size {
        spare,
        many: None,
        full: rng.once_in(2),
    };
    let draft = drafting::make(rng, &plan, size);
    Pair {
        plan,
        laid: draft.lay(),
        known: if past { Known::BadPlan } else { Known::Good },
    }
}

/// A set whose list has about 8,192 words, or far more, unless its elements are too large.
fn long_list(rng: &mut Rng, spoil: Spoiling) -> Pair {
    let plan = planning::make_set(rng);
    let many = match rng.below(4) {
        0..2 => rng.between(1_630, 1_642),
        2 => rng.below(6_000),
        _ => rng.between(300, 1_700),
    };
    let size = Size {
        spare: 40_000,
        many: Some(many),
        full: false,
    };
    drafted(rng, plan, size, spoil)
}

/// A value of about 65,535 bytes, or more: good but for its size where it has a leaf that can grow,
/// else with letters after it.
fn large(rng: &mut Rng) -> Pair {
    let plan = planning::make(rng);
    if plan.nodes.is_empty() {
        return no_type(rng, plan);
    }
    let bytes = match rng.below(6) {
        0 | 1 => 65_535,
        2 => rng.between(65_537, 70_000),
        _ => 65_536,
    };
    let size = Size {
        spare: 300,
        many: None,
        full: true,
    };
    let mut draft = drafting::make(rng, &plan, size);
    drafting::grow(rng, &mut draft, bytes);
    let mut laid = draft.lay();
    let known = match (bytes, laid.bytes.len() == bytes) {
        (65_535, true) => Known::Good,
        (65_535, false) => Known::Nothing,
        _ => Known::TooLong,
    };
    let missing = bytes - laid.bytes.len();
    laid.bytes.extend(text::letters(missing));
    Pair { plan, laid, known }
}
