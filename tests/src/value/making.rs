//! Makes a case at random: a plan, a value of it, and what damage there is to either.

use super::case::{Case, RunCall};
use super::draft::Laid;
use super::pairing::{pair, Known};
use super::plan::PlanDraft;
use super::{byte_damage, plan_damage};
use crate::crossed::list;
use crate::expected::Expected;
use crate::lending::Lending;
use crate::rng::Rng;

/// A plan and a value as bytes, the list that the value has if it is good, and what is known.
pub struct Made {
    pub plan: Vec<u8>,
    pub laid: Laid,
    pub known: Known,
}

/// A call on a value that is good or damaged in one or more ways.
pub fn make(rng: &mut Rng) -> Case {
    let Made { plan, laid, known } = damaged(rng);
    let room = room(rng, 4 * laid.words.len());
    Case {
        call: RunCall {
            plan,
            value: laid.bytes,
            room,
        },
        lending: Lending::random(rng),
        expected: expected(known, laid.words, room),
        time: None,
    }
}

/// A plan and a value that are good or damaged in one or more ways.
pub fn damaged(rng: &mut Rng) -> Made {
    let mut pair = pair(rng);
    let (plan, whole) = plan_bytes(rng, &pair.plan);
    if !whole {
        pair.known = Known::Nothing;
    }
    if rng.once_in(5) {
        byte_damage::value(rng, &mut pair.laid);
        pair.known = Known::Nothing;
    }
    Made {
        plan,
        laid: pair.laid,
        known: pair.known,
    }
}

/// The plan as bytes, damaged at times, and whether they are whole.
pub fn plan_bytes(rng: &mut Rng, plan: &PlanDraft) -> (Vec<u8>, bool) {
    let (mut words, mut whole) = (plan.words(), true);
    if rng.once_in(10) {
        plan_damage::words(rng, plan, &mut words);
        whole = false;
    }
    let mut bytes = list(&words);
    if rng.once_in(128) {
        plan_damage::bytes(rng, &mut bytes);
        whole = false;
    }
    (bytes, whole)
}

/// What the call must answer: a room counts in whole words, at most 8,192 (R9.6).
pub fn expected(known: Known, words: Vec<u32>, room: usize) -> Expected {
    match known {
        Known::Nothing => Expected::Unknown,
        Known::BadPlan => Expected::Refused(33, 0),
        Known::TooLong => Expected::Refused(28, 0),
        Known::Good if words.len() > (room / 4).min(8_192) => Expected::Refused(31, 0),
        Known::Good => Expected::Written(words),
    }
}

/// Bytes of list room: just enough, a word or some bytes short, none, odd, or more than can count.
pub fn room(rng: &mut Rng, enough: usize) -> usize {
    match rng.below(64) {
        0..20 => enough,
        20..26 => enough + rng.between(1, 7),
        26..30 => enough.saturating_sub(4),
        30..34 => enough.saturating_sub(rng.between(1, 9)),
        34..36 => rng.below(enough + 1),
        36..38 => 0,
        38..63 => enough + rng.below(200),
        _ => rng.pick(&[32_764, 32_767, 32_768, 32_769, 32_772, 40_001, 150_000]),
    }
}
