//! Values by plan: docs/RULES.md, sections 5 and 6.
//!
//! * `walk` goes through a value by its node and lists what it passes.
//! * `set`, `object` and `range` have the containers' rules, and `heads` those of what stands at
//!   their start.
//! * `container` reads the bytes of one container from left to right.

pub(crate) mod container;
pub(crate) mod heads;
mod object;
mod range;
mod set;
mod walk;

use crate::plan::Plan;
use crate::refusal::{self, Refusal};
use walk::Walk;

/// The most bytes of a value (R1.4).
pub(crate) const MOST_BYTES: usize = 65_535;

/// The list of a value by the words of a plan, or the first refusal in the order of R1.9.
pub fn run(plan: &[u32], value: &[u8], room_words: usize) -> Result<Vec<u32>, Refusal> {
    let Some(plan) = Plan::read(plan) else {
        return Err(Refusal::at_start(refusal::BAD_PLAN));
    };
    if value.len() > MOST_BYTES {
        return Err(Refusal::at_start(refusal::VALUE_SIZE));
    }
    let words = list(&plan, value)?;
    if words.len() > room_words {
        return Err(Refusal::at_start(refusal::LIST_ROOM));
    }
    Ok(words)
}

/// The list of a value, or its first fault.
fn list(plan: &Plan, value: &[u8]) -> Result<Vec<u32>, Refusal> {
    match plan {
        // R4.6: no bytes, and an empty list; any other value is 21 at 0.
        Plan::NoType if value.is_empty() => Ok(Vec::new()),
        Plan::NoType => Err(Refusal::at_start(refusal::BYTES_OVER)),
        Plan::Typed(tree) => Walk::of(tree, value),
    }
}
