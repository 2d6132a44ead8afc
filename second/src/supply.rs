//! Writing values: docs/RULES.md, section 8.
//!
//! The value is put together entry by entry, as its list would be read. Each word that counts is
//! held against the only one that an accepted value could have there; where it differs, or where
//! what it names is not permitted, no accepted value has the supply.
//!
//! * `builder` takes the entries in turn and puts out leaves and heads.
//! * `containers` has what each kind of container puts out.

mod builder;
mod containers;

use crate::plan::Plan;
use crate::refusal;
use builder::Builder;

/// The value of a supply. Of 33, 34 and 32 (R1.10) the first was given where the plan was read.
pub fn write_value(plan: &Plan, list: &[u32], src: &[u8], room: usize) -> Result<Vec<u8>, u32> {
    let value = value(plan, list, src).ok_or(refusal::NO_VALUE)?;
    if value.len() > room {
        return Err(refusal::OUTPUT_ROOM);
    }
    Ok(value)
}

/// The accepted value that has the supply, with its containers' reserved fields zero (R8.4, R8.5).
fn value(plan: &Plan, list: &[u32], src: &[u8]) -> Option<Vec<u8>> {
    match plan {
        // The value of no type has no entries (R8.11).
        Plan::NoType => list.is_empty().then(Vec::new),
        Plan::Typed(tree) => Builder::whole(tree, list, src),
    }
}
