//! Finding: R7.1 to R7.7.
//!
//! The value is listed whole, and the path followed down the list: what it leads to is an entry.

use crate::entry::Entry;
use crate::refusal::{self, Refusal};
use crate::value;

/// The entry of a value that a path leads to: 35 or 36 come after all else (R1.11).
pub fn find(plan: &[u32], value: &[u8], path: &[u32]) -> Result<Entry, Refusal> {
    named(&whole_list(plan, value)?, path)
}

/// All that comes before the path is looked at: no list room is needed (R7.7).
pub fn whole_list(plan: &[u32], value: &[u8]) -> Result<Vec<u32>, Refusal> {
    value::run(plan, value, usize::MAX)
}

/// The entry of a list that a path names, which must be there.
pub fn named(list: &[u32], path: &[u32]) -> Result<Entry, Refusal> {
    let entries = Entry::all(list).unwrap_or_default();
    let Some(entry) = follow(&entries, path) else {
        return Err(Refusal::at_start(refusal::NO_ENTRY));
    };
    if entry.is_absent() {
        return Err(Refusal::at_start(refusal::ABSENT_ELEMENT));
    }
    Ok(entry)
}

/// Down from the top, by one index after the other (R7.2). Under "no type" there is no top (R7.6).
fn follow(entries: &[Entry], path: &[u32]) -> Option<Entry> {
    let mut at = 0;
    for &index in path {
        at = below(entries, at, index)?;
    }
    entries.get(at).copied()
}

/// Where the entry of this index directly below the one at `parent` is. Nothing is below a leaf or
/// an absent element.
fn below(entries: &[Entry], parent: usize, index: u32) -> Option<usize> {
    let mut at = parent + 1;
    for _ in 0..entries.get(parent)?.below {
        if entries[at].index == index {
            return Some(at);
        }
        at = after(entries, at);
    }
    None
}

/// Where the entry after this one and all below it is.
fn after(entries: &[Entry], mut at: usize) -> usize {
    let mut left = 1;
    while left > 0 {
        left = left - 1 + entries[at].below;
        at += 1;
    }
    at
}
