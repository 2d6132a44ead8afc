//! Damages the order and number of a supply's entries.

use super::making::Supply;
use crate::entries::parents;
use crate::rng::Rng;
use second::entry::Entry;

/// Entries dropped, doubled or exchanged, alone or with all below them; the parent then counts
/// them, and numbers its elements, as before or truly.
pub fn entries(rng: &mut Rng, supply: &mut Supply) {
    let entries = &mut supply.entries;
    let count = entries.len();
    if count == 0 {
        return;
    }
    let at = rng.below(count);
    match rng.below(8) {
        0 => {
            entries.remove(at);
        }
        1 => entries.insert(at, entries[at]),
        2 => entries.swap(at, rng.below(count)),
        3 => entries.truncate(at),
        4 => entries.extend_from_within(at..),
        _ => with_all_below(rng, entries, at),
    }
}

/// Where an entry and all below it end, or `None` where the list has not all of them.
fn end(entries: &[Entry], at: usize) -> Option<usize> {
    let (mut left, mut end) = (1, at);
    while left > 0 {
        left = left - 1 + u64::from(entries.get(end)?.below);
        end += 1;
    }
    Some(end)
}

/// An element, with all below it, dropped or doubled. Nothing is done where the list is no longer
/// whole.
fn with_all_below(rng: &mut Rng, entries: &mut Vec<Entry>, at: usize) {
    if end(entries, 0) != Some(entries.len()) {
        return;
    }
    let (Some(parent), Some(after)) = (parents(entries)[at], end(entries, at)) else {
        return;
    };
    let more = rng.once_in(2);
    if more {
        let again = entries[at..after].to_vec();
        entries.splice(after..after, again);
    } else {
        entries.drain(at..after);
    }
    if rng.below(4) > 0 {
        entries[parent].below = match more {
            true => entries[parent].below + 1,
            false => entries[parent].below - 1,
        };
        if rng.below(3) > 0 {
            number(entries, parent);
        }
    }
}

/// Gives the entries directly below one the indexes 0 and on.
fn number(entries: &mut [Entry], parent: usize) {
    let mut at = Some(parent + 1);
    for index in 0..entries[parent].below {
        if let Some(number) = at {
            entries[number].index = index;
            at = end(entries, number);
        }
    }
}
