//! Lists as entries, and what lies between them.

use crate::crossed::list;
use second::entry::Entry;

/// The entries of a list, which must be whole.
pub fn entries(words: &[u32]) -> Vec<Entry> {
    Entry::all(words).expect("five words an entry")
}

/// The list of these entries as it crosses.
pub fn crossing_list(entries: &[Entry]) -> Vec<u8> {
    let words = |entry: &Entry| {
        let Entry {
            node,
            index,
            start,
            length,
            below,
        } = *entry;
        [node, index, start, length, below]
    };
    list(entries.iter().map(words).collect::<Vec<_>>().as_flattened())
}

/// The number of each entry's parent in a list that is whole; the top has none.
pub fn parents(entries: &[Entry]) -> Vec<Option<usize>> {
    let mut parents = Vec::with_capacity(entries.len());
    // Entries below which others are still to come, and how many.
    let mut open: Vec<(usize, u32)> = Vec::new();
    for (number, entry) in entries.iter().enumerate() {
        parents.push(open.last().map(|(parent, _)| *parent));
        if let Some((_, left)) = open.last_mut() {
            *left -= 1;
        }
        open.push((number, entry.below));
        while open.last().is_some_and(|(_, left)| *left == 0) {
            open.pop();
        }
    }
    parents
}

/// The path that leads to an entry.
pub fn path_to(entries: &[Entry], number: usize) -> Vec<u32> {
    let parents = parents(&entries[..=number]);
    let mut path = Vec::new();
    let mut at = number;
    while let Some(parent) = parents[at] {
        path.push(entries[at].index);
        at = parent;
    }
    path.reverse();
    path
}
