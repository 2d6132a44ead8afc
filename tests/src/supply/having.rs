//! When a value has a supply, as seen from its list.

use crate::entries::parents;
use second::entry::Entry;

const SET: u32 = 2;
const SET_OF_ARRAYS: u32 = 3;
const TUPLE: u32 = 4;
const OUTPUT: u32 = 5;
const RANGE: u32 = 7;

/// What an entry is by its node in these words of a plan.
pub struct Kinds<'a>(pub &'a [u32]);

impl Kinds<'_> {
    /// Where the node is outside of the plan, none.
    fn kind(&self, entry: &Entry) -> u32 {
        self.0.get(entry.node as usize).copied().unwrap_or(0)
    }

    pub fn is_leaf(&self, entry: &Entry) -> bool {
        [1, 8].contains(&self.kind(entry))
    }

    pub fn is_range(&self, entry: &Entry) -> bool {
        self.kind(entry) == RANGE
    }

    /// The part of the source that counts: a present leaf's bytes, a present range's flags.
    pub fn part<'s>(&self, entry: &Entry, src: &'s [u8]) -> Option<&'s [u8]> {
        let start = entry.start as usize;
        match entry.is_absent() {
            false if self.is_leaf(entry) => Some(&src[start..start + entry.length as usize]),
            false if self.is_range(entry) => Some(&src[start..=start]),
            _ => None,
        }
    }

    /// Whether a value has a supply: all that counts in an entry is equal (R8.2, R8.3). Both are a
    /// list, of a supply that was accepted and of a value, and the bytes that it is on.
    pub fn agree(&self, supply: (&[Entry], &[u8]), value: (&[Entry], &[u8])) -> bool {
        let same = |(one, other): (&Entry, &Entry)| {
            one.node == other.node
                && one.index == other.index
                && one.below == other.below
                && one.is_absent() == other.is_absent()
                && self.part(one, supply.1) == self.part(other, value.1)
        };
        supply.0.len() == value.0.len() && supply.0.iter().zip(value.0).all(same)
    }

    /// The value of a list with its containers' reserved fields zero.
    pub fn without_reserved(&self, entries: &[Entry], value: &[u8]) -> Vec<u8> {
        let mut value = value.to_vec();
        for (entry, parent) in entries.iter().zip(parents(entries)) {
            let start = entry.start as usize;
            // Before the length of what is in an envelope, a tuple or an output object.
            let parent = parent.map(|parent| self.kind(&entries[parent]));
            if let Some(SET_OF_ARRAYS | TUPLE | OUTPUT) = parent {
                value[start - 8..start - 4].fill(0);
            }
            // After ndims.
            if !entry.is_absent() && [SET, SET_OF_ARRAYS].contains(&self.kind(entry)) {
                value[start + 4..start + 12].fill(0);
            }
        }
        value
    }
}
