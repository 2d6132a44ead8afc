//! What the containers put out: their heads, with reserved fields zero, and their elements.

use super::builder::Builder;
use crate::entry::Entry;
use crate::plan::Element;
use crate::value::heads::{are_permitted, bounds_on_wire};
use std::mem;

impl Builder<'_> {
    pub fn set(&mut self, element: u32, count: u32) -> Option<()> {
        self.dimension(count)?;
        (0..count).try_for_each(|index| self.element(element, index))
    }

    pub fn set_of_arrays(&mut self, array: u32, count: u32) -> Option<()> {
        self.dimension(count)?;
        (0..count).try_for_each(|index| self.enveloped(array, index))
    }

    /// The head of a set or array: an empty one has no dimension and 12 bytes (R8.9). More elements
    /// than a signed count can say are more than there is place for.
    fn dimension(&mut self, count: u32) -> Option<()> {
        match count {
            0 => self.put_words(&[0, 0, 0]),
            _ => self.put_words(&[1, 0, 0, count, 1]),
        }
    }

    pub fn tuple(&mut self, elements: &[u32], count: u32) -> Option<()> {
        self.full_count(elements.len(), count)?;
        for (index, &element) in (0..).zip(elements) {
            self.put_words(&[0])?;
            self.element(element, index)?;
        }
        Some(())
    }

    pub fn output(&mut self, elements: &[Element], count: u32) -> Option<()> {
        self.full_count(elements.len(), count)?;
        for (index, element) in (0..).zip(elements) {
            self.put_words(&[0])?;
            self.field(element, index)?;
        }
        Some(())
    }

    /// As many elements as the node has (R5.7).
    fn full_count(&mut self, elements: usize, count: u32) -> Option<()> {
        if count as usize != elements {
            return None;
        }
        self.put_words(&[count])
    }

    /// Sparse: the elements keep the supply's order (R8.9), each index is given once, and the
    /// required ones are.
    pub fn input(&mut self, elements: &[Element], count: u32) -> Option<()> {
        let mut given = vec![false; elements.len()];
        self.put_words(&[count])?;
        for _ in 0..count {
            let index = self.next_entry()?.index;
            let element = elements.get(index as usize)?;
            if mem::replace(&mut given[index as usize], true) {
                return None;
            }
            self.put_words(&[index])?;
            self.field(element, index)?;
        }
        let mut all = elements.iter().zip(given);
        let whole = all.all(|(element, given)| given || !element.is_required());
        whole.then_some(())
    }

    /// The flags say which bounds there are; the count must be theirs.
    pub fn range(&mut self, bound: u32, range: Entry) -> Option<()> {
        let flags = self.flags(range)?;
        let on_wire = bounds_on_wire(flags);
        if !are_permitted(flags) || on_wire.count() != range.below as usize {
            return None;
        }
        self.put(&[flags])?;
        bounds_on_wire(flags).try_for_each(|index| self.element(bound, index))
    }
}
