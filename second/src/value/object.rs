//! Tuples, output objects and input objects, which are sparse.

use super::container::Container;
use super::heads::full_count;
use super::walk::Walk;
use crate::plan::Element;
use crate::refusal::{self, Refusal};
use std::mem;

impl Walk<'_> {
    /// Each element has reserved bytes, a length and data, and none may be absent (R5.7).
    pub fn tuple(&mut self, elements: &[u32], mut tuple: Container) -> Result<u32, Refusal> {
        let count = full_count(&mut tuple, elements.len())?;
        for (index, &element) in (0..).zip(elements) {
            let [_, length] = tuple.numbers()?;
            let span = tuple.element(length)?;
            self.value(element, index, span)?;
        }
        tuple.end()?;
        Ok(count)
    }

    pub fn output(&mut self, elements: &[Element], mut object: Container) -> Result<u32, Refusal> {
        let count = full_count(&mut object, elements.len())?;
        for (index, element) in (0..).zip(elements) {
            let [_, length] = object.numbers()?;
            self.field(element, index, length, &mut object)?;
        }
        object.end()?;
        Ok(count)
    }

    /// Sparse: entries in any order, each with its index (R5.9). The checks of an entry come in the
    /// order of R5.10, and those after the last one in that of R5.14.
    pub fn input(&mut self, elements: &[Element], mut object: Container) -> Result<u32, Refusal> {
        let count = object.number()?;
        object.demand(count >= 0)?;
        let mut given = vec![false; elements.len()];
        for _ in 0..count {
            let [index, length] = object.numbers()?;
            let Some(element) = elements.get(index as u32 as usize) else {
                return object.refuse(refusal::INDEX_OUTSIDE);
            };
            // Absent or not, an index is given once (R5.10).
            if mem::replace(&mut given[index as usize], true) {
                return object.refuse(refusal::INDEX_TWICE);
            }
            self.field(element, index as u32, length, &mut object)?;
        }
        object.end()?;
        let mut missing = elements.iter().zip(given);
        if missing.any(|(element, given)| element.is_required() && !given) {
            return object.refuse(refusal::REQUIRED);
        }
        Ok(count as u32)
    }

    /// An object's element whose head was read. With -1 a required one is 27, and another is absent
    /// (R5.11). Below -1: 23.
    fn field(
        &mut self,
        element: &Element,
        index: u32,
        length: i32,
        object: &mut Container,
    ) -> Result<(), Refusal> {
        if length != -1 {
            let span = object.element(length)?;
            self.value(element.node, index, span)
        } else if element.is_required() {
            object.refuse(refusal::REQUIRED)
        } else {
            self.absent(element.node, index, object.place());
            Ok(())
        }
    }
}
