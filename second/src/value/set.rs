//! Sets, arrays and sets of arrays.

use super::container::Container;
use super::heads::{dimension, envelope};
use super::walk::Walk;
use crate::refusal::Refusal;

impl Walk<'_> {
    /// As many elements as the head says, each a length and data (R5.5). A count without elements
    /// costs nothing: the first head that is not there ends it.
    pub fn set(&mut self, element: u32, mut set: Container) -> Result<u32, Refusal> {
        let count = dimension(&mut set)?;
        for index in 0..count {
            let length = set.number()?;
            let span = set.element(length)?;
            self.value(element, index, span)?;
        }
        set.end()?;
        Ok(count)
    }

    /// The envelope is no container of its own: its faults have the set's place (R5.6), and the
    /// array starts just past the head (R6.4).
    pub fn set_of_arrays(&mut self, array: u32, mut set: Container) -> Result<u32, Refusal> {
        let count = dimension(&mut set)?;
        for index in 0..count {
            let length = envelope(&mut set)?;
            let span = set.element(length)?;
            self.value(array, index, span)?;
        }
        set.end()?;
        Ok(count)
    }
}
