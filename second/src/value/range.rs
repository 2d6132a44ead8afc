//! Ranges.

use super::container::Container;
use super::heads::bounds;
use super::walk::Walk;
use crate::refusal::Refusal;

impl Walk<'_> {
    /// Flags, then the bounds, each a length and data (R5.13). One that is not sent has no entry
    /// (R6.7).
    pub fn range(&mut self, bound: u32, mut range: Container) -> Result<u32, Refusal> {
        let mut count = 0;
        for index in bounds(&mut range)? {
            let length = range.number()?;
            let span = range.element(length)?;
            self.value(bound, index, span)?;
            count += 1;
        }
        range.end()?;
        Ok(count)
    }
}
