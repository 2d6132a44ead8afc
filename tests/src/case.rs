//! One case of a comparison: a call with all it is lent.

use crate::expected::Expected;
use crate::lending::Lending;
use crate::times::counts::{Tried, Trying};
use std::fmt;

pub struct Case<C> {
    pub call: C,
    pub lending: Lending,
    pub expected: Expected,
    /// The local_time that it tries, where it is of those.
    pub time: Option<Tried>,
}

impl<C> Trying for Case<C> {
    fn time(&mut self) -> &mut Option<Tried> {
        &mut self.time
    }
}

impl<C: fmt::Display> fmt::Display for Case<C> {
    fn fmt(&self, f: &mut fmt::Formatter) -> fmt::Result {
        write!(f, "{:?}\n{}", self.lending, self.call)
    }
}
