//! One case of the comparison: the calls with all that they are lent.

use crate::expected::Expected;
use crate::lending::Lending;
use crate::report::Hex;
use crate::times::counts::{Tried, Trying};
use second::crossing::NumberAnswer;
use std::fmt;

pub struct Case {
    pub call: FindCall,
    pub lending: Lending,
    /// What is known of the element.
    pub expected: Expected,
    /// What is known of its number.
    pub number: Option<NumberAnswer>,
    /// The entry of the value's list that the path names, where that is known.
    pub entry: Option<usize>,
    /// The local_time that it tries, where it is of those.
    pub time: Option<Tried>,
}

/// `rembulfose_find` and `rembulfose_find_number`, which are lent the same.
pub struct FindCall {
    pub plan: Vec<u8>,
    pub value: Vec<u8>,
    pub path: Vec<u8>,
}

impl Trying for Case {
    fn time(&mut self) -> &mut Option<Tried> {
        &mut self.time
    }
}

impl fmt::Display for Case {
    fn fmt(&self, f: &mut fmt::Formatter) -> fmt::Result {
        write!(f, "{:?}\n{}", self.lending, self.call)
    }
}

impl fmt::Display for FindCall {
    fn fmt(&self, f: &mut fmt::Formatter) -> fmt::Result {
        let FindCall { plan, value, path } = self;
        writeln!(f, "  find, plan, {} bytes: {}", plan.len(), Hex(plan))?;
        writeln!(f, "  value, {} bytes: {}", value.len(), Hex(value))?;
        write!(f, "  path, {} bytes: {}", path.len(), Hex(path))
    }
}
