//! The call of the comparison.

use crate::report::Hex;
use std::fmt;

pub type Case = crate::case::Case<RunCall>;

/// `rembulfose_run`.
#[derive(Clone)]
pub struct RunCall {
    pub plan: Vec<u8>,
    pub value: Vec<u8>,
    /// Bytes of room for the list.
    pub room: usize,
}

impl fmt::Display for RunCall {
    fn fmt(&self, f: &mut fmt::Formatter) -> fmt::Result {
        writeln!(
            f,
            "  run, plan, {} bytes: {}",
            self.plan.len(),
            Hex(&self.plan)
        )?;
        writeln!(
            f,
            "  value, {} bytes: {}",
            self.value.len(),
            Hex(&self.value)
        )?;
        write!(f, "  list room, {} bytes", self.room)
    }
}
