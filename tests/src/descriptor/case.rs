//! One case of the comparison: a descriptor to compile, and a value to run by its plan.

use crate::expected::Expected;
use crate::lending::Lending;
use crate::report::Hex;
use crate::times::counts::{Tried, Trying};
use std::fmt;

pub struct Case {
    pub call: CompileCall,
    pub lending: Lending,
    pub expected: Expected,
    /// What is run by the plan if the descriptor is compiled.
    pub running: Option<Running>,
    /// The local_time that is tried in the value, where the case is of those.
    pub time: Option<Tried>,
}

impl Trying for Case {
    fn time(&mut self) -> &mut Option<Tried> {
        &mut self.time
    }
}

/// `rembulfose_compile`.
#[derive(Clone)]
pub struct CompileCall {
    pub descriptor: Vec<u8>,
    pub root: Vec<u8>,
    /// Bytes of room for the plan.
    pub room: usize,
}

/// `rembulfose_run`, by the plan that was compiled.
#[derive(Clone)]
pub struct Running {
    pub value: Vec<u8>,
    /// Bytes of room for the list.
    pub room: usize,
    pub expected: Expected,
}

impl fmt::Display for Case {
    fn fmt(&self, f: &mut fmt::Formatter) -> fmt::Result {
        write!(f, "{:?}\n{}", self.lending, self.call)?;
        match &self.running {
            Some(running) => write!(f, "\n{running}"),
            None => Ok(()),
        }
    }
}

impl fmt::Display for CompileCall {
    fn fmt(&self, f: &mut fmt::Formatter) -> fmt::Result {
        let CompileCall {
            descriptor, root, ..
        } = self;
        let length = descriptor.len();
        writeln!(f, "  compile, {length} bytes: {}", Hex(descriptor))?;
        writeln!(f, "  root, {} bytes: {}", root.len(), Hex(root))?;
        write!(f, "  plan room, {} bytes", self.room)
    }
}

impl fmt::Display for Running {
    fn fmt(&self, f: &mut fmt::Formatter) -> fmt::Result {
        let value = &self.value;
        writeln!(
            f,
            "  then run, value, {} bytes: {}",
            value.len(),
            Hex(value)
        )?;
        write!(f, "  list room, {} bytes", self.room)
    }
}
