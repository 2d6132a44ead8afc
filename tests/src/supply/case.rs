//! The call of the comparison.

use crate::report::Hex;
use std::fmt;

pub type Case = crate::case::Case<WriteCall>;

/// `rembulfose_write_value`.
#[derive(Clone)]
pub struct WriteCall {
    pub plan: Vec<u8>,
    pub list: Vec<u8>,
    pub src: Vec<u8>,
    /// Bytes of room for the value.
    pub room: usize,
}

impl fmt::Display for WriteCall {
    fn fmt(&self, f: &mut fmt::Formatter) -> fmt::Result {
        let WriteCall {
            plan,
            list,
            src,
            room,
        } = self;
        writeln!(
            f,
            "  write_value, plan, {} bytes: {}",
            plan.len(),
            Hex(plan)
        )?;
        writeln!(f, "  list, {} bytes: {}", list.len(), Hex(list))?;
        writeln!(f, "  source, {} bytes: {}", src.len(), Hex(src))?;
        write!(f, "  output room, {room} bytes")
    }
}
