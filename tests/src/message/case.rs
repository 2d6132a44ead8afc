//! One case of the comparison: a call with all it is lent.

use crate::lending::Lending;
use crate::report::Hex;
use second::crossing::Answer;
use std::fmt;

pub struct Case {
    pub call: Call,
    pub lending: Lending,
    /// The answer worked out by hand, where there is one.
    pub expected: Option<Answer>,
}

pub enum Call {
    Read(ReadCall),
    Write(WriteCall),
}

/// `rembulfose_read_message`.
pub struct ReadCall {
    pub side: u32,
    pub src: Vec<u8>,
    /// Bytes of room for the list.
    pub room: usize,
}

/// `rembulfose_write_message`.
pub struct WriteCall {
    pub side: u32,
    pub type_byte: u8,
    pub list: Vec<u8>,
    pub src: Vec<u8>,
    /// Bytes of room for the message.
    pub room: usize,
}

impl fmt::Display for Case {
    fn fmt(&self, f: &mut fmt::Formatter) -> fmt::Result {
        write!(f, "{:?}\n{}", self.lending, self.call)
    }
}

impl fmt::Display for Call {
    fn fmt(&self, f: &mut fmt::Formatter) -> fmt::Result {
        match self {
            Call::Read(call) => call.fmt(f),
            Call::Write(call) => call.fmt(f),
        }
    }
}

impl fmt::Display for ReadCall {
    fn fmt(&self, f: &mut fmt::Formatter) -> fmt::Result {
        writeln!(f, "  read_message, side {}", self.side)?;
        writeln!(f, "  source, {} bytes: {}", self.src.len(), Hex(&self.src))?;
        write!(f, "  list room, {} bytes", self.room)
    }
}

impl fmt::Display for WriteCall {
    fn fmt(&self, f: &mut fmt::Formatter) -> fmt::Result {
        writeln!(
            f,
            "  write_message, side {}, type {:02x}",
            self.side, self.type_byte
        )?;
        writeln!(f, "  list, {} bytes: {}", self.list.len(), Hex(&self.list))?;
        writeln!(f, "  source, {} bytes: {}", self.src.len(), Hex(&self.src))?;
        write!(f, "  output room, {} bytes", self.room)
    }
}
