//! One case of the comparison: a conversation with an intake, from its start on.

use crate::lending::Lending;
use crate::report::Hex;
use second::intake::Intake;
use std::fmt;

pub struct Case {
    pub side: u32,
    /// Bytes of room.
    pub room: usize,
    /// All that the deliveries bring, one behind the other.
    pub stream: Vec<u8>,
    pub steps: Vec<Step>,
    pub lending: Lending,
    /// The end worked out by hand, where there is one.
    pub expected: Option<End>,
}

#[derive(Clone, Debug)]
pub enum Step {
    /// The next bytes of the stream, so many, come: calls are made until they are taken, or refused.
    Deliver(usize),
    Reset,
    /// A call in which a room of this other length is lent, and the rest of the stream. It takes
    /// nothing.
    OtherRoom(usize),
    /// Others write this to the front of the room.
    WriteRoom(Vec<u8>),
    /// Others write the state.
    WriteState(Intake),
}

/// What a conversation comes to.
#[derive(Clone, Copy, Debug, Default, PartialEq, Eq)]
pub struct End {
    /// Messages that were given in all.
    pub messages: usize,
    /// What the state holds at the end.
    pub held: u32,
    /// What the last call answered.
    pub number: u32,
    pub place: u32,
    pub lacks: u32,
}

impl fmt::Display for Case {
    fn fmt(&self, f: &mut fmt::Formatter) -> fmt::Result {
        let Case { stream, steps, .. } = self;
        writeln!(f, "{:?}", self.lending)?;
        writeln!(f, "  intake, side {}, room {} bytes", self.side, self.room)?;
        write!(f, "  stream, {} bytes: {}", stream.len(), Hex(stream))?;
        for (number, step) in steps.iter().enumerate() {
            write!(f, "\n  step {number}: {step}")?;
        }
        Ok(())
    }
}

impl fmt::Display for Step {
    fn fmt(&self, f: &mut fmt::Formatter) -> fmt::Result {
        match self {
            Step::Deliver(length) => write!(f, "{length} bytes come"),
            Step::Reset => write!(f, "reset"),
            Step::OtherRoom(room) => write!(f, "a call with {room} bytes of room"),
            Step::WriteRoom(bytes) => write!(f, "others write the room: {}", Hex(bytes)),
            Step::WriteState(intake) => write!(f, "others write the state: {intake:?}"),
        }
    }
}
