//! The three calls, each made on the library and on the second program. All that can be seen of a call
//! is compared: the whole answer with its state, and every byte of the room (R10.7).

use crate::fence::{Edge, Input};
use crate::ffi;
use crate::report::{compare, Hex};
use second::intake::{self, Delivery, Intake};
use std::fmt::{self, Display};

/// The names of both.
const LIBRARY: &str = "library";
const SECOND: &str = "second program";

/// A room as each of them has it: the library's is fenced.
pub struct Rooms<'a> {
    library: &'a mut [u8],
    second: Vec<u8>,
}

impl<'a> Rooms<'a> {
    pub fn new(library: &'a mut [u8], content: &[u8]) -> Rooms<'a> {
        library.copy_from_slice(content);
        let second = content.to_vec();
        Rooms { library, second }
    }

    /// What stands in it.
    pub fn bytes(&self) -> &[u8] {
        &self.second
    }

    /// Others write to its front as much as it has room for.
    pub fn write(&mut self, bytes: &[u8]) {
        let bytes = &bytes[..bytes.len().min(self.second.len())];
        self.library[..bytes.len()].copy_from_slice(bytes);
        self.second[..bytes.len()].copy_from_slice(bytes);
    }
}

pub fn start(side: u32, room: usize) -> Result<Intake, String> {
    same_state(
        &format_args!("  start, side {side}, room {room} bytes"),
        ffi::intake_start(side, room),
        intake::start(side, room),
    )
}

pub fn reset(intake: Intake) -> Result<Intake, String> {
    same_state(
        &format_args!("  reset of {intake:?}"),
        ffi::intake_reset(intake),
        intake::reset(intake),
    )
}

/// A state that a call gives without any bytes.
fn same_state(call: &impl Display, library: Intake, second: Intake) -> Result<Intake, String> {
    compare(call, (LIBRARY, (library, &[])), (SECOND, (second, &[])))
}

/// A call that takes.
pub struct Take<'a> {
    pub intake: Intake,
    pub src: &'a [u8],
    pub edge: Edge,
}

impl Take<'_> {
    pub fn answer(&self, source: &mut Input, rooms: &mut Rooms) -> Result<Delivery, String> {
        let Rooms { library, second } = rooms;
        let lent = source.lend(self.src, self.edge);
        let answers = (
            ffi::intake_take(self.intake, lent, library),
            intake::take(self.intake, self.src, second),
        );
        compare(
            self,
            (LIBRARY, (answers.0, library)),
            (SECOND, (answers.1, second)),
        )
    }
}

impl Display for Take<'_> {
    fn fmt(&self, f: &mut fmt::Formatter) -> fmt::Result {
        writeln!(f, "  take, {:?}, {:?}", self.intake, self.edge)?;
        write!(f, "  source, {} bytes: {}", self.src.len(), Hex(self.src))
    }
}
