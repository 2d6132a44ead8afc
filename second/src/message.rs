//! The ten messages: docs/RULES.md, section 2.

mod layout;
mod reader;
mod writer;

use crate::refusal::{self, Refusal};
pub use layout::{layout, Field, CLIENT, SERVER};
pub use reader::{read_message, Read};
pub use writer::write_message;

/// The bytes of a head: type byte and length field (R2.2).
pub const HEAD: usize = 5;

/// The length field counts itself and not the type byte: its least and greatest value (R2.3).
const LEAST_LENGTH: usize = 4;
const MOST_LENGTH: usize = 65_535;

/// How many bytes the message with this head has, if it may have them: else 2 (R2.2, R2.3).
pub fn whole_length(&[_, a, b, c, d]: &[u8; HEAD]) -> Result<usize, Refusal> {
    let length = u32::from_be_bytes([a, b, c, d]) as usize;
    if !(LEAST_LENGTH..=MOST_LENGTH).contains(&length) {
        return Err(Refusal::at_start(refusal::BAD_LENGTH));
    }
    Ok(1 + length)
}
