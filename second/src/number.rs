//! Numbers: R7.8 to R7.11.

use crate::entry::Entry;
use crate::refusal::{self, Refusal};
use crate::scalar::Format;

/// An element as one number of its kind.
#[derive(Clone, Copy, Debug, PartialEq, Eq)]
pub struct Number {
    pub format: u32,
    /// An integer's two's complement in 64 bits, 0 or 1 for a bool, a float's own bits.
    pub bits: u64,
}

/// The number of an entry of a value, both accepted by the plan: it has one by its format (R7.8).
pub fn number(plan: &[u32], value: &[u8], entry: Entry) -> Result<Number, Refusal> {
    let content = entry.bytes(value);
    let number = match (&plan[entry.node as usize..], content) {
        // A scalar's node: 1, and its format (R4.2).
        (&[1, format, ..], Some(content)) => {
            let bits = Format::numbered(format).and_then(|format| bits(format, content));
            bits.map(|bits| Number { format, bits })
        }
        _ => None,
    };
    number.ok_or(Refusal::at_start(refusal::NO_NUMBER))
}

/// Integers with their sign in all 64 bits, bools, and floats by their own bits (R7.9, R7.10).
fn bits(format: Format, content: &[u8]) -> Option<u64> {
    match format {
        Format::Int16 | Format::Int32 | Format::Int64 | Format::Memory => Some(signed(content)),
        Format::Bool | Format::Float32 | Format::Float64 => Some(unsigned(content)),
        _ => None,
    }
}

fn unsigned(content: &[u8]) -> u64 {
    let digit = |sum: u64, &byte: &u8| sum << 8 | u64::from(byte);
    content.iter().fold(0, digit)
}

/// The first bit stands in all places before it too.
fn signed(content: &[u8]) -> u64 {
    let places = 64 - 8 * content.len() as u32;
    ((unsigned(content) << places) as i64 >> places) as u64
}
