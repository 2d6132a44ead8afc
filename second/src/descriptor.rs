//! Descriptors: docs/RULES.md, section 3; R3.3 has the order of fields.
//!
//! * `fields` reads a block's bytes, each field first whole; `references` has the rules of what a
//!   block may refer to; `bodies` reads the fields of each tag, and `reader` one block after the
//!   other.
//! * [`block`] is what was read, as data.
//! * `plan` writes the plan of the blocks.

pub mod block;
mod bodies;
mod fields;
mod plan;
mod reader;
mod references;

use crate::refusal::{self, Refusal};
use block::{Blocks, Id};
use reader::Reader;

/// The most bytes of a descriptor (R1.4).
const MOST_BYTES: usize = 65_535;
/// The id of "no type" (R3.17).
const ZERO: Id = [0; 16];

/// An accepted descriptor with its root.
#[derive(Clone, Debug, PartialEq, Eq)]
pub enum Descriptor<'a> {
    NoType,
    Typed {
        blocks: Blocks<'a>,
        /// The index of a block with values.
        root: usize,
    },
}

/// Reads a descriptor (R1.8): the total of bytes and what can be said of the root id alone come
/// before the blocks, and the root itself is looked for after them.
pub fn read<'a>(descriptor: &'a [u8], root: &[u8]) -> Result<Descriptor<'a>, Refusal> {
    if descriptor.len() > MOST_BYTES {
        return Err(Refusal::at_start(refusal::DESCRIPTOR_SIZE));
    }
    let no_root = Refusal::at(refusal::NO_ROOT, descriptor.len());
    let id: Id = root.try_into().map_err(|_| no_root)?;
    // R3.17: an id of zeros goes with no bytes, and any other with some.
    match (id == ZERO, descriptor.is_empty()) {
        (true, true) => return Ok(Descriptor::NoType),
        (true, false) | (false, true) => return Err(no_root),
        (false, false) => {}
    }
    let (blocks, indexes) = Reader::read(descriptor)?;
    // R3.17: some block has the id, and that one has values.
    let root = *indexes.get(&id).ok_or(no_root)?;
    if !blocks.list[root].body.has_values() {
        return Err(no_root);
    }
    Ok(Descriptor::Typed { blocks, root })
}

/// The words of a descriptor's plan. 30 is the last of all (R4.9).
pub fn compile(descriptor: &[u8], root: &[u8], room_words: usize) -> Result<Vec<u32>, Refusal> {
    let words = match read(descriptor, root)? {
        // R4.6: two words, and no node.
        Descriptor::NoType => vec![2, 0],
        Descriptor::Typed { blocks, root } => plan::words(&blocks.list, root),
    };
    if words.len() > room_words {
        return Err(Refusal::at_start(refusal::PLAN_ROOM));
    }
    Ok(words)
}
