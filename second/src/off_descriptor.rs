//! The rules of values read off the descriptor, with no plan inside: R4.10 to R4.13. Scalars and
//! the heads of containers have the rules that they have by plan; kind, count, format and
//! cardinalities are looked up in the blocks, by `members` where there are many.

mod members;

use crate::descriptor::block::{Block, Body};
use crate::descriptor::{self, Descriptor};
use crate::entry::{ABSENT, ENTRY_WORDS};
use crate::refusal::{self, Refusal};
use crate::scalar;
use crate::value::container::{Container, Span};
use crate::value::heads::{bounds, dimension, envelope, full_count};
use crate::value::MOST_BYTES;
use members::{members, node_words, Absence, Member};
use std::collections::HashSet;

/// The list of a value of the root block. A descriptor that is not accepted has its own number;
/// then come 28, the value's first fault, and 31 (R4.13).
pub fn run(
    descriptor: &[u8],
    root: &[u8],
    value: &[u8],
    room_words: usize,
) -> Result<Vec<u32>, Refusal> {
    let descriptor = descriptor::read(descriptor, root)?;
    if value.len() > MOST_BYTES {
        return Err(Refusal::at_start(refusal::VALUE_SIZE));
    }
    let words = match descriptor {
        Descriptor::NoType => no_type(value)?,
        Descriptor::Typed { blocks, root } => Rules::of(&blocks.list, root, value)?,
    };
    if words.len() > room_words {
        return Err(Refusal::at_start(refusal::LIST_ROOM));
    }
    Ok(words)
}

/// No bytes, and an empty list; any other value is 21 at 0 (R4.6).
fn no_type(value: &[u8]) -> Result<Vec<u32>, Refusal> {
    if value.is_empty() {
        Ok(Vec::new())
    } else {
        Err(Refusal::at_start(refusal::BYTES_OVER))
    }
}

struct Rules<'a> {
    blocks: &'a [Block<'a>],
    /// The node word of each block.
    nodes: Vec<u32>,
    value: &'a [u8],
    words: Vec<u32>,
}

impl<'a> Rules<'a> {
    /// The whole value belongs to the root block (R4.11).
    fn of(blocks: &'a [Block], root: usize, value: &'a [u8]) -> Result<Vec<u32>, Refusal> {
        let mut rules = Rules {
            blocks,
            nodes: node_words(blocks),
            value,
            words: Vec::new(),
        };
        let whole = Span {
            start: 0,
            length: value.len(),
        };
        rules.value(root, 0, whole)?;
        Ok(rules.words)
    }

    /// A value of this block that has these bytes, by the block's own kind.
    fn value(&mut self, block: usize, index: u32, span: Span) -> Result<(), Refusal> {
        let below = self.words.len() + ENTRY_WORDS - 1;
        self.entry(block, index, span.start, span.length as u32);
        let bytes = Container::new(self.value, span);
        let blocks = self.blocks;
        self.words[below] = match &blocks[block].body {
            Body::Scalar { format, .. } => self.leaf(span, |content| format.permits(content))?,
            Body::Enumeration { .. } => self.leaf(span, scalar::enumeration)?,
            Body::Set { element } if blocks[usize::from(*element)].body.is_array() => {
                self.row(*element, bytes, envelope)?
            }
            Body::Set { element } | Body::Array { element, .. } => {
                self.row(*element, bytes, Container::number)?
            }
            Body::Range { bound, .. } => self.range(*bound, bytes)?,
            Body::Input { .. } => self.sparse(&members(&blocks[block].body), bytes)?,
            body => self.full(&members(body), bytes)?,
        };
        Ok(())
    }

    fn entry(&mut self, block: usize, index: u32, start: usize, length: u32) {
        let entry = [self.nodes[block], index, start as u32, length, 0];
        self.words.extend(entry);
    }

    /// Nothing is below a leaf.
    fn leaf(&self, span: Span, permits: impl Fn(&[u8]) -> bool) -> Result<u32, Refusal> {
        if permits(&self.value[span.start..span.start + span.length]) {
            Ok(0)
        } else {
            Err(Refusal::at(refusal::BAD_SCALAR, span.start))
        }
    }

    /// A set or array: each element has a head, which gives its length, and belongs to the block
    /// that the element reference names (R4.11).
    fn row<'v>(
        &mut self,
        element: u16,
        mut row: Container<'v>,
        head: fn(&mut Container<'v>) -> Result<i32, Refusal>,
    ) -> Result<u32, Refusal> {
        let count = dimension(&mut row)?;
        for index in 0..count {
            let length = head(&mut row)?;
            let span = row.element(length)?;
            self.value(usize::from(element), index, span)?;
        }
        row.end()?;
        Ok(count)
    }

    fn range(&mut self, bound: u16, mut range: Container) -> Result<u32, Refusal> {
        let indexes: Vec<u32> = bounds(&mut range)?.collect();
        for &index in &indexes {
            let length = range.number()?;
            let span = range.element(length)?;
            self.value(usize::from(bound), index, span)?;
        }
        range.end()?;
        Ok(indexes.len() as u32)
    }

    /// A tuple or output object: all members in their order.
    fn full(&mut self, members: &[Member], mut object: Container) -> Result<u32, Refusal> {
        let count = full_count(&mut object, members.len())?;
        for (index, member) in (0..).zip(members) {
            let [_, length] = object.numbers()?;
            self.member(*member, index, length, &mut object)?;
        }
        object.end()?;
        Ok(count)
    }

    /// An input object: the checks of each entry in the order of R5.10, and at the end those of
    /// R5.14.
    fn sparse(&mut self, members: &[Member], mut object: Container) -> Result<u32, Refusal> {
        let count = object.number()?;
        object.demand(count >= 0)?;
        let mut given = HashSet::new();
        for _ in 0..count {
            let [index, length] = object.numbers()?.map(|number: i32| number as u32);
            let Some(member) = members.get(index as usize) else {
                return object.refuse(refusal::INDEX_OUTSIDE);
            };
            if !given.insert(index) {
                return object.refuse(refusal::INDEX_TWICE);
            }
            self.member(*member, index, length as i32, &mut object)?;
        }
        object.end()?;
        for (index, member) in (0..).zip(members) {
            if member.absence == Absence::Required && !given.contains(&index) {
                return object.refuse(refusal::REQUIRED);
            }
        }
        Ok(count as u32)
    }

    /// A member whose head was read: absent, or a value of its block.
    fn member(
        &mut self,
        member: Member,
        index: u32,
        length: i32,
        object: &mut Container,
    ) -> Result<(), Refusal> {
        let block = usize::from(member.block);
        match (length, member.absence) {
            (-1, Absence::Required) => object.refuse(refusal::REQUIRED),
            (-1, Absence::Permitted) => {
                self.entry(block, index, object.place(), ABSENT);
                Ok(())
            }
            _ => {
                let span = object.element(length)?;
                self.value(block, index, span)
            }
        }
    }
}
