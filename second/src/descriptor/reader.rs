//! The reader of a descriptor's blocks, one after the other.

use super::block::{Annotation, Block, Blocks, Body, Id};
use super::fields::Fields;
use super::ZERO;
use crate::refusal::{self, Refusal};
use std::collections::HashMap;

/// The most blocks that have an index (R1.4).
const MOST_BLOCKS: usize = 1_024;
const ANNOTATION: u8 = 0x7f;

/// The known tags (R3.2) but that of annotations: these blocks take an index.
#[derive(Clone, Copy, Debug, PartialEq, Eq)]
pub enum Tag {
    Set,
    Output,
    Scalar,
    Tuple,
    NamedTuple,
    Array,
    Enumeration,
    Input,
    Range,
    Object,
    Compound,
    Record,
}

impl Tag {
    fn of(byte: u8) -> Option<Tag> {
        Some(match byte {
            0 => Tag::Set,
            1 => Tag::Output,
            3 => Tag::Scalar,
            4 => Tag::Tuple,
            5 => Tag::NamedTuple,
            6 => Tag::Array,
            7 => Tag::Enumeration,
            8 => Tag::Input,
            9 => Tag::Range,
            10 => Tag::Object,
            11 => Tag::Compound,
            13 => Tag::Record,
            _ => return None,
        })
    }
}

/// What was read of a descriptor so far.
pub struct Reader<'a> {
    pub fields: Fields<'a>,
    pub blocks: Blocks<'a>,
    /// The indexes of the blocks by their ids.
    indexes: HashMap<Id, usize>,
    /// The height of the highest element so far of the block that is being read.
    pub highest: u32,
}

impl<'a> Reader<'a> {
    /// The blocks of a whole descriptor, and their indexes by their ids.
    pub fn read(descriptor: &'a [u8]) -> Result<(Blocks<'a>, HashMap<Id, usize>), Refusal> {
        let mut reader = Reader {
            fields: Fields::new(descriptor),
            blocks: Blocks::default(),
            indexes: HashMap::new(),
            highest: 0,
        };
        while let Some(tag) = reader.fields.next_tag() {
            match tag {
                ANNOTATION => reader.annotation()?,
                _ => reader.indexed(tag)?,
            }
        }
        Ok((reader.blocks, reader.indexes))
    }

    /// Its reference is to an earlier block of any kind (R3.4).
    fn annotation(&mut self) -> Result<(), Refusal> {
        let annotation = Annotation {
            block: self.reference()?,
            key: self.fields.text()?,
            value: self.fields.text()?,
        };
        self.blocks.annotations.push(annotation);
        Ok(())
    }

    /// A block that takes an index: one too many is told by its tag, after 11 (R3.14).
    fn indexed(&mut self, tag: u8) -> Result<(), Refusal> {
        let Some(tag) = Tag::of(tag) else {
            return self.fields.refuse(refusal::UNKNOWN_TAG);
        };
        let index = self.blocks.list.len();
        if index >= MOST_BLOCKS {
            return self.fields.refuse(refusal::DESCRIPTOR_SIZE);
        }
        let id = self.fields.take()?;
        // R3.7: an id is not zero, and no earlier block's.
        if id == ZERO || self.indexes.insert(id, index).is_some() {
            return self.fields.refuse(refusal::BAD_ID);
        }
        self.highest = 0;
        let body = self.body_of(tag, &id)?;
        let height = self.height(&body);
        self.blocks.list.push(Block { id, height, body });
        Ok(())
    }

    /// Of a block without values nothing asks for it (R3.13).
    fn height(&self, body: &Body) -> u32 {
        if body.has_values() {
            self.highest + 1
        } else {
            0
        }
    }
}
