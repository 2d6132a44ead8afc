//! What a block may refer to: R3.10 to R3.13.

use super::block::Body;
use super::reader::Reader;
use crate::refusal::{self, Refusal};

/// The greatest height of a block (R1.4, R3.13).
const MOST_HEIGHT: u32 = 32;

impl<'a> Reader<'a> {
    /// It is the index of an earlier block (R3.10).
    pub fn reference(&mut self) -> Result<u16, Refusal> {
        let index = self.fields.short()?;
        self.earlier(index)
    }

    /// A named tuple's has a sign, and a negative one is 13 (R3.10).
    pub fn signed_reference(&mut self) -> Result<u16, Refusal> {
        let index = i16::from_be_bytes(self.fields.take()?);
        match u16::try_from(index) {
            Ok(index) => self.earlier(index),
            Err(_) => self.fields.refuse(refusal::BAD_REFERENCE),
        }
    }

    fn earlier(&self, index: u16) -> Result<u16, Refusal> {
        if usize::from(index) >= self.blocks.list.len() {
            return self.fields.refuse(refusal::BAD_REFERENCE);
        }
        Ok(index)
    }

    /// The rule of the kind of block that a reference may go to.
    pub fn demand_kind(&self, index: u16, permits: fn(&Body<'a>) -> bool) -> Result<(), Refusal> {
        if permits(self.body(index)) {
            Ok(())
        } else {
            self.fields.refuse(refusal::WRONG_KIND)
        }
    }

    fn body(&self, index: u16) -> &Body<'a> {
        &self.blocks.list[usize::from(index)].body
    }

    /// The type and source_type of a shape, and a component, are object or compound types (R3.11).
    pub fn object_type(&mut self) -> Result<u16, Refusal> {
        let index = self.reference()?;
        self.demand_kind(index, Body::is_object_type)?;
        Ok(index)
    }

    /// An element reference of a set, array or range, or of a tuple or shape.
    pub fn element(&mut self, permits: fn(&Body<'a>) -> bool) -> Result<u16, Refusal> {
        let index = self.reference()?;
        self.judge_element(index, permits)
    }

    pub fn signed_element(&mut self) -> Result<u16, Refusal> {
        let index = self.signed_reference()?;
        self.judge_element(index, Body::has_values)
    }

    /// 17 comes with the reference that makes the block too high, after 14 (R3.13).
    fn judge_element(
        &mut self,
        index: u16,
        permits: fn(&Body<'a>) -> bool,
    ) -> Result<u16, Refusal> {
        self.demand_kind(index, permits)?;
        let height = self.blocks.list[usize::from(index)].height;
        if height >= MOST_HEIGHT {
            return self.fields.refuse(refusal::DESCRIPTOR_SIZE);
        }
        self.highest = self.highest.max(height);
        Ok(index)
    }
}

/// Every block with values but a set (R3.11).
pub fn is_set_element(body: &Body) -> bool {
    body.has_values() && !body.is_set()
}

/// And no array either (R3.11).
pub fn is_array_element(body: &Body) -> bool {
    is_set_element(body) && !body.is_array()
}
