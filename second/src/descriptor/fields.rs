//! The fields of a block, read from left to right: it is asked whether a field is whole before it
//! is asked what it holds (R3.5). The place of all faults is the block's tag.

use crate::refusal::{self, Refusal};

/// The most that one count of a block may say (R1.4).
const MOST_ITEMS: u16 = 512;
/// None, at most one, one, many, at least one (R2.10).
const CARDINALITIES: [u8; 5] = [0x6e, 0x6f, 0x41, 0x6d, 0x4d];

pub struct Fields<'a> {
    bytes: &'a [u8],
    /// How much was read.
    at: usize,
    /// Where the tag of the block stands.
    tag: usize,
}

impl<'a> Fields<'a> {
    pub fn new(bytes: &'a [u8]) -> Fields<'a> {
        Fields {
            bytes,
            at: 0,
            tag: 0,
        }
    }

    /// The tag of the next block, or `None` where the descriptor ends before it.
    pub fn next_tag(&mut self) -> Option<u8> {
        let tag = *self.bytes.get(self.at)?;
        self.tag = self.at;
        self.at += 1;
        Some(tag)
    }

    pub fn refuse<T>(&self, number: u32) -> Result<T, Refusal> {
        Err(Refusal::at(number, self.tag))
    }

    /// A rule of a field's content: 12 unless it is obeyed.
    pub fn demand(&self, obeyed: bool) -> Result<(), Refusal> {
        if obeyed {
            Ok(())
        } else {
            self.refuse(refusal::BAD_CONTENT)
        }
    }

    /// 10 where bytes are missing, also where the field should start (R3.5).
    pub fn take<const N: usize>(&mut self) -> Result<[u8; N], Refusal> {
        let Some(taken) = self.bytes[self.at..].first_chunk() else {
            return self.refuse(refusal::CUT_DESCRIPTOR);
        };
        self.at += N;
        Ok(*taken)
    }

    pub fn byte(&mut self) -> Result<u8, Refusal> {
        let [byte] = self.take()?;
        Ok(byte)
    }

    pub fn short(&mut self) -> Result<u16, Refusal> {
        Ok(u16::from_be_bytes(self.take()?))
    }

    pub fn word(&mut self) -> Result<u32, Refusal> {
        Ok(u32::from_be_bytes(self.take()?))
    }

    /// Length and content are one field (R3.5), of which the content must be text (R3.6).
    pub fn text(&mut self) -> Result<&'a str, Refusal> {
        let length = self.word()? as usize;
        let Some(content) = self.bytes[self.at..].get(..length) else {
            return self.refuse(refusal::CUT_DESCRIPTOR);
        };
        self.at += length;
        match std::str::from_utf8(content) {
            Ok(text) => Ok(text),
            Err(_) => self.refuse(refusal::BAD_CONTENT),
        }
    }

    /// 0 or 1 (R3.6).
    pub fn bool(&mut self) -> Result<bool, Refusal> {
        let byte = self.byte()?;
        self.demand(byte <= 1)?;
        Ok(byte == 1)
    }

    pub fn cardinality(&mut self) -> Result<u8, Refusal> {
        let cardinality = self.byte()?;
        self.demand(CARDINALITIES.contains(&cardinality))?;
        Ok(cardinality)
    }

    /// A count over 512 is 17 before any item is read (R3.9).
    pub fn count(&mut self) -> Result<u16, Refusal> {
        let count = self.short()?;
        if count > MOST_ITEMS {
            return self.refuse(refusal::DESCRIPTOR_SIZE);
        }
        Ok(count)
    }
}
