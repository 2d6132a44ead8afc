//! The message reader.

use super::layout::{layout, Field};
use super::{whole_length, HEAD};
use crate::refusal::{self, Refusal};

/// A message that was read.
#[derive(Clone, Debug, PartialEq, Eq)]
pub struct Read {
    /// The message's bytes, type byte included.
    pub used: usize,
    /// Two words a body field, in layout order: where its content starts (the type byte is at 0)
    /// and its length.
    pub words: Vec<u32>,
}

/// Reads the message at the start of `src`. The order of refusals is 1, 2, 1, 3, then those of the
/// fields, then 5, then 31.
pub fn read_message(side: u32, src: &[u8], room_words: usize) -> Result<Read, Refusal> {
    // R1.6: 1 for fewer than five bytes, 2, 1 again, and then 3.
    let Some((head, _)) = src.split_first_chunk() else {
        return Err(Refusal::at_start(refusal::NOT_WHOLE));
    };
    let length = whole_length(head)?;
    // R2.3: what comes after the message has no effect.
    let Some(message) = src.get(..length) else {
        return Err(Refusal::at_start(refusal::NOT_WHOLE));
    };
    let Some(fields) = layout(side, head[0]) else {
        return Err(Refusal::at_start(refusal::UNKNOWN_TYPE));
    };
    let words = read_body(message, fields)?;
    if words.len() > room_words {
        return Err(Refusal::at_start(refusal::LIST_ROOM));
    }
    Ok(Read {
        used: message.len(),
        words,
    })
}

/// The list of a whole message's body.
fn read_body(message: &[u8], fields: &[Field]) -> Result<Vec<u32>, Refusal> {
    let mut body = Body {
        message,
        at: HEAD,
        words: Vec::new(),
    };
    body.fields(fields)?;
    if body.at < message.len() {
        return Err(Refusal::at(refusal::BYTES_LEFT, body.at));
    }
    Ok(body.words)
}

/// A walk through a body, left to right. Places fit 32 bits because a message has at most 65,536
/// bytes.
struct Body<'a> {
    message: &'a [u8],
    at: usize,
    words: Vec<u32>,
}

impl<'a> Body<'a> {
    fn fields(&mut self, fields: &[Field]) -> Result<(), Refusal> {
        fields.iter().try_for_each(|field| self.field(field))
    }

    /// First whole (4), then its content (6): R2.11. The parts of repeated items are fields (R2.7).
    fn field(&mut self, field: &Field) -> Result<(), Refusal> {
        let start = self.at;
        let Some(content) = self.content(field) else {
            return Err(Refusal::at(refusal::FIELD_PAST_END, start));
        };
        if !field.permits(content) {
            return Err(Refusal::at(refusal::BAD_FIELD, start));
        }
        // R2.13: of text and bytes the length before them is left out.
        let pair = [self.at - content.len(), content.len()];
        self.words.extend(pair.map(|word| word as u32));
        if let Field::Run(item) = field {
            let count = u16::from_be_bytes([content[0], content[1]]);
            for _ in 0..count {
                self.fields(item)?;
            }
        }
        Ok(())
    }

    /// Steps over one field and gives its content, or `None` where it runs past the message's end.
    fn content(&mut self, field: &Field) -> Option<&'a [u8]> {
        match field.width() {
            Some(width) => self.take(width),
            None => {
                let length = self.take(4)?;
                self.take(u32::from_be_bytes(length.try_into().ok()?) as usize)
            }
        }
    }

    fn take(&mut self, count: usize) -> Option<&'a [u8]> {
        let taken = self.message[self.at..].get(..count)?;
        self.at += count;
        Some(taken)
    }
}
