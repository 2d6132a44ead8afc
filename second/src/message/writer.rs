//! The message writer.

use super::layout::{layout, Field};
use super::{LEAST_LENGTH, MOST_LENGTH};
use crate::refusal;

/// Writes the message of a side and a type byte whose fields hold the bytes of `src` that the pairs
/// of `words` name. `Err` is the refusal's number, in the order 3, 6, 2, 32; its place is always 0.
pub fn write_message(
    side: u32,
    type_byte: u8,
    words: &[u32],
    src: &[u8],
    room: usize,
) -> Result<Vec<u8>, u32> {
    let fields = layout(side, type_byte).ok_or(refusal::UNKNOWN_TYPE)?;
    let contents = gather(fields, words, src).ok_or(refusal::BAD_FIELD)?;
    // All contents are judged before the size is (R2.15).
    let length = LEAST_LENGTH + contents.iter().map(Content::size).sum::<usize>();
    if length > MOST_LENGTH {
        return Err(refusal::BAD_LENGTH);
    }
    if 1 + length > room {
        return Err(refusal::OUTPUT_ROOM);
    }
    let mut message = Vec::with_capacity(1 + length);
    message.push(type_byte);
    message.extend((length as u32).to_be_bytes());
    for content in contents {
        content.put(&mut message);
    }
    Ok(message)
}

/// What one field of the message will hold.
struct Content<'a> {
    has_length: bool,
    bytes: &'a [u8],
}

impl Content<'_> {
    fn size(&self) -> usize {
        self.bytes.len() + if self.has_length { 4 } else { 0 }
    }

    fn put(&self, message: &mut Vec<u8>) {
        if self.has_length {
            message.extend((self.bytes.len() as u32).to_be_bytes());
        }
        message.extend(self.bytes);
    }
}

/// The contents of a layout's fields, or `None` where the pairs do not fill it exactly, lie outside
/// the source, or name bytes that their field does not permit.
fn gather<'a>(fields: &[Field], words: &[u32], src: &'a [u8]) -> Option<Vec<Content<'a>>> {
    let mut gathering = Gathering {
        words,
        src,
        contents: Vec::new(),
    };
    gathering.fields(fields)?;
    gathering.words.is_empty().then_some(gathering.contents)
}

/// A walk through a layout that takes a pair from the list for each field.
struct Gathering<'w, 'a> {
    words: &'w [u32],
    src: &'a [u8],
    contents: Vec<Content<'a>>,
}

impl Gathering<'_, '_> {
    fn fields(&mut self, fields: &[Field]) -> Option<()> {
        fields.iter().try_for_each(|field| self.field(field))
    }

    fn field(&mut self, field: &Field) -> Option<()> {
        let (&[start, length], rest) = self.words.split_first_chunk()?;
        self.words = rest;
        let bytes = part(self.src, start, length)?;
        if field.width().is_some_and(|width| width != bytes.len()) || !field.permits(bytes) {
            return None;
        }
        self.contents.push(Content {
            has_length: field.has_length(),
            bytes,
        });
        if let Field::Run(item) = field {
            // The count is read from the source bytes at its own pair (R2.15).
            for _ in 0..u16::from_be_bytes([bytes[0], bytes[1]]) {
                self.fields(item)?;
            }
        }
        Some(())
    }
}

/// The bytes that a pair names. A pair of length 0 past the source's end lies outside too, and no
/// sum wraps (R2.15).
fn part(src: &[u8], start: u32, length: u32) -> Option<&[u8]> {
    src.get(start as usize..)?.get(..length as usize)
}
