//! The bytes of one container, read from left to right: a field is first whole, and then judged.

use crate::refusal::{self, Refusal};

/// Where a value lies in the top value.
#[derive(Clone, Copy, Debug)]
pub struct Span {
    pub start: usize,
    pub length: usize,
}

/// The place of all its faults is where the container itself starts, not its head in the parent
/// (R1.12).
pub struct Container<'a> {
    start: usize,
    /// How much was read.
    at: usize,
    bytes: &'a [u8],
}

impl<'a> Container<'a> {
    pub fn new(value: &'a [u8], span: Span) -> Container<'a> {
        Container {
            start: span.start,
            at: 0,
            bytes: &value[span.start..span.start + span.length],
        }
    }

    pub fn refuse<T>(&self, number: u32) -> Result<T, Refusal> {
        Err(Refusal::at(number, self.start))
    }

    /// A rule of a head field: 22 unless it is obeyed.
    pub fn demand(&self, obeyed: bool) -> Result<(), Refusal> {
        if obeyed {
            Ok(())
        } else {
            self.refuse(refusal::BAD_HEAD)
        }
    }

    /// The next bytes: 20 where they are not there, also where the head should start (R5.3).
    pub fn take(&mut self, count: usize) -> Result<&'a [u8], Refusal> {
        let Some(taken) = self.bytes[self.at..].get(..count) else {
            return self.refuse(refusal::CUT_CONTAINER);
        };
        self.at += count;
        Ok(taken)
    }

    /// So many numbers, all of them whole first.
    pub fn numbers<const N: usize>(&mut self) -> Result<[i32; N], Refusal> {
        let bytes = self.take(4 * N)?;
        let number = |at: usize| [bytes[at], bytes[at + 1], bytes[at + 2], bytes[at + 3]];
        Ok(std::array::from_fn(|index| {
            i32::from_be_bytes(number(4 * index))
        }))
    }

    pub fn number(&mut self) -> Result<i32, Refusal> {
        let [number] = self.numbers()?;
        Ok(number)
    }

    /// Where the next byte lies in the top value.
    pub fn place(&self) -> usize {
        self.start + self.at
    }

    /// Steps over the element of this length, which must not be absent: a negative length is 23,
    /// and one that the container does not hold is 20 (R5.3).
    pub fn element(&mut self, length: i32) -> Result<Span, Refusal> {
        let Ok(length) = usize::try_from(length) else {
            return self.refuse(refusal::BAD_ELEMENT_LENGTH);
        };
        let start = self.place();
        self.take(length)?;
        Ok(Span { start, length })
    }

    /// After the last element: no byte may follow (R5.14).
    pub fn end(&self) -> Result<(), Refusal> {
        if self.at < self.bytes.len() {
            return self.refuse(refusal::BYTES_OVER);
        }
        Ok(())
    }
}
