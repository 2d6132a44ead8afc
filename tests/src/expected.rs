//! What is known of an answer without either program: by hand, or by how the input was made.

use crate::crossed::{accepted, list, refused};
use crate::report::{report, Hex};
use second::crossing::Answer;
use std::fmt::Display;

#[derive(Clone)]
pub enum Expected {
    Unknown,
    /// The number and place of a refusal.
    Refused(u32, u32),
    /// The words that are written: a list or a plan.
    Written(Vec<u32>),
    /// The bytes that are written: a value.
    Bytes(Vec<u8>),
    /// The start and length of what is found.
    Found(u32, u32),
}

impl Expected {
    /// Holds the answer that both programs give, and the room as they leave it, against what is
    /// known.
    pub fn hold(&self, call: &impl Display, answer: Answer, left: &[u8]) -> Result<Answer, String> {
        let (known, bytes) = match self {
            Expected::Unknown => return Ok(answer),
            Expected::Refused(number, place) => (refused(*number, *place), Vec::new()),
            Expected::Written(words) => (accepted(words.len() as u32, 0), list(words)),
            Expected::Bytes(bytes) => (accepted(bytes.len() as u32, 0), bytes.clone()),
            Expected::Found(start, length) => (accepted(*start, *length), Vec::new()),
        };
        if answer == known && left.starts_with(&bytes) {
            return Ok(answer);
        }
        let what = format!("both programs differ from what is known: {}", Hex(&bytes));
        let answers = [("both", answer), ("known", known)];
        Err(report(&what, call, &answers))
    }
}
