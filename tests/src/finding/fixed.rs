//! Puts together the cases of every run.

use super::case::{Case, FindCall};
use super::making::named;
use crate::crossed::list;
use crate::entries::{entries, path_to};
use crate::expected::Expected;
use crate::fence::Edge;
use crate::lending::Lending;
use second::crossing::NumberAnswer;

/// Of a long list only so many entries are looked for, and the last.
const FIRST_ENTRIES: usize = 40;

pub type Cases = crate::fixed::Cases<Case>;

/// A plan, a value and a path as a case is written with them.
pub type Lookup<'a> = (&'a [u32], &'a [u8], &'a [u32]);

impl Cases {
    /// An element that is found, and its format and bits if it has a number, else 37.
    pub fn found(&mut self, lookup: Lookup, part: (u32, u32), number: Option<(u32, u64)>) {
        let number = match number {
            Some((format, bits)) => numbered(0, 0, format, bits),
            None => numbered(37, 0, 0, 0),
        };
        let expected = Expected::Found(part.0, part.1);
        self.push(crossed(lookup), expected, Some(number), None);
    }

    /// A refusal by both calls.
    pub fn bad(&mut self, lookup: Lookup, number: u32, place: u32) {
        self.refused(crossed(lookup), number, place);
    }

    pub fn refused(&mut self, call: FindCall, number: u32, place: u32) {
        let expected = Expected::Refused(number, place);
        self.push(call, expected, Some(numbered(number, place, 0, 0)), None);
    }

    pub fn unknown(&mut self, lookup: Lookup) {
        self.push(crossed(lookup), Expected::Unknown, None, None);
    }

    /// Each entry of a good value's list, and a step below each that has none below it.
    pub fn each_entry(&mut self, plan: &[u8], value: &[u8], words: &[u32]) {
        let entries = entries(words);
        let last = entries.len().saturating_sub(1);
        for (number, entry) in entries.iter().enumerate() {
            if number >= FIRST_ENTRIES && number != last {
                continue;
            }
            let call = |path: &[u32]| FindCall {
                plan: plan.to_vec(),
                value: value.to_vec(),
                path: list(path),
            };
            let mut path = path_to(&entries, number);
            self.push(call(&path), named(entry), None, Some(number));
            if entry.below == 0 {
                path.push(0);
                self.refused(call(&path), 35, 0);
            }
        }
    }

    fn push(
        &mut self,
        call: FindCall,
        expected: Expected,
        number: Option<NumberAnswer>,
        entry: Option<usize>,
    ) {
        let edge = match self.0.len() % 2 {
            0 => Edge::Front,
            _ => Edge::Back,
        };
        self.0.push(Case {
            call,
            lending: Lending { edge, fill: 0 },
            expected,
            number,
            entry,
            time: None,
        });
    }
}

fn numbered(number: u32, place: u32, format: u32, bits: u64) -> NumberAnswer {
    NumberAnswer {
        number,
        place,
        format,
        bits,
    }
}

fn crossed((plan, value, path): Lookup) -> FindCall {
    FindCall {
        plan: list(plan),
        value: value.to_vec(),
        path: list(path),
    }
}
