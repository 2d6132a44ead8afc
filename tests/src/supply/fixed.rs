//! Puts together the cases of every run.

use super::case::{Case, WriteCall};
use crate::crossed::list;
use crate::expected::Expected;
use crate::fence::Edge;

/// Enough for most values.
const ROOM: usize = 400;

pub type Cases = crate::fixed::Cases<Case>;

/// A plan, a list and a source as a case is written with them.
pub type Supplied<'a> = (&'a [u32], &'a [u32], &'a [u8]);

impl Cases {
    /// A supply that a value has: with just enough room, more, a byte too little, and none.
    pub fn good(&mut self, supplied: Supplied, value: &[u8]) {
        let enough = value.len();
        for room in [enough, enough + 1, enough + 100] {
            self.at_edges(call(supplied, room), Expected::Bytes(value.to_vec()));
        }
        if enough > 0 {
            for room in [enough - 1, 0] {
                self.at_edges(call(supplied, room), Expected::Refused(32, 0));
            }
        }
    }

    /// A refusal, whatever the room is.
    pub fn bad(&mut self, supplied: Supplied, number: u32) {
        for room in [ROOM, 0] {
            self.at_edges(call(supplied, room), Expected::Refused(number, 0));
        }
    }

    pub fn known(&mut self, supplied: Supplied, room: usize, expected: Expected) {
        self.push(call(supplied, room), Edge::Back, expected);
    }

    pub fn unknown(&mut self, supplied: Supplied) {
        self.known(supplied, ROOM, Expected::Unknown);
    }
}

fn call((plan, words, src): Supplied, room: usize) -> WriteCall {
    WriteCall {
        plan: list(plan),
        list: list(words),
        src: src.to_vec(),
        room,
    }
}
