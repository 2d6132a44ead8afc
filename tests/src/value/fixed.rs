//! Puts together the cases of every run.

use super::case::{Case, RunCall};
use crate::crossed::list;
use crate::expected::Expected;
use crate::fence::Edge;
use crate::fixed::rooms;

/// Enough for most lists.
const ROOM: usize = 400;

pub type Cases = crate::fixed::Cases<Case>;

impl Cases {
    /// A good value, with enough room and with too little.
    pub fn good(&mut self, plan: &[u32], value: &[u8], words: &[u32]) {
        for (room, expected) in rooms(words, 31) {
            self.at_edges(call(plan, value, room), expected);
        }
    }

    /// A refusal, whatever the room is.
    pub fn bad(&mut self, plan: &[u32], value: &[u8], number: u32, place: u32) {
        for room in [ROOM, 0] {
            let expected = Expected::Refused(number, place);
            self.at_edges(call(plan, value, room), expected);
        }
    }

    pub fn known(&mut self, plan: &[u32], value: &[u8], room: usize, expected: Expected) {
        self.push(call(plan, value, room), Edge::Back, expected);
    }

    pub fn unknown(&mut self, plan: &[u32], value: &[u8]) {
        self.known(plan, value, ROOM, Expected::Unknown);
    }
}

fn call(plan: &[u32], value: &[u8], room: usize) -> RunCall {
    RunCall {
        plan: list(plan),
        value: value.to_vec(),
        room,
    }
}
