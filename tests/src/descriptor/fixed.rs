//! Puts together the cases of every run.

use super::bytes::{known, scalar, INT64};
use super::case::{Case, CompileCall, Running};
use crate::expected::Expected;
use crate::fence::Edge;
use crate::fixed::rooms;

/// Where the block after `scalar(INT64)` starts.
pub const AFTER: usize = 25;

/// Enough for most plans and lists.
const ROOM: usize = 400;

pub type Cases = crate::fixed::Cases<Case>;

impl Cases {
    /// A good descriptor, with enough room and with too little.
    pub fn good(&mut self, descriptor: &[u8], root: &[u8], plan: &[u32]) {
        for (room, expected) in rooms(plan, 30) {
            self.at_edges(call(descriptor, root, room), expected, None);
        }
    }

    /// A refusal, whatever the room is.
    pub fn bad(&mut self, descriptor: &[u8], root: &[u8], number: u32, place: usize) {
        for room in [ROOM, 0] {
            let expected = Expected::Refused(number, place as u32);
            self.at_edges(call(descriptor, root, room), expected, None);
        }
    }

    /// A block that is refused by this number where it comes after `scalar(INT64)`.
    pub fn second(&mut self, block: &[u8], number: u32) {
        let descriptor = [&scalar(INT64), block].concat();
        self.bad(&descriptor, &known(INT64), number, AFTER);
    }

    /// A descriptor of which nothing is known, and a value that is run if it is accepted.
    pub fn unknown(&mut self, descriptor: &[u8], root: &[u8], value: &[u8]) {
        let running = running(value, ROOM, Expected::Unknown);
        let call = call(descriptor, root, ROOM);
        self.push(call, Edge::Back, Expected::Unknown, Some(running));
    }

    /// A good value of a good descriptor: with just enough room for the list, and with less.
    pub fn listed(&mut self, descriptor: &[u8], root: &[u8], value: &[u8], list: &[u32]) {
        let enough = 4 * list.len();
        for room in [enough, enough + 7] {
            let written = Expected::Written(list.to_vec());
            self.run(descriptor, root, running(value, room, written));
        }
        if enough > 0 {
            let refused = Expected::Refused(31, 0);
            self.run(descriptor, root, running(value, enough - 1, refused));
        }
    }

    /// A bad value of a good descriptor.
    pub fn faulty(&mut self, descriptor: &[u8], root: &[u8], value: &[u8], fault: (u32, u32)) {
        let refused = Expected::Refused(fault.0, fault.1);
        self.run(descriptor, root, running(value, 40_000, refused));
    }

    /// A value that is run by a descriptor's plan, with room enough for the plan.
    fn run(&mut self, descriptor: &[u8], root: &[u8], running: Running) {
        let call = call(descriptor, root, 32_768);
        self.at_edges(call, Expected::Unknown, Some(running));
    }

    /// A descriptor and its plan, for which there is just enough room, and a value that is run by it:
    /// with its bytes of room for the list, and what is known of it.
    pub fn planned(
        &mut self,
        (descriptor, root, plan): (&[u8], &[u8], &[u32]),
        (value, room, expected): (&[u8], usize, Expected),
    ) {
        let call = call(descriptor, root, 4 * plan.len());
        let running = running(value, room, expected);
        self.push(
            call,
            Edge::Back,
            Expected::Written(plan.to_vec()),
            Some(running),
        );
    }

    pub fn known(&mut self, descriptor: &[u8], root: &[u8], room: usize, expected: Expected) {
        self.push(call(descriptor, root, room), Edge::Back, expected, None);
    }

    /// The same with either end of its buffers fenced.
    fn at_edges(&mut self, call: CompileCall, expected: Expected, running: Option<Running>) {
        for edge in [Edge::Front, Edge::Back] {
            self.push(call.clone(), edge, expected.clone(), running.clone());
        }
    }

    fn push(
        &mut self,
        call: CompileCall,
        edge: Edge,
        expected: Expected,
        running: Option<Running>,
    ) {
        let lending = self.lending(edge);
        self.0.push(Case {
            call,
            lending,
            expected,
            running,
            time: None,
        });
    }
}

fn call(descriptor: &[u8], root: &[u8], room: usize) -> CompileCall {
    CompileCall {
        descriptor: descriptor.to_vec(),
        root: root.to_vec(),
        room,
    }
}

fn running(value: &[u8], room: usize, expected: Expected) -> Running {
    Running {
        value: value.to_vec(),
        room,
        expected,
    }
}
