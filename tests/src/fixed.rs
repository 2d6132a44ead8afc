//! The cases of every run as they are put together. Each comparison has its own ways of adding one.

use crate::case::Case;
use crate::expected::Expected;
use crate::fence::Edge;
use crate::lending::{Lending, FILLS};
use crate::times::counts::{Tried, Trying};
use crate::times::timed::{self, Timed};

/// The cases so far, in their order.
pub struct Cases<C>(pub Vec<C>);

impl<C> Cases<C> {
    /// What these parts add, one after the other.
    pub fn of(parts: &[fn(&mut Cases<C>)]) -> Vec<C> {
        let mut cases = Cases(Vec::new());
        for add in parts {
            add(&mut cases);
        }
        cases.0
    }

    /// How the next case is lent its memory: every fill has its turn.
    pub fn lending(&self, edge: Edge) -> Lending {
        let fill = self.0.len() % FILLS;
        Lending { edge, fill }
    }
}

impl<C: Clone> Cases<Case<C>> {
    pub fn push(&mut self, call: C, edge: Edge, expected: Expected) {
        let lending = self.lending(edge);
        self.0.push(Case {
            call,
            lending,
            expected,
            time: None,
        });
    }

    /// The same with either end of its buffers fenced.
    pub fn at_edges(&mut self, call: C, expected: Expected) {
        for edge in [Edge::Front, Edge::Back] {
            self.push(call.clone(), edge, expected.clone());
        }
    }
}

impl<C: Trying> Cases<C> {
    /// What this adds for each value with a local_time that is tried.
    pub fn try_times(&mut self, add: fn(&mut Cases<C>, &Timed)) {
        for timed in timed::all() {
            let from = self.0.len();
            add(self, &timed);
            let time = Tried::of(&timed);
            for case in &mut self.0[from..] {
                *case.time() = Some(time.clone());
            }
        }
    }
}

/// Bytes of room for a call that writes these words, and what is then known of it: just enough, more,
/// a word or a byte too little, and none. Too little is refused by this number.
pub fn rooms(words: &[u32], refusal: u32) -> Vec<(usize, Expected)> {
    let enough = 4 * words.len();
    let mut rooms: Vec<_> = [enough, enough + 1, enough + 4, enough + 100]
        .map(|room| (room, Expected::Written(words.to_vec())))
        .into();
    if enough > 0 {
        let less = [enough - 1, enough - 4, 0];
        rooms.extend(less.map(|room| (room, Expected::Refused(refusal, 0))));
    }
    rooms
}
