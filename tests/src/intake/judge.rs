//! Has each conversation with the library and with the second program.

use super::both::Rooms;
use super::case::{Case, End};
use super::counts::{Counts, COUNTED};
use super::talk::{Lent, Talk};
use crate::fence::{Input, Room};
use crate::lending::{Lending, FILLS};
use crate::program::Judge;
use crate::report::report;
use crate::rng::Rng;
use crate::tally::{Counted, Tally};

/// The longest stream, and the largest room, of a case.
const CAPACITY: usize = 1 << 20;

/// The comparison of the intake's calls.
pub struct Intakes {
    source: Input,
    room: Room,
    /// The room of calls that lend another than at the start.
    other: Room,
    /// What rooms hold at a start.
    pattern: Vec<u8>,
}

impl Judge for Intakes {
    type Case = Case;
    type Answer = End;
    const COUNTED: &'static [Counted] = &COUNTED;

    fn new(seed: u64) -> Intakes {
        Intakes {
            source: Input::new(CAPACITY),
            room: Room::new(CAPACITY),
            other: Room::new(CAPACITY),
            pattern: Rng::new(seed).bytes(CAPACITY + FILLS),
        }
    }

    fn judge(&mut self, case: &Case, tallies: &mut [Tally]) -> Result<End, String> {
        let mut talk = Talk::start(case, self.lend(case), Counts(tallies))?;
        for (number, step) in case.steps.iter().enumerate() {
            let at_step = |why| format!("in step {number}: {why}");
            talk.step(step).map_err(at_step)?;
        }
        let end = talk.end()?;
        match case.expected {
            Some(expected) if expected != end => {
                let what = "both programs differ from the end worked out by hand";
                let ends = [("both", end), ("by hand", expected)];
                Err(report(what, case, &ends))
            }
            _ => Ok(end),
        }
    }
}

impl Intakes {
    fn lend(&mut self, case: &Case) -> Lent<'_> {
        let Lending { edge, fill } = case.lending;
        let pattern = &self.pattern[fill..];
        let room = self.room.lend(case.room, edge);
        Lent {
            source: &mut self.source,
            rooms: Rooms::new(room, &pattern[..case.room]),
            other: &mut self.other,
            pattern,
        }
    }
}
