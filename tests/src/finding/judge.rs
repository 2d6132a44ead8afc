//! Makes both calls on the library and on the second program and compares. Where an answer is known
//! otherwise, both are held against it; where the path names a known entry, it is held against the
//! list that the library's own run gives.

use super::case::Case;
use crate::crossed::{accepted, refused, words};
use crate::entries::entries;
use crate::ffi;
use crate::memory::{Lent, Memory};
use crate::program::Judge;
use crate::report::report;
use crate::tally::{Counted, Tally};
use crate::times::counts;
use second::crossing::{self, Answer};
use std::fmt::Debug;

/// Bytes of the largest list that can cross.
const LIST: usize = 32_768;

/// A call that reads plan, value and path.
type Call<A> = fn(&[u8], &[u8], &[u8]) -> A;

/// The comparison of `rembulfose_find` and `rembulfose_find_number`.
pub struct Finding {
    memory: Memory<3>,
    running: Memory<2>,
}

impl Judge for Finding {
    type Case = Case;
    type Answer = Answer;
    const COUNTED: &'static [Counted] = &[
        Counted::Answers("find", &[20, 21, 22, 23, 24, 25, 26, 27, 28, 33, 35, 36]),
        Counted::Answers(
            "find_number",
            &[20, 21, 22, 23, 24, 25, 26, 27, 28, 33, 35, 36, 37],
        ),
        counts::COUNTED,
    ];

    fn new(seed: u64) -> Finding {
        Finding {
            memory: Memory::new(seed),
            running: Memory::new(seed),
        }
    }

    /// The answer of find.
    fn judge(&mut self, case: &Case, tallies: &mut [Tally]) -> Result<Answer, String> {
        let found = self.compare(case, ffi::find, crossing::find)?;
        case.expected.hold(&case.call, found, &[])?;
        let number = self.compare(case, ffi::find_number, crossing::find_number)?;
        if let Some(known) = case.number.filter(|known| *known != number) {
            let what = "both programs differ from the number that is known";
            let answers = [("both", number), ("known", known)];
            return Err(report(what, &case.call, &answers));
        }
        if let Some(entry) = case.entry {
            self.hold_against_run(case, entry, found)?;
        }
        tallies[0].count(found.number);
        tallies[1].count(number.number);
        counts::count(&case.time, &mut tallies[2]);
        Ok(found)
    }
}

impl Finding {
    fn compare<A: Copy + PartialEq + Debug>(
        &mut self,
        case: &Case,
        library: Call<A>,
        second: Call<A>,
    ) -> Result<A, String> {
        let call = &case.call;
        let lent = Lent {
            inputs: [&call.plan, &call.value, &call.path],
            room: 0,
            lending: case.lending,
        };
        let library = |[plan, value, path]: [&[u8]; 3], _: &mut [u8]| library(plan, value, path);
        let second = |[plan, value, path]: [&[u8]; 3], _: &mut [u8]| second(plan, value, path);
        self.memory.compare(call, lent, library, second)
    }

    /// What is found is at the start and length of the entry named. A list that cannot cross is
    /// left out.
    fn hold_against_run(&mut self, case: &Case, entry: usize, found: Answer) -> Result<(), String> {
        let lent = Lent {
            inputs: [&case.call.plan, &case.call.value],
            room: LIST,
            lending: case.lending,
        };
        let library = |[plan, value]: [&[u8]; 2], list: &mut [u8]| ffi::run(plan, value, list);
        let (run, list) = self.running.fenced(&lent, library);
        if run.number == 31 {
            return Ok(());
        }
        let words = words(&list[..4 * run.first as usize]);
        let known = match entries(&words).get(entry) {
            None => run,
            Some(entry) if entry.is_absent() => refused(36, 0),
            Some(entry) => accepted(entry.start, entry.length),
        };
        if found == known {
            return Ok(());
        }
        let what = format!("what is found is not entry {entry} of the list that run gives");
        let answers = [("found", found), ("listed", known)];
        Err(report(&what, &case.call, &answers))
    }
}
