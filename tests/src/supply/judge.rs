//! Makes each call on the library and on the second program and compares. Where the answer is known
//! otherwise, both are held against it.
//!
//! What is written must be accepted by the library's own run and have the supply, and must come back
//! when it is written again from the list that run gives.

use super::case::{Case, WriteCall};
use super::having::Kinds;
use crate::crossed::words;
use crate::entries::entries;
use crate::ffi;
use crate::memory::{Lent, Memory};
use crate::program::Judge;
use crate::report::report;
use crate::tally::{Counted, Tally};
use crate::times::counts;
use second::crossing::{self, Answer};

/// The comparison of `rembulfose_write_value`.
pub struct Supplies {
    memory: Memory<3>,
    running: Memory<2>,
}

impl Judge for Supplies {
    type Case = Case;
    type Answer = Answer;
    const COUNTED: &'static [Counted] = &[
        Counted::Answers("write_value", &[32, 33, 34]),
        counts::COUNTED,
    ];

    fn new(seed: u64) -> Supplies {
        Supplies {
            memory: Memory::new(seed),
            running: Memory::new(seed),
        }
    }

    fn judge(&mut self, case: &Case, tallies: &mut [Tally]) -> Result<Answer, String> {
        let call = &case.call;
        let lent = Lent {
            inputs: [&call.plan, &call.list, &call.src],
            room: call.room,
            lending: case.lending,
        };
        let second = |[plan, list, src]: [&[u8]; 3], out: &mut [u8]| {
            crossing::write_value(plan, list, src, out)
        };
        let answer = self.memory.compare(call, lent, library, second)?;
        case.expected.hold(call, answer, self.memory.left())?;
        if answer.number == 0 {
            self.read_back(case, answer)?;
        }
        tallies[0].count(answer.number);
        counts::count(&case.time, &mut tallies[1]);
        Ok(answer)
    }
}

impl Supplies {
    fn read_back(&mut self, case: &Case, answer: Answer) -> Result<(), String> {
        let (call, lending) = (&case.call, case.lending);
        let value = self.memory.left()[..answer.first as usize].to_vec();
        let lent = Lent {
            inputs: [&call.plan, &value],
            room: call.list.len(),
            lending,
        };
        let runs = |[plan, value]: [&[u8]; 2], list: &mut [u8]| ffi::run(plan, value, list);
        let (run, list) = self.running.fenced(&lent, runs);
        let whole = run.number == 0 && 4 * run.first as usize == call.list.len();
        if !whole || !has_supply(call, list, &value) {
            let what = "a written value does not have the supply";
            return Err(report(what, call, &[("written", answer), ("run", run)]));
        }
        let lent = Lent {
            inputs: [&call.plan, list, &value],
            room: value.len(),
            lending,
        };
        let (again, written) = self.memory.fenced(&lent, library);
        if again != answer || written != value {
            let what = "a written value does not come back from its list";
            return Err(report(what, call, &[("written", answer), ("again", again)]));
        }
        Ok(())
    }
}

/// The library's writer, on the runs that it is lent.
fn library([plan, list, src]: [&[u8]; 3], out: &mut [u8]) -> Answer {
    ffi::write_value(plan, list, src, out)
}

/// Whether a value with this list has the supply that was accepted.
fn has_supply(call: &WriteCall, list: &[u8], value: &[u8]) -> bool {
    let plan = words(&call.plan);
    let (supply, listed) = (entries(&words(&call.list)), entries(&words(list)));
    Kinds(&plan).agree((&supply, &call.src), (&listed, value))
}
