//! Makes each call on the library and on the second program and compares. Where the answer is known
//! otherwise, both are held against it.

use super::case::Case;
use crate::ffi;
use crate::memory::{Lent, Memory};
use crate::program::Judge;
use crate::tally::{Counted, Tally};
use crate::times::counts;
use second::crossing::{self, Answer};

/// The comparison of `rembulfose_run`.
pub struct Values(Memory<2>);

impl Judge for Values {
    type Case = Case;
    type Answer = Answer;
    const COUNTED: &'static [Counted] = &[
        Counted::Answers("run", &[20, 21, 22, 23, 24, 25, 26, 27, 28, 31, 33]),
        counts::COUNTED,
    ];

    fn new(seed: u64) -> Values {
        Values(Memory::new(seed))
    }

    fn judge(&mut self, case: &Case, tallies: &mut [Tally]) -> Result<Answer, String> {
        let call = &case.call;
        let lent = Lent {
            inputs: [&call.plan, &call.value],
            room: call.room,
            lending: case.lending,
        };
        let library = |[plan, value]: [&[u8]; 2], list: &mut [u8]| ffi::run(plan, value, list);
        let second = |[plan, value]: [&[u8]; 2], list: &mut [u8]| crossing::run(plan, value, list);
        let answer = self.0.compare(call, lent, library, second)?;
        case.expected.hold(call, answer, self.0.left())?;
        tallies[0].count(answer.number);
        counts::count(&case.time, &mut tallies[1]);
        Ok(answer)
    }
}
