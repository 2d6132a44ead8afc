//! Makes each call twice, on a tested program and on the second program, and compares all that can
//! be seen of it: the four numbers of the answer and every byte of the room. Descriptor, root, plan
//! and value are lent where the call cannot write. Where the answer is known otherwise, both are
//! held against it.
//!
//! A descriptor that is accepted is run: the tested program's run by the plan that it wrote itself
//! must come to what the rules read off the descriptor come to, which see no plan.

use super::case::{Case, CompileCall, Running};
use super::Tested;
use crate::lending::Lending;
use crate::memory::{Lent, Memory};
use crate::program::Judge;
use crate::tally::{Counted, Tally};
use crate::times::counts;
use second::crossing::{self, Answer};
use std::marker::PhantomData;

/// A call that reads two runs of bytes and writes to a room.
type Call = fn(&[u8], &[u8], &mut [u8]) -> Answer;

/// The calls of a tested program.
#[derive(Clone, Copy)]
pub struct Calls {
    /// Whose they are.
    pub name: &'static str,
    /// From descriptor and root id to a plan.
    pub compile: Call,
    /// From plan and value to a list.
    pub run: Call,
}

/// The comparison of a program's calls.
pub struct Descriptors<T> {
    memory: Memory<2>,
    tested: PhantomData<T>,
}

impl<T: Tested> Judge for Descriptors<T> {
    type Case = Case;
    type Answer = Answer;
    const COUNTED: &'static [Counted] = &[
        Counted::Answers("compile", &[10, 11, 12, 13, 14, 15, 16, 17, 18, 30]),
        Counted::Answers("run", &[20, 21, 22, 23, 24, 25, 26, 27, 28, 31]),
        counts::COUNTED,
    ];

    fn new(seed: u64) -> Descriptors<T> {
        Descriptors {
            memory: Memory::new(seed),
            tested: PhantomData,
        }
    }

    /// The answer of the run, if there is one, else that of compile.
    fn judge(&mut self, case: &Case, tallies: &mut [Tally]) -> Result<Answer, String> {
        let compiled = self.compile(&case.call, case.lending)?;
        case.expected
            .hold(&case.call, compiled, self.memory.left())?;
        tallies[0].count(compiled.number);
        match &case.running {
            Some(running) if compiled.number == 0 => {
                let plan = self.memory.left()[..4 * compiled.first as usize].to_vec();
                let answer = self.run(case, &plan, running)?;
                tallies[1].count(answer.number);
                counts::count(&case.time, &mut tallies[2]);
                Ok(answer)
            }
            _ => Ok(compiled),
        }
    }
}

impl<T: Tested> Descriptors<T> {
    fn compile(&mut self, call: &CompileCall, lending: Lending) -> Result<Answer, String> {
        let lent = Lent {
            inputs: [&call.descriptor, &call.root],
            room: call.room,
            lending,
        };
        let tested = (T::CALLS.name, on_inputs(T::CALLS.compile));
        let second = ("second program", on_inputs(crossing::compile));
        self.memory.compare_named(call, lent, tested, second)
    }

    /// Runs by the plan, and by the rules off the descriptor.
    fn run(&mut self, case: &Case, plan: &[u8], running: &Running) -> Result<Answer, String> {
        let CompileCall {
            descriptor, root, ..
        } = &case.call;
        let lent = Lent {
            inputs: [plan, &running.value],
            room: running.room,
            lending: case.lending,
        };
        let tested = (T::CALLS.name, on_inputs(T::CALLS.run));
        let rules = (
            "rules off the descriptor",
            |[_, value]: [&[u8]; 2], list: &mut [u8]| {
                crossing::run_off_descriptor(descriptor, root, value, list)
            },
        );
        let answer = self.memory.compare_named(case, lent, tested, rules)?;
        running.expected.hold(case, answer, self.memory.left())
    }
}

/// A call as it is made on the memory that it is lent.
fn on_inputs(call: Call) -> impl Fn([&[u8]; 2], &mut [u8]) -> Answer {
    move |[first, second], room| call(first, second, room)
}
