//! What the comparing programs have in common. Each is called as `NAME [CASES [SEED [ONLY]]]` and
//! runs so many random cases (1,000,000) of a seed (1) after the fixed ones. With ONLY it shows the
//! case of that number and runs no other.

use crate::fault;
use crate::rng::Rng;
use crate::tally::{Counted, Demand, Tally};
use std::fmt::{Debug, Display};
use std::process::ExitCode;
use std::time::Instant;

/// What makes the calls of a case and compares.
pub trait Judge {
    type Case: Display;

    /// What a case comes to.
    type Answer: Debug;

    /// The calls whose answers are counted, and what else is.
    const COUNTED: &'static [Counted];

    fn new(seed: u64) -> Self;

    /// The answer of a case in which nothing differs, or else a report of what differs. What each
    /// call answers is counted in its tally, which has the place that the call has in `COUNTED`.
    fn judge(&mut self, case: &Self::Case, tallies: &mut [Tally]) -> Result<Self::Answer, String>;
}

/// What a program compares: the cases of a judge.
pub trait Comparison: Judge {
    const NAME: &'static str;

    /// The cases of every run: they have the first numbers.
    fn fixed() -> Vec<Self::Case>;

    /// A case made at random.
    fn random(rng: &mut Rng) -> Self::Case;
}

pub fn main<C: Comparison>() -> ExitCode {
    let arguments: Result<Vec<u64>, _> =
        std::env::args().skip(1).map(|word| word.parse()).collect();
    fault::watch();
    match arguments.as_deref() {
        Ok([]) => run::<C>(1_000_000, 1),
        Ok([cases]) => run::<C>(*cases, 1),
        Ok([cases, seed]) => run::<C>(*cases, *seed),
        Ok([_, seed, only]) => run_only::<C>(*seed, *only),
        _ => {
            let name = C::NAME;
            eprintln!("usage: {name} [CASES [SEED [ONLY]]], all of them numbers");
            ExitCode::from(2)
        }
    }
}

/// The random case of this number.
fn random<C: Comparison>(seed: u64, number: u64) -> C::Case {
    C::random(&mut Rng::of_case(seed, number))
}

fn tallies<C: Comparison>() -> Vec<Tally> {
    C::COUNTED.iter().map(Tally::new).collect()
}

fn run<C: Comparison>(cases: u64, seed: u64) -> ExitCode {
    let began = Instant::now();
    let fixed = C::fixed();
    let total = fixed.len() as u64 + cases;
    let made = (fixed.len() as u64..total).map(|number| random::<C>(seed, number));
    let (mut judge, mut tallies) = (C::new(seed), tallies::<C>());
    for (number, case) in (0..).zip(fixed.into_iter().chain(made)) {
        fault::starting(number, number);
        if let Err(report) = judge.judge(&case, &mut tallies) {
            println!("case {number} of seed {seed}: {report}");
            println!("to see it alone: {} 0 {seed} {number}", C::NAME);
            println!("{number} passed, 1 failed");
            return ExitCode::FAILURE;
        }
    }
    for tally in &tallies {
        print!("{tally}");
    }
    println!("seed {seed}, {:.1} s", began.elapsed().as_secs_f64());
    finish(total, &Demand::of(cases), &tallies)
}

/// Shows a case before it is run, since the call may fault.
fn run_only<C: Comparison>(seed: u64, only: u64) -> ExitCode {
    let case = C::fixed()
        .into_iter()
        .nth(only as usize)
        .unwrap_or_else(|| random::<C>(seed, only));
    println!("case {only} of seed {seed}, {case}");
    fault::starting(only, 0);
    match C::new(seed).judge(&case, &mut tallies::<C>()) {
        Ok(answer) => {
            println!("  both: {answer:?}");
            println!("1 passed, 0 failed");
            ExitCode::SUCCESS
        }
        Err(report) => {
            println!("{report}");
            println!("0 passed, 1 failed");
            ExitCode::FAILURE
        }
    }
}

/// A run in which some answer was hardly seen has not compared enough.
fn finish(passed: u64, demand: &Demand, tallies: &[Tally]) -> ExitCode {
    let scarce: Vec<String> = tallies
        .iter()
        .flat_map(|tally| tally.scarce(demand))
        .collect();
    for line in &scarce {
        println!("{line}");
    }
    let failed = u8::from(!scarce.is_empty());
    println!("{passed} passed, {failed} failed");
    ExitCode::from(failed)
}
