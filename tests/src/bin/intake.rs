//! Compares the library's intake with the second program's, as [`compare::program`] says: a case is a
//! conversation of many calls.

use compare::intake::Intakes;
use compare::program;
use std::process::ExitCode;

fn main() -> ExitCode {
    program::main::<Intakes>()
}
