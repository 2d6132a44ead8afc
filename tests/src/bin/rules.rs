//! Compares the second program's plans with its rules off the descriptor, as [`compare::program`]
//! says. The library is not called.

use compare::descriptor::{Descriptors, Second};
use compare::program;
use std::process::ExitCode;

fn main() -> ExitCode {
    program::main::<Descriptors<Second>>()
}
