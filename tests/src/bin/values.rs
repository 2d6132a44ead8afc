//! Compares the library's `rembulfose_run` with the second program, as [`compare::program`] says.

use compare::program;
use compare::value::Values;
use std::process::ExitCode;

fn main() -> ExitCode {
    program::main::<Values>()
}
