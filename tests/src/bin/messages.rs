//! Compares the library's message calls with the second program, as [`compare::program`] says.

use compare::message::Messages;
use compare::program;
use std::process::ExitCode;

fn main() -> ExitCode {
    program::main::<Messages>()
}
