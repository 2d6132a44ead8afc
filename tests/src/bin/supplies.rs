//! Compares the library's `rembulfose_write_value` with the second program, as [`compare::program`]
//! says.

use compare::program;
use compare::supply::Supplies;
use std::process::ExitCode;

fn main() -> ExitCode {
    program::main::<Supplies>()
}
