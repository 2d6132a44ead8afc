//! Compares the library's `rembulfose_find` and `rembulfose_find_number` with the second program,
//! as [`compare::program`] says.

use compare::finding::Finding;
use compare::program;
use std::process::ExitCode;

fn main() -> ExitCode {
    program::main::<Finding>()
}
