//! Compares the library's `rembulfose_compile`, and its `rembulfose_run` by the plans that it gives,
//! with the second program, as [`compare::program`] says.

use compare::descriptor::{Descriptors, Library};
use compare::program;
use std::process::ExitCode;

fn main() -> ExitCode {
    program::main::<Descriptors<Library>>()
}
