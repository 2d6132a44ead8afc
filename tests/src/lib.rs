//! What the comparisons of the static library with the second program share.
//!
//! * [`program`] is what their programs have in common.
//! * [`ffi`] has the C calls, and nothing else does.
//! * [`fence`] lends memory that faults when touched outside of its ends; [`fault`] tells of it.
//!   [`lending`] says how a case is lent its memory, and [`memory`] makes a call by both programs
//!   on it.
//! * [`rng`] and [`text`] make input, and [`crossed`] words as bytes.
//! * [`tally`] counts answers, [`expected`] holds them against what is known, and [`report`] tells
//!   how two differ.
//! * [`message`] makes, damages and compares messages, for the program `messages`, and [`intake`]
//!   conversations of them, for the program `intake`.
//! * `value` does so with plans and values, for the program `values`, and [`descriptor`] with
//!   descriptors and values, for the programs `descriptors` and `rules`.
//! * [`finding`] does so with paths, for the program `finding`, and [`supply`] with supplies, for the
//!   program `supplies`; [`entries`] has the entries of the lists that both start from.
//! * [`times`] has local times within a day and outside, in all places, for `value`, [`finding`] and
//!   [`supply`].
//! * [`case`] is a case of some of these, and [`fixed`] puts together those of every run.
//! * [`panel`] holds what the panel program prints against the second program, for `panel-shown`.

pub mod case;
pub mod crossed;
pub mod descriptor;
pub mod entries;
pub mod expected;
pub mod fault;
pub mod fence;
pub mod ffi;
pub mod finding;
pub mod fixed;
pub mod intake;
pub mod lending;
pub mod memory;
pub mod message;
pub mod panel;
pub mod program;
pub mod report;
pub mod rng;
pub mod supply;
pub mod tally;
pub mod text;
pub mod times;
pub mod value;
