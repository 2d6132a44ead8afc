//! The independent second program. It is written from the requirements alone, in the plainest Rust
//! that says what they say, and never from the library's own code: where the two agree on many
//! inputs, a mistake would have to have been made twice.
//!
//! * [`message`] reads and writes the ten messages on words and bytes.
//! * [`intake`] joins the deliveries of one side, as a C host sees it; [`joined`] reads the same bytes
//!   when all of them are there.
//! * [`plan`] reads a plan, [`scalar`] has the twenty formats, and [`value`] checks and lists a
//!   value.
//! * [`find`] and [`number`] find an element and its number; [`supply`] writes a value; [`entry`]
//!   has the entries of the lists that they read.
//! * [`descriptor`] reads a descriptor and compiles its plan; [`off_descriptor`] checks and lists a
//!   value by the descriptor itself, with no plan inside.
//! * [`refusal`] has the refusal numbers of all.
//! * [`crossing`] is the same as a C host sees it: lists as bytes, and one [`crossing::Answer`].
//!
//! A number such as R5.3 in a comment is a rule of docs/RULES.md, which says what is required.

pub mod crossing;
pub mod descriptor;
pub mod entry;
pub mod find;
pub mod intake;
pub mod joined;
pub mod message;
pub mod number;
pub mod off_descriptor;
pub mod plan;
pub mod refusal;
pub mod scalar;
pub mod supply;
pub mod value;
mod words;
