//! What the panel program prints, worked out a second time: from the requirements, the description
//! of the protocol and host/README.md, on the second program and with none of the panel program's
//! code.
//!
//! * [`human`] has scalars in human form, with [`calendar`], `float` and [`texts`], which knows by
//!   `unseen` what is escaped.
//! * `tree` has values and plans, `fields` messages, `refused` refusals. [`described`] has the rule
//!   by which description a value is read.
//! * [`joined`] has the sides of a capture and the messages in the order in which they became whole.
//! * [`capture`] puts them together: all that is printed of a capture. [`asked`] has what `check`
//!   and `find` print.
//! * [`table`] reads the table of values and their texts, and makes rows of them; [`made`] makes
//!   captures at random, with descriptions that are sent again by `again` and records that cut
//!   messages by `cuts`; [`sweep`] has every code point, and floats about each power of two.
//! * [`compare`] runs the program and holds what it prints against all of these; [`seen`] counts
//!   what was compared.

mod again;
pub mod asked;
pub mod calendar;
pub mod capture;
pub mod compare;
mod cuts;
pub mod described;
mod fields;
mod float;
pub mod human;
pub mod joined;
pub mod made;
mod refused;
pub mod seen;
pub mod sweep;
pub mod table;
pub mod texts;
mod tree;
mod unseen;
