//! Local times for the comparison (R5.15, L2): within a day and outside of it, wherever one can
//! stand. They are listed by `value`, found by `finding`, written by `supply`, and listed by what
//! `descriptor` compiles.
//!
//! * [`numbers`] has the microseconds that are tried.
//! * `by_hand` has values with local times in them and their lists, worked out by hand, and `drafted`
//!   such as are made at random, of every kind of container.
//! * [`timed`] puts each number into each place of these.
//! * [`counts`] says which number stands in which place, and how often a run must have met each.

mod by_hand;
pub mod counts;
mod drafted;
pub mod numbers;
pub mod timed;
