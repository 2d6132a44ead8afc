//! Finding for the comparison: an element by its path, and its number.
//!
//! * `paths` makes paths from the list of a value, and `making` a case at random with the plans and
//!   values of `value`.
//! * `exact` and `numbers` have cases worked out by hand, `times` those of local times, and `sweep` all
//!   paths of the values that `value` has by construction; `fixed` puts them together.
//! * `judge` makes the calls and compares.

mod case;
mod exact;
mod fixed;
mod judge;
mod making;
mod numbers;
mod paths;
mod sweep;
mod times;

use crate::program::Comparison;
use crate::rng::Rng;
use case::Case;
use fixed::Cases;
pub use judge::Finding;

impl Comparison for Finding {
    const NAME: &'static str = "finding";

    fn fixed() -> Vec<Case> {
        Cases::of(&[exact::add, numbers::add, times::add, sweep::add])
    }

    fn random(rng: &mut Rng) -> Case {
        making::make(rng)
    }
}
