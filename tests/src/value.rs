//! Values by plan for the comparison.
//!
//! * `plan` is a plan as it is made, `planning` makes well-formed ones, `plan_damage` others.
//! * `draft` is a value as it is made, `drafting` makes good ones, `damage` spoils them; `scalar`
//!   has both for each format. `byte_damage` spoils a value that was put together.
//! * `pairing` makes plans and values of all sizes from them at random, and `making` a case.
//! * `exact`, `leaves`, `plans`, `order`, `limits` and `examples` have cases by construction whose
//!   answers are known, `times` those of local times, and `sweep` every value of what has few;
//!   `fixed` puts them together.
//! * `judge` makes the calls and compares.

pub(crate) mod byte_damage;
pub(crate) mod case;
mod damage;
mod draft;
pub(crate) mod drafting;
pub(crate) mod exact;
mod examples;
mod fixed;
mod judge;
mod leaves;
mod limits;
pub(crate) mod making;
mod order;
pub(crate) mod pairing;
pub(crate) mod plan;
mod plan_damage;
mod planning;
mod plans;
pub(crate) mod scalar;
pub(crate) mod sweep;
mod times;

use crate::program::Comparison;
use crate::rng::Rng;
use case::Case;
use fixed::Cases;
pub use judge::Values;

impl Values {
    /// The cases of every run, but for those that try local times.
    pub(crate) fn besides_times() -> impl Iterator<Item = Case> {
        Values::fixed()
            .into_iter()
            .filter(|case| case.time.is_none())
    }
}

impl Comparison for Values {
    const NAME: &'static str = "values";

    fn fixed() -> Vec<Case> {
        Cases::of(&[
            exact::add,
            leaves::add,
            plans::add,
            order::add,
            examples::add,
            limits::add,
            times::add,
            sweep::add,
        ])
    }

    fn random(rng: &mut Rng) -> Case {
        making::make(rng)
    }
}
