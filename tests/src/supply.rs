//! Writing values for the comparison.
//!
//! * `having` says when a value has a supply, and which bytes of a value are reserved.
//! * `making` makes a case at random from the plans and values of `value`: `moving` changes a supply
//!   so that it stays one of the same value, `damage` and `order_damage` so that it is of another or
//!   of none.
//! * `exact`, `containers` and `limits` have cases by construction whose answers are known, `times`
//!   those of local times, and `sweep` every change of what has few; `fixed` puts them together.
//! * `judge` makes the calls and compares.

mod case;
mod containers;
mod damage;
mod exact;
mod fixed;
mod having;
mod judge;
mod limits;
mod making;
mod moving;
mod order_damage;
mod sweep;
mod times;

use crate::program::Comparison;
use crate::rng::Rng;
use case::Case;
use fixed::Cases;
pub use judge::Supplies;

impl Comparison for Supplies {
    const NAME: &'static str = "supplies";

    fn fixed() -> Vec<Case> {
        Cases::of(&[
            exact::add,
            containers::add,
            limits::add,
            times::add,
            sweep::add,
        ])
    }

    fn random(rng: &mut Rng) -> Case {
        making::make(rng)
    }
}
