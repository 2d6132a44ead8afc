//! Conversations with an intake, for the comparison.
//!
//! * `making` makes them at random: messages that are good or damaged, in a room that fits them or
//!   not. `cutting` cuts them into deliveries, `disturbing` puts in what disturbs, and `foreign` what
//!   others write to the state and the room.
//! * `exact` has conversations whose ends are worked out by hand, and `sweep` every cut of short ones.
//! * `talk` has one conversation with both programs, whose calls `both` makes and compares; `judge` has
//!   the memory for it. `counts` has what a run must have met.

mod both;
mod case;
mod counts;
mod cutting;
mod disturbing;
mod exact;
mod foreign;
mod judge;
mod making;
mod sweep;
mod talk;

use crate::program::Comparison;
use crate::rng::Rng;
use case::Case;
pub use judge::Intakes;

impl Comparison for Intakes {
    const NAME: &'static str = "intake";

    fn fixed() -> Vec<Case> {
        let mut cases = exact::cases();
        cases.extend(sweep::cases());
        cases
    }

    fn random(rng: &mut Rng) -> Case {
        making::make(rng)
    }
}
