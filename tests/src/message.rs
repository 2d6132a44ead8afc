//! Messages for the comparison.
//!
//! * `draft` makes good messages as the contents of their fields, `damage` spoils them.
//! * `reading` and `writing` make a case of each call from them at random.
//! * `exact` has cases by construction, with answers worked out by hand, and `sweep` every value of
//!   what has few.
//! * `judge` makes the calls and compares.

pub mod bytes;
mod case;
mod damage;
pub mod draft;
mod exact;
mod judge;
mod reading;
mod sweep;
mod writing;

use crate::lending::Lending;
use crate::program::Comparison;
use crate::rng::Rng;
use case::{Call, Case};
pub use judge::Messages;
pub use reading::received;

impl Comparison for Messages {
    const NAME: &'static str = "messages";

    fn fixed() -> Vec<Case> {
        let mut cases = exact::cases();
        cases.extend(sweep::cases());
        cases
    }

    fn random(rng: &mut Rng) -> Case {
        let call = if rng.once_in(2) {
            Call::Read(reading::make(rng))
        } else {
            Call::Write(writing::make(rng))
        };
        Case {
            call,
            lending: Lending::random(rng),
            expected: None,
        }
    }
}
