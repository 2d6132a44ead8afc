//! Descriptors for the comparison, and values by them.
//!
//! * `draft` is a descriptor as it is made; `clothing` makes good ones from a plan, with the blocks
//!   of `between` among them, and ids and names by `naming`. `damage` and `faults` spoil them, and
//!   `byte_damage` those that were put together.
//! * `making` makes a case from them at random.
//! * [`bytes`] has blocks by hand. `exact`, `contents`, `references`, `identities`, `order`,
//!   `heights` and `limits` have cases by construction whose answers are known, `times` those of
//!   local times, and `sweep` every value of what has few; `fixed` puts them together.
//! * `judge` makes the calls and compares.

mod between;
mod byte_damage;
pub mod bytes;
mod case;
mod clothing;
mod contents;
mod damage;
mod draft;
mod exact;
mod faults;
mod fixed;
mod heights;
mod identities;
mod judge;
mod limits;
mod making;
mod naming;
mod order;
mod references;
mod sweep;
mod times;

use crate::ffi;
use crate::program::Comparison;
use crate::rng::Rng;
use case::Case;
use fixed::Cases;
pub use judge::{Calls, Descriptors};
use second::crossing;

/// A program whose compile and run are compared with the second program's.
pub trait Tested {
    const NAME: &'static str;
    const CALLS: Calls;
}

/// The library: `rembulfose_compile`, and `rembulfose_run` by its plans.
pub struct Library;

impl Tested for Library {
    const NAME: &'static str = "descriptors";
    const CALLS: Calls = Calls {
        name: "library",
        compile: ffi::compile,
        run: ffi::run,
    };
}

/// The second program's own compile and run. Its run knows plans and is held against its rules off
/// the descriptor, which know none, and both against all that is known otherwise.
pub struct Second;

impl Tested for Second {
    const NAME: &'static str = "rules";
    const CALLS: Calls = Calls {
        name: "second program by plan",
        compile: crossing::compile,
        run: crossing::run,
    };
}

impl<T: Tested> Comparison for Descriptors<T> {
    const NAME: &'static str = T::NAME;

    fn fixed() -> Vec<Case> {
        Cases::of(&[
            exact::add,
            contents::add,
            references::add,
            identities::add,
            order::add,
            heights::add,
            limits::add,
            times::add,
            sweep::add,
        ])
    }

    fn random(rng: &mut Rng) -> Case {
        making::make(rng)
    }
}
