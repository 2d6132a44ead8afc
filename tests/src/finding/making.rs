//! Makes a case at random: a plan and a value, mostly good ones, and a path.

use super::case::{Case, FindCall};
use super::paths::{self, Names};
use crate::crossed::list;
use crate::entries::entries;
use crate::expected::Expected;
use crate::lending::Lending;
use crate::rng::Rng;
use crate::value::making::{damaged, Made};
use crate::value::pairing::{good_pair, Known};
use second::entry::Entry;

pub fn make(rng: &mut Rng) -> Case {
    let Made { plan, laid, known } = made(rng);
    let entries = entries(&laid.words);
    let path = paths::make(rng, &entries);
    let entry = match path.names {
        Names::Entry(number) if known == Known::Good => Some(number),
        _ => None,
    };
    Case {
        call: FindCall {
            plan,
            value: laid.bytes,
            path: path.bytes,
        },
        lending: Lending::random(rng),
        expected: expected(known, path.names, &entries),
        number: None,
        entry,
        time: None,
    }
}

/// Only in a good value is the path looked at.
fn made(rng: &mut Rng) -> Made {
    if rng.once_in(4) {
        return damaged(rng);
    }
    let pair = good_pair(rng);
    Made {
        plan: list(&pair.plan.words()),
        laid: pair.laid,
        known: pair.known,
    }
}

/// What the call must answer, in the order of R1.11.
fn expected(known: Known, names: Names, entries: &[Entry]) -> Expected {
    match (known, names) {
        (Known::BadPlan, _) => Expected::Refused(33, 0),
        (Known::TooLong, _) => Expected::Refused(28, 0),
        (Known::Nothing, _) | (_, Names::Unknown) => Expected::Unknown,
        (Known::Good, Names::Nothing) => Expected::Refused(35, 0),
        (Known::Good, Names::Entry(number)) => named(&entries[number]),
    }
}

/// What is found where the path names this entry.
pub fn named(entry: &Entry) -> Expected {
    match entry.is_absent() {
        true => Expected::Refused(36, 0),
        false => Expected::Found(entry.start, entry.length),
    }
}
