//! Makes a case at random: the supply of a good value, changed in ways that leave it one, or damaged.

use super::case::{Case, WriteCall};
use super::having::Kinds;
use super::{damage, moving};
use crate::entries::{crossing_list, entries};
use crate::expected::Expected;
use crate::lending::Lending;
use crate::rng::Rng;
use crate::value::making::{plan_bytes, room};
use crate::value::pairing::{good_pair, Known, Pair};
use second::entry::Entry;

/// A list, and source bytes (R8.1).
pub struct Supply {
    pub entries: Vec<Entry>,
    pub src: Vec<u8>,
}

/// The largest list that can cross, in bytes.
const MOST_LIST: usize = 4 * 8_192;

pub fn make(rng: &mut Rng) -> Case {
    let Pair { plan, laid, known } = good_pair(rng);
    let words = plan.words();
    let kinds = Kinds(&words);
    let mut supply = Supply {
        entries: entries(&laid.words),
        src: laid.bytes,
    };
    let value = value(&kinds, &supply);
    moving::change(rng, &kinds, &mut supply);
    let (list, fits) = damaged_list(rng, &kinds, &mut supply);
    let (plan, whole) = plan_bytes(rng, &plan);
    let room = match rng.below(8) {
        0 => value.len().saturating_sub(1),
        _ => room(rng, value.len()),
    };
    let expected = match (known, whole, fits) {
        (_, false, _) => Expected::Unknown,
        (Known::BadPlan, ..) => Expected::Refused(33, 0),
        (_, _, false) => Expected::Unknown,
        _ => expected(value, list.len(), room),
    };
    Case {
        call: WriteCall {
            plan,
            list,
            src: supply.src,
            room,
        },
        lending: Lending::random(rng),
        expected,
        time: None,
    }
}

/// Damages the supply at times. Gives its list as it crosses, and whether it is still that of the
/// value.
fn damaged_list(rng: &mut Rng, kinds: &Kinds, supply: &mut Supply) -> (Vec<u8>, bool) {
    let times = rng.pick(&[0, 0, 0, 1, 1, 1, 2, 3]);
    for _ in 0..times {
        damage::supply(rng, kinds, supply);
    }
    let mut list = crossing_list(&supply.entries);
    let left_over = rng.once_in(32);
    if left_over {
        leave_over(rng, &mut list);
    }
    (list, times == 0 && !left_over)
}

/// The value that has the supply of a good value: what was laid after it does not count. "No type"
/// has the empty one.
fn value(kinds: &Kinds, supply: &Supply) -> Vec<u8> {
    match supply.entries.first() {
        None => Vec::new(),
        Some(top) => {
            let value = &supply.src[..top.length as usize];
            kinds.without_reserved(&supply.entries, value)
        }
    }
}

/// What the call must answer where this value has the supply: it may be too large to be accepted,
/// or its list to cross. The order is that of R1.10.
fn expected(value: Vec<u8>, list: usize, room: usize) -> Expected {
    if value.len() > 65_535 || list > MOST_LIST {
        Expected::Refused(34, 0)
    } else if value.len() > room {
        Expected::Refused(32, 0)
    } else {
        Expected::Bytes(value)
    }
}

/// Makes the list no whole number of entries or words, or longer than can cross.
fn leave_over(rng: &mut Rng, list: &mut Vec<u8>) {
    match rng.below(16) {
        0 => list.resize(
            rng.pick(&[32_760, 32_768, 32_769, 32_772, 32_780, 200_000]),
            0,
        ),
        1..8 => {
            let more = rng.pick(&[1, 2, 3, 4, 8, 12, 16, 19]);
            list.extend(rng.bytes(more));
        }
        _ => {
            let fewer = rng.pick(&[1, 2, 3, 4, 8, 12, 16, 19]);
            list.truncate(list.len().saturating_sub(fewer));
        }
    }
}
