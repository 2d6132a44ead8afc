//! Every change of what has few: the lists of the values that the comparison of values has by
//! construction, and of a value with all kinds of containers each word, entry and byte.

use super::fixed::Cases;
use super::having::Kinds;
use crate::crossed::words;
use crate::entries::entries;
use crate::expected::Expected;
use crate::value::case::RunCall;
use crate::value::sweep::{rich_list, rich_value, RICH};
use crate::value::Values;

pub fn add(cases: &mut Cases) {
    values(cases);
    rich_words(cases);
    rich_entries(cases);
    rich_source(cases);
}

/// A good value comes back from its own list. Of others each is tried as a leaf or an empty
/// container of the plan's root. Those that try local times have cases of their own.
fn values(cases: &mut Cases) {
    for case in Values::besides_times() {
        let RunCall { plan, value, room } = case.call;
        let plan = words(&plan);
        match case.expected {
            Expected::Written(words) if room == 4 * words.len() => {
                let kinds = Kinds(&plan);
                let written = kinds.without_reserved(&entries(&words), &value);
                cases.good((&plan, &words, &value), &written);
            }
            Expected::Written(_) => {}
            _ if plan.len() < 2 || plan.len() > 100 => {}
            _ => cases.unknown((&plan, &[plan[1], 0, 0, value.len() as u32, 0], &value)),
        }
    }
}

/// Each word of the list as each small number and some odd ones.
fn rich_words(cases: &mut Cases) {
    let (list, value) = (rich_list(), rich_value());
    let list = list.as_flattened();
    let odd = [
        0xff,
        0x100,
        0x101,
        0x1_0000,
        0x7fff_ffff,
        0x8000_0000,
        0xffff_fffe,
        0xffff_ffff,
    ];
    for at in 0..list.len() {
        let near = list[at].saturating_sub(2)..=list[at].saturating_add(2);
        for word in (0..=27).chain(near).chain(odd) {
            let mut other = list.to_vec();
            other[at] = word;
            cases.unknown((&RICH, &other, &value));
        }
    }
}

/// Each entry taken out, doubled, and exchanged with each other; each part of the list from the
/// start and to the end.
fn rich_entries(cases: &mut Cases) {
    let (list, value) = (rich_list(), rich_value());
    for at in 0..list.len() {
        let mut other = list.clone();
        other.remove(at);
        cases.unknown((&RICH, other.as_flattened(), &value));
        other.splice(at..at, [list[at]; 2]);
        cases.unknown((&RICH, other.as_flattened(), &value));
        for with in 0..at {
            let mut other = list.clone();
            other.swap(at, with);
            cases.unknown((&RICH, other.as_flattened(), &value));
        }
    }
    let list = list.as_flattened();
    for at in 0..=list.len() {
        cases.unknown((&RICH, &list[..at], &value));
        cases.unknown((&RICH, &list[at..], &value));
    }
}

/// Each byte of the source changed, and each part of it from the start.
fn rich_source(cases: &mut Cases) {
    let (list, value) = (rich_list(), rich_value());
    for at in 0..value.len() {
        cases.unknown((&RICH, list.as_flattened(), &value[..at]));
        for change in [0x01, 0x02, 0x04, 0x08, 0x10, 0x80, 0xff] {
            let mut changed = value.clone();
            changed[at] ^= change;
            cases.unknown((&RICH, list.as_flattened(), &changed));
        }
    }
}
