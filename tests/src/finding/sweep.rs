//! Every path of what has few: all entries of the values that the comparison of values has by
//! construction, and of a value with all kinds of containers each path with each small index at
//! each step.

use super::case::FindCall;
use super::fixed::Cases;
use crate::crossed::words;
use crate::entries::{entries, path_to};
use crate::expected::Expected;
use crate::value::case::RunCall;
use crate::value::sweep::{rich_list, rich_value, RICH};
use crate::value::Values;

pub fn add(cases: &mut Cases) {
    let paths = rich_paths();
    values(cases, &paths);
    rich(cases, &paths);
}

/// The paths of all entries of the rich value.
fn rich_paths() -> Vec<Vec<u32>> {
    let entries = entries(rich_list().as_flattened());
    (0..entries.len())
        .map(|number| path_to(&entries, number))
        .collect()
}

/// A good value by each of its entries. One that is refused is refused alike by finding, whatever
/// the path is, but for 31; of others nothing is known. Of the rooms that each was run with one will
/// do. Those that try local times have cases of their own.
fn values(cases: &mut Cases, paths: &[Vec<u32>]) {
    for (number, case) in Values::besides_times().enumerate() {
        let RunCall { plan, value, room } = case.call;
        match case.expected {
            Expected::Written(words) if room == 4 * words.len() => {
                cases.each_entry(&plan, &value, &words);
            }
            Expected::Refused(31, _) | Expected::Written(_) => {}
            Expected::Refused(refusal, place) => {
                let path = vec![0; number % 6];
                cases.refused(FindCall { plan, value, path }, refusal, place);
            }
            _ => cases.unknown((&words(&plan), &value, &paths[number % paths.len()])),
        }
    }
}

/// Each path with a step more, and with each small or odd index at each step.
fn rich(cases: &mut Cases, paths: &[Vec<u32>]) {
    let value = rich_value();
    let indexes = || (0..=6).chain([0x100, 0x1_0000, 0x7fff_ffff, 0x8000_0000, u32::MAX]);
    for path in paths {
        for index in indexes() {
            let longer = [&path[..], &[index]].concat();
            cases.unknown((&RICH, &value, &longer));
            for at in 0..path.len() {
                let mut other = path.clone();
                other[at] = index;
                cases.unknown((&RICH, &value, &other));
            }
        }
    }
}
