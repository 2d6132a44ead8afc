//! Local times: within a day each is found, and has no number; outside of it every path is 24 where
//! the local_time starts (L2).

use super::fixed::Cases;
use crate::crossed::hex;
use crate::times::timed::Timed;
use crate::value::scalar::{INT64, LOCAL_TIME};

const DATETIME: u32 = 10;
const LOCAL_DATETIME: u32 = 11;

pub fn add(cases: &mut Cases) {
    by_hand(cases);
    cases.try_times(tried);
}

/// By hand: a range of local times, of which the bounds start at 5 and 17. Other formats of the same
/// bytes are found.
fn by_hand(cases: &mut Cases) {
    let plan_of = |format: u32| [6, 4, 1, format, 7, 2];
    let plan = plan_of(LOCAL_TIME);
    let range = |lower: &str, upper: &str| hex(&format!("00 00000008 {lower} 00000008 {upper}"));
    let (first, last) = ("0000000000000000", "000000141dd75fff");
    let (before, after) = ("ffffffffffffffff", "000000141dd76000");
    let day = range(first, last);
    cases.found((&plan, &day, &[]), (0, 25), None);
    cases.found((&plan, &day, &[0]), (5, 8), None);
    cases.found((&plan, &day, &[1]), (17, 8), None);
    for path in [&[][..], &[0], &[1], &[2], &[1, 0]] {
        cases.bad((&plan, &range(before, last), path), 24, 5);
        cases.bad((&plan, &range(first, after), path), 24, 17);
        cases.bad((&plan, &range(after, before), path), 24, 5);
    }
    let outside = range(before, after);
    for format in [DATETIME, LOCAL_DATETIME] {
        cases.found((&plan_of(format), &outside, &[0]), (5, 8), None);
        cases.found((&plan_of(format), &outside, &[1]), (17, 8), None);
    }
    let integers = plan_of(INT64);
    let numbers = [u64::MAX, 86_400_000_000].map(|bits| Some((INT64, bits)));
    cases.found((&integers, &outside, &[0]), (5, 8), numbers[0]);
    cases.found((&integers, &outside, &[1]), (17, 8), numbers[1]);
}

/// The path to the local_time; with the edges that to the top and one that leads nowhere too.
fn tried(cases: &mut Cases, timed: &Timed) {
    let (plan, value) = (&timed.template.plan, &timed.template.value);
    let path = timed.path();
    let below = [&path[..], &[0]].concat();
    if !timed.is_accepted() {
        let paths: &[&[u32]] = match timed.is_edge() {
            true => &[&path, &[], &below],
            false => &[&path],
        };
        for path in paths {
            cases.bad((plan, value, path), 24, timed.start());
        }
        return;
    }
    cases.found((plan, value, &path), (timed.start(), 8), None);
    if timed.is_edge() {
        cases.found((plan, value, &[]), (0, value.len() as u32), None);
        cases.bad((plan, value, &below), 35, 0);
    }
}
