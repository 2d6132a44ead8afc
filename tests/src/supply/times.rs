//! Local times: within a day they are written, and a supply with one outside of it no value has (L2).

use super::fixed::Cases;
use super::having::Kinds;
use crate::crossed::hex;
use crate::entries::entries;
use crate::expected::Expected;
use crate::times::timed::Timed;
use crate::value::scalar::{FREE, LOCAL_TIME};

pub fn add(cases: &mut Cases) {
    by_hand(cases);
    cases.try_times(tried);
}

/// By hand: a set of two that are taken from anywhere in a source. The day's last microsecond starts
/// at 1 there, and its first at 9; those at 0, 2 and 17 lie outside of a day.
fn by_hand(cases: &mut Cases) {
    let src = hex("01 000000141dd75fff 0000000000000000 ffffffffffffffff");
    let list = |first: u32, second: u32| {
        [[4, 0, 0, 44, 2], [2, 0, first, 8, 0], [2, 1, second, 8, 0]].concat()
    };
    let value = |first: &str, second: &str| {
        let head = "00000001 0000000000000000 00000002 00000001";
        hex(&format!("{head} 00000008 {first} 00000008 {second}"))
    };
    let plan = |format: u32| [6, 4, 1, format, 2, 2];
    let (last, first) = ("000000141dd75fff", "0000000000000000");
    cases.good((&plan(LOCAL_TIME), &list(1, 9), &src), &value(last, first));
    cases.good((&plan(LOCAL_TIME), &list(9, 1), &src), &value(first, last));
    for outside in [0, 2, 17] {
        cases.bad((&plan(LOCAL_TIME), &list(outside, 9), &src), 34);
        cases.bad((&plan(LOCAL_TIME), &list(1, outside), &src), 34);
    }
    let ones = "ffffffffffffffff";
    for format in FREE {
        cases.good((&plan(format), &list(17, 1), &src), &value(ones, last));
    }
    for size in [0, 7, 9] {
        cases.bad((&[4, 2, 1, LOCAL_TIME], &[2, 0, 9, size, 0], &src), 34);
    }
}

/// The edges with every room, others with just enough of it.
fn tried(cases: &mut Cases, timed: &Timed) {
    let (plan, value) = (&timed.template.plan, &timed.template.value);
    let words = &timed.template.words;
    let supplied = (&plan[..], &words[..], &value[..]);
    let written = Kinds(plan).without_reserved(&entries(words), value);
    let enough = value.len();
    match (timed.is_accepted(), timed.is_edge()) {
        (true, true) => cases.good(supplied, &written),
        (false, true) => cases.bad(supplied, 34),
        (true, false) => cases.known(supplied, enough, Expected::Bytes(written)),
        (false, false) => cases.known(supplied, enough, Expected::Refused(34, 0)),
    }
}
