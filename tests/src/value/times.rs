//! Local times: within a day they are listed, and outside of it refused by 24 where they start (L2).

use super::fixed::Cases;
use super::scalar::{FREE, LOCAL_TIME};
use crate::crossed::hex;
use crate::expected::Expected;
use crate::times::timed::Timed;

/// The bytes of -1, of the first microsecond after a day, and of the ends of 64 bits.
const OUTSIDE: [&str; 4] = [
    "ffffffffffffffff",
    "000000141dd76000",
    "8000000000000000",
    "7fffffffffffffff",
];

pub fn add(cases: &mut Cases) {
    alone(cases);
    first_fault(cases);
    free(cases);
    cases.try_times(tried);
}

/// By hand: both ends of the day pass, and what has not eight bytes does not.
fn alone(cases: &mut Cases) {
    let plan = [4, 2, 1, LOCAL_TIME];
    for within in ["0000000000000000", "0000000000000001", "000000141dd75fff"] {
        cases.good(&plan, &hex(within), &[2, 0, 0, 8, 0]);
    }
    for outside in OUTSIDE {
        cases.bad(&plan, &hex(outside), 24, 0);
    }
    for sized in ["", "00", "00000000000000", "000000000000000000", "0000000a"] {
        cases.bad(&plan, &hex(sized), 24, 0);
    }
}

/// By hand: of several faults in a set of two the first is given (R5.2). They start at 24 and 36.
fn first_fault(cases: &mut Cases) {
    let plan = [6, 4, 1, LOCAL_TIME, 2, 2];
    let head = "00000001 0000000000000000 00000002 00000001";
    let (good, bad) = ("00000008 0000000000000000", "00000008 000000141dd76000");
    let list = [[4, 0, 0, 44, 2], [2, 0, 24, 8, 0], [2, 1, 36, 8, 0]];
    let value = hex(&format!("{head} {good} {good}"));
    cases.good(&plan, &value, list.as_flattened());
    for (elements, place) in [
        (format!("{bad} {good}"), 24),
        (format!("{good} {bad}"), 36),
        (format!("{bad} {bad}"), 24),
        (format!("{bad} ffffffff"), 24),
        (format!("{bad} 00000007 00000000000000"), 24),
        (format!("{good} {bad} 00"), 36),
        (bad.to_string(), 24),
    ] {
        let value = hex(&format!("{head} {elements}"));
        cases.bad(&plan, &value, 24, place);
    }
    // A length before it comes first.
    let value = hex(&format!("{head} ffffffff {bad}"));
    cases.bad(&plan, &value, 23, 0);
}

/// By hand: other formats of eight bytes, and local_date, hold anything of their size.
fn free(cases: &mut Cases) {
    for format in FREE {
        for outside in OUTSIDE {
            cases.good(&[4, 2, 1, format], &hex(outside), &[2, 0, 0, 8, 0]);
        }
    }
    for date in ["ffffffff", "80000000", "7fffffff"] {
        cases.good(&[4, 2, 1, 12], &hex(date), &[2, 0, 0, 4, 0]);
    }
}

/// The edges with every room, others with just enough of it.
fn tried(cases: &mut Cases, timed: &Timed) {
    let (plan, value) = (&timed.template.plan, &timed.template.value);
    let words = &timed.template.words;
    let enough = 4 * words.len();
    match (timed.is_accepted(), timed.is_edge()) {
        (true, true) => cases.good(plan, value, words),
        (false, true) => cases.bad(plan, value, 24, timed.start()),
        (true, false) => cases.known(plan, value, enough, Expected::Written(words.clone())),
        (false, false) => {
            let expected = Expected::Refused(24, timed.start());
            cases.known(plan, value, enough, expected);
        }
    }
}
