//! Local times by descriptors: what is run by a compiled plan, and the rules off the descriptor, list
//! those within a day and refuse the others by 24 where they start (R4.13, L2).

use super::bytes::{derived, id, known, scalar};
use super::clothing;
use super::fixed::Cases;
use crate::crossed::hex;
use crate::expected::Expected;
use crate::rng::Rng;
use crate::times::timed::{Template, Timed};

/// The last bytes of the ids of local_datetime and local_time.
const LOCAL_DATETIME: u8 = 0x0b;
const LOCAL_TIME: u8 = 0x0d;

pub fn add(cases: &mut Cases) {
    by_hand(cases);
    cases.try_times(tried);
}

/// By hand: a scalar without a known id has the limits of its last ancestor (R3.16). The nodes start
/// at 2, 4, 6 and 8.
fn by_hand(cases: &mut Cases) {
    let descriptor = [
        scalar(LOCAL_DATETIME),
        scalar(LOCAL_TIME),
        derived(id(2), &[1, 0]),
        derived(id(3), &[0, 1]),
    ]
    .concat();
    let (within, outside) = (hex("000000141dd75fff"), hex("ffffffffffffffff"));
    for (root, node) in [(known(LOCAL_DATETIME), 2), (id(2), 6)] {
        cases.listed(&descriptor, &root, &within, &[node, 0, 0, 8, 0]);
        cases.listed(&descriptor, &root, &outside, &[node, 0, 0, 8, 0]);
    }
    for (root, node) in [(known(LOCAL_TIME), 4), (id(3), 8)] {
        cases.listed(&descriptor, &root, &within, &[node, 0, 0, 8, 0]);
        cases.faulty(&descriptor, &root, &outside, (24, 0));
    }
}

/// By a descriptor that is made at random from the plan and the number. The edges with every room,
/// others with just enough of it.
fn tried(cases: &mut Cases, timed: &Timed) {
    let Template {
        draft,
        plan,
        value,
        words,
    } = &timed.template;
    let made = clothing::make(&mut Rng::new(timed.microseconds as u64), draft);
    let (descriptor, root) = (&made.lay().bytes, &made.root);
    let enough = 4 * words.len();
    match (timed.is_accepted(), timed.is_edge()) {
        (true, true) => cases.listed(descriptor, root, value, words),
        (false, true) => cases.faulty(descriptor, root, value, (24, timed.start())),
        (true, false) => {
            let expected = Expected::Written(words.clone());
            cases.planned((descriptor, root, plan), (value, enough, expected));
        }
        (false, false) => {
            let expected = Expected::Refused(24, timed.start());
            cases.planned((descriptor, root, plan), (value, enough, expected));
        }
    }
}
