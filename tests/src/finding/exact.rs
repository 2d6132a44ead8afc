//! Cases worked out by hand: paths in one of each kind of container, and the order of
//! refusals.

use super::case::FindCall;
use super::fixed::Cases;
use crate::crossed::{hex, list};
use crate::value::exact::SET;
use crate::value::scalar::{BOOL, INT64, STR};

pub fn add(cases: &mut Cases) {
    sets(cases);
    arrays(cases);
    objects(cases);
    ranges(cases);
    no_type(cases);
    order(cases);
    long_lists(cases);
    deep(cases);
    long_paths(cases);
}

/// The set {7, -1} of case 2 of docs/RULES.md.
fn two() -> Vec<u8> {
    hex("00000001 0000000000000000 00000002 00000001 \
         00000008 0000000000000007 00000008 ffffffffffffffff")
}

fn sets(cases: &mut Cases) {
    let two = two();
    cases.found((&SET, &two, &[]), (0, 44), None);
    cases.found((&SET, &two, &[0]), (24, 8), Some((INT64, 7)));
    cases.found((&SET, &two, &[1]), (36, 8), Some((INT64, u64::MAX)));
    cases.found((&SET, &[0; 12], &[]), (0, 12), None);
    cases.bad((&SET, &[0; 12], &[0]), 35, 0);
    for index in [
        2,
        3,
        0x100,
        0x1_0001,
        0x7fff_ffff,
        0x8000_0000,
        0x8000_0001,
        u32::MAX,
    ] {
        cases.bad((&SET, &two, &[index]), 35, 0);
    }
    for path in [&[0, 0][..], &[1, 0], &[1, 1], &[0, u32::MAX], &[2, 0]] {
        cases.bad((&SET, &two, path), 35, 0);
    }
}

/// A set of arrays of bool: leaf at 2, array at 4, set at 6. The first array has two, the second
/// none.
fn arrays(cases: &mut Cases) {
    let plan = [8, 6, 1, BOOL, 2, 2, 3, 4];
    let value = hex(&format!(
        "00000001 0000000000000000 00000002 00000001 \
         0000002a 00000001 ffffffff 0000001e \
         00000001 0000000000000000 00000002 00000001 00000001 01 00000001 00 \
         00000018 00000001 00000000 0000000c {}",
        "00".repeat(12)
    ));
    cases.found((&plan, &value, &[0]), (36, 30), None);
    cases.found((&plan, &value, &[0, 0]), (60, 1), Some((BOOL, 1)));
    cases.found((&plan, &value, &[0, 1]), (65, 1), Some((BOOL, 0)));
    cases.found((&plan, &value, &[1]), (82, 12), None);
    for path in [&[1, 0][..], &[2], &[0, 2], &[0, 0, 0], &[2, 0]] {
        cases.bad((&plan, &value, path), 35, 0);
    }
}

/// A tuple, an output object with an absent element, and a sparse object in another order.
fn objects(cases: &mut Cases) {
    let tuple = [10, 6, 1, 3, 4, 0, 4, 2, 2, 4];
    let value = hex("00000002 ffffffff 00000002 8000 00000000 00000004 00000000");
    let lowest = (-0x8000_i64) as u64;
    cases.found((&tuple, &value, &[0]), (12, 2), Some((3, lowest)));
    cases.found((&tuple, &value, &[1]), (22, 4), None);
    cases.bad((&tuple, &value, &[2]), 35, 0);
    cases.bad((&tuple, &value, &[1, 0]), 35, 0);

    let output = [10, 4, 1, INT64, 5, 2, 2, 0x41, 2, 0x6f];
    let value = hex("00000002 00000005 00000008 0000000000000007 80000000 ffffffff");
    cases.found((&output, &value, &[0]), (12, 8), Some((INT64, 7)));
    cases.bad((&output, &value, &[1]), 36, 0);
    cases.bad((&output, &value, &[1, 0]), 35, 0);
    cases.bad((&output, &value, &[2]), 35, 0);

    // A bool that is required at 0, enumerations at 1 to 3: 3 is absent, 2 is not given.
    let sparse = [15, 5, 1, BOOL, 8, 6, 4, 2, 0x41, 4, 0x6f, 4, 0x6e, 4, 0x6d];
    let value = hex("00000003 00000003 ffffffff 00000001 00000002 6162 00000000 00000001 01");
    cases.bad((&sparse, &value, &[3]), 36, 0);
    cases.found((&sparse, &value, &[1]), (20, 2), None);
    cases.found((&sparse, &value, &[0]), (30, 1), Some((BOOL, 1)));
    for path in [&[2][..], &[4], &[3, 0], &[1, 0], &[0x8000_0001]] {
        cases.bad((&sparse, &value, path), 35, 0);
    }
}

/// A range of int32, whose indexes are 0 lower and 1 upper.
fn ranges(cases: &mut Cases) {
    let plan = [6, 4, 1, 4, 7, 2];
    let upper = hex("0c 00000004 fffffff7");
    cases.found((&plan, &upper, &[]), (0, 9), None);
    cases.found((&plan, &upper, &[1]), (5, 4), Some((4, -9_i64 as u64)));
    let lower = hex("12 00000004 00000009");
    cases.found((&plan, &lower, &[0]), (5, 4), Some((4, 9)));
    let both = hex("00 00000004 00000001 00000004 00000002");
    cases.found((&plan, &both, &[0]), (5, 4), Some((4, 1)));
    cases.found((&plan, &both, &[1]), (13, 4), Some((4, 2)));
    for (value, path) in [
        (&upper, &[0][..]),
        (&lower, &[1]),
        (&both, &[2]),
        (&both, &[1, 0]),
        (&hex("01"), &[0]),
        (&hex("18"), &[1]),
    ] {
        cases.bad((&plan, value, path), 35, 0);
    }
}

/// 28, 21 first; then 35 for every path (R7.6).
fn no_type(cases: &mut Cases) {
    for path in [&[][..], &[0], &[0, 0]] {
        cases.bad((&[2, 0], &[], path), 35, 0);
        cases.bad((&[2, 0], &[0], path), 21, 0);
        cases.bad((&[2, 0], &[0; 65_536], path), 28, 0);
    }
}

/// The order of R1.11; a path that is no whole number of words has 35's turn (R9.5).
fn order(cases: &mut Cases) {
    let (two, long) = (two(), vec![0; 65_536]);
    let bad_plan = [6, 4, 1, 20, 2, 2];
    for path in [&[0][..], &[0; 7], &[0; 32_772], &[]] {
        for (plan, value, number) in [
            (&bad_plan[..], &long[..], 33),
            (&bad_plan, &two, 33),
            (&SET, &long, 28),
            (&SET, &two[..43], 20),
            (&SET, &[0; 13], 21),
        ] {
            let call = FindCall {
                plan: list(plan),
                value: value.to_vec(),
                path: path.to_vec(),
            };
            cases.refused(call, number, 0);
        }
    }
    for length in [1, 2, 3, 5, 7, 32_767, 32_769, 32_772] {
        let call = FindCall {
            plan: list(&SET),
            value: two.clone(),
            path: vec![0; length],
        };
        cases.refused(call, 35, 0);
    }
    let plan = &list(&SET)[..23];
    let call = FindCall {
        plan: plan.to_vec(),
        value: two,
        path: Vec::new(),
    };
    cases.refused(call, 33, 0);
}

/// No list room is needed: a value whose list cannot cross can be searched (R7.7).
fn long_lists(cases: &mut Cases) {
    let plan = [6, 4, 1, STR, 2, 2];
    for count in [1_638, 16_378] {
        let mut value = list(&[1, 0, 0, count, 1]);
        value.resize(20 + 4 * count as usize, 0);
        cases.found((&plan, &value, &[count - 1]), (20 + 4 * count, 0), None);
        cases.found((&plan, &value, &[0]), (24, 0), None);
        cases.bad((&plan, &value, &[count]), 35, 0);
    }
}

/// An int64 under 31 tuples of one element: the deepest path that names something.
fn deep(cases: &mut Cases) {
    let mut plan = vec![0, 0, 1, INT64];
    let mut value = hex("0123456789abcdef");
    for level in 0..31 {
        let below = if level == 0 { 2 } else { plan.len() as u32 - 3 };
        plan.extend([4, 1, below]);
        value = [&list(&[1, 0, value.len() as u32]), &value[..]].concat();
    }
    plan[0] = plan.len() as u32;
    plan[1] = plan.len() as u32 - 3;
    let number = Some((INT64, 0x0123_4567_89ab_cdef));
    cases.found((&plan, &value, &[0; 31]), (12 * 31, 8), number);
    cases.found((&plan, &value, &[0; 30]), (12 * 30, 20), None);
    cases.bad((&plan, &value, &[0; 32]), 35, 0);
    for at in 0..31 {
        let mut path = [0; 31];
        path[at] = 1;
        cases.bad((&plan, &value, &path), 35, 0);
    }
}

/// As many words as can cross, and one more.
fn long_paths(cases: &mut Cases) {
    for words in [33, 8_191, 8_192, 8_193] {
        cases.bad((&SET, &two(), &vec![0; words]), 35, 0);
    }
}
