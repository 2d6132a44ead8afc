//! Sets of arrays, tuples and objects, worked out by hand.

use super::fixed::Cases;
use crate::crossed::hex;
use crate::value::exact::INPUT;
use second::entry::ABSENT;

pub fn add(cases: &mut Cases) {
    arrays(cases);
    tuples(cases);
    outputs(cases);
    inputs(cases);
}

/// A set of arrays of bool: leaf at 2, array at 4, set at 6. The second array is empty.
fn arrays(cases: &mut Cases) {
    let plan = [8, 6, 1, 9, 2, 2, 3, 4];
    let list = [
        [6, 0, 0, 0, 2],
        [4, 0, 0, 0, 1],
        [2, 0, 0, 1, 0],
        [4, 1, 0, 0, 0],
    ];
    let value = hex(&format!(
        "00000001 0000000000000000 00000002 00000001 \
         00000025 00000001 00000000 00000019 \
         00000001 0000000000000000 00000001 00000001 00000001 01 \
         00000018 00000001 00000000 0000000c {}",
        "00".repeat(12)
    ));
    cases.good((&plan, list.as_flattened(), &[1]), &value);
    for (entry, word, other) in [
        (1, 3, ABSENT),
        (3, 3, ABSENT),
        (3, 1, 0),
        (1, 4, 0),
        (3, 0, 6),
    ] {
        let mut list = list;
        list[entry][word] = other;
        cases.bad((&plan, list.as_flattened(), &[1]), 34);
    }
}

/// A tuple of an int16 and an empty tuple: leaf at 2, empty tuple at 4, tuple at 6.
fn tuples(cases: &mut Cases) {
    let plan = [10, 6, 1, 3, 4, 0, 4, 2, 2, 4];
    let list = [[6, 0, 9, 9, 2], [2, 0, 0, 2, 0], [4, 1, 9, 9, 0]];
    let value = hex("00000002 00000000 00000002 8000 00000000 00000004 00000000");
    cases.good((&plan, list.as_flattened(), &[0x80, 0]), &value);
    cases.good((&[4, 2, 4, 0], &[2, 0, 7, 7, 0], &[]), &[0; 4]);
    cases.bad((&[4, 2, 4, 0], &[2, 0, 7, 7, 1], &[]), 34);
    for (entry, word, other) in [
        (0, 4, 1),
        (0, 4, 3),
        (1, 3, ABSENT),
        (2, 3, ABSENT),
        (2, 4, 1),
    ] {
        let mut list = list;
        list[entry][word] = other;
        cases.bad((&plan, list.as_flattened(), &[0x80, 0]), 34);
    }
    let short = [[6, 0, 9, 9, 1], [2, 0, 0, 2, 0]];
    cases.bad((&plan, short.as_flattened(), &[0x80, 0]), 34);
}

/// An object of a tuple that may be absent and an int16 that may not: empty tuple at 2, leaf at 4,
/// object at 6. An absent entry's start may be anything, but nothing is below it (R8.8).
fn outputs(cases: &mut Cases) {
    let plan = [12, 6, 4, 0, 1, 3, 5, 2, 2, 0x6f, 4, 0x41];
    let list = |tuple: [u32; 5]| [[6, 0, 0, 0, 2], tuple, [4, 1, 0, 2, 0]].concat();
    let absent = hex("00000002 00000000 ffffffff 00000000 00000002 0007");
    for start in [0, 2, 3, 0x8000_0000, ABSENT] {
        let list = list([2, 0, start, ABSENT, 0]);
        cases.good((&plan, &list, &[0, 7]), &absent);
    }
    let present = hex("00000002 00000000 00000004 00000000 00000000 00000002 0007");
    cases.good((&plan, &list([2, 0, 99, 0, 0]), &[0, 7]), &present);
    for tuple in [
        [2, 0, 0, ABSENT, 1],
        [4, 0, 0, ABSENT, 0],
        [2, 1, 0, ABSENT, 0],
    ] {
        cases.bad((&plan, &list(tuple), &[0, 7]), 34);
    }
    let required = [[6, 0, 0, 0, 2], [2, 0, 0, ABSENT, 0], [4, 1, 0, ABSENT, 0]];
    cases.bad((&plan, required.as_flattened(), &[0, 7]), 34);
}

/// An input object of a bool that is required and two enumerations that are not: bool at 2,
/// enumeration at 4, object at 5. The order of the supply is kept.
fn inputs(cases: &mut Cases) {
    let plan = [13, 5, 1, 9, 8, 6, 3, 2, 0x4d, 4, 0x6f, 4, 0x6e];
    let (bool, ab) = ([2, 0, 0, 1, 0], [4, 2, 1, 2, 0]);
    let absent = [4, 1, ABSENT, ABSENT, 0];
    let src = b"\x01ab";
    let object = |entries: &[[u32; 5]]| {
        let top = [5, 0, 0, 0, entries.len() as u32];
        [&[top], entries].concat().concat()
    };
    let value = hex("00000003 00000002 00000002 6162 00000001 ffffffff 00000000 00000001 01");
    cases.good((&plan, &object(&[ab, absent, bool]), src), &value);
    let value = hex("00000002 00000000 00000001 01 00000002 00000002 6162");
    cases.good((&plan, &object(&[bool, ab]), src), &value);
    let value = hex("00000001 00000000 00000001 01");
    cases.good((&plan, &object(&[bool]), src), &value);
    let outside = |index: u32| [4, index, 1, 2, 0];
    for entries in [
        &[][..],
        &[ab, absent],
        &[bool, bool],
        &[bool, ab, ab],
        &[bool, absent, absent],
        &[bool, absent, outside(1)],
        &[bool, outside(3)],
        &[bool, outside(0x8000_0002)],
        &[bool, outside(ABSENT)],
        &[[2, 0, 0, ABSENT, 0]],
        &[[4, 0, 1, 2, 0]],
    ] {
        cases.bad((&plan, &object(entries), src), 34);
    }
    cases.good(
        (&[8, 4, 1, 9, 6, 1, 2, 0x6f], &[4, 0, 0, 0, 0], &[]),
        &[0; 4],
    );
    cases.bad((&INPUT, &[4, 0, 0, 4, 0], &[]), 34);
}
