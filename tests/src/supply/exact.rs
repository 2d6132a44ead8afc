//! Cases worked out by hand: those of docs/RULES.md that a value has, sets and leaves, and what
//! makes them such as no value has.

use super::fixed::Cases;
use crate::crossed::hex;
use crate::value::exact::SET;
use second::entry::ABSENT;

pub fn add(cases: &mut Cases) {
    edges(cases);
    places(cases);
    entries(cases);
    words(cases);
    leaves(cases);
    no_type(cases);
}

/// The cases 2 and 3 of docs/RULES.md, written again from their lists.
fn edges(cases: &mut Cases) {
    let head = "00000001 0000000000000000 00000002 00000001";
    let elements = "00000008 0000000000000007 00000008 ffffffffffffffff";
    let two = hex(&format!("{head} {elements}"));
    let list = [4, 0, 0, 44, 2, 2, 0, 24, 8, 0, 2, 1, 36, 8, 0];
    cases.good((&SET, &list, &two), &two);
    let reserved = hex(&format!(
        "00000001 0123456789abcdef 00000002 00000001 {elements}"
    ));
    cases.good((&SET, &list, &reserved), &two);
    cases.good((&SET, &[4, 0, 0, 12, 0], &[0xff; 12]), &[0; 12]);
    cases.good((&SET, &[4, 0, 0, 12, 0], &[]), &[0; 12]);
}

/// Leaves that lie over each other, and starts and lengths of a container that do not count.
fn places(cases: &mut Cases) {
    let src = hex("00000000 00000000 07 ffffffffffffffff");
    let value = |first: &str, second: &str| {
        let head = "00000001 0000000000000000 00000002 00000001";
        hex(&format!("{head} 00000008 {first} 00000008 {second}"))
    };
    let list = |top: [u32; 2], first: u32, second: u32| {
        let top = [4, 0, top[0], top[1], 2];
        [top, [2, 0, first, 8, 0], [2, 1, second, 8, 0]].concat()
    };
    let seven = "0000000000000007";
    let ones = "ffffffffffffffff";
    cases.good((&SET, &list([0, 44], 1, 9), &src), &value(seven, ones));
    cases.good((&SET, &list([0, 44], 9, 1), &src), &value(ones, seven));
    cases.good((&SET, &list([0, 44], 9, 9), &src), &value(ones, ones));
    let over = "00000000000007ff";
    cases.good((&SET, &list([0, 44], 1, 2), &src), &value(seven, over));
    for top in [
        [0, 0],
        [17, 1],
        [18, 0],
        [ABSENT, ABSENT - 1],
        [0x8000_0000, 0x7fff_ffff],
    ] {
        cases.good((&SET, &list(top, 1, 9), &src), &value(seven, ones));
    }
    // The top may not be absent, and the sum of start and length does not wrap.
    cases.bad((&SET, &list([0, ABSENT], 1, 9), &src), 34);
    for start in [10, 17, 18, 0x7fff_ffff, 0x8000_0000, ABSENT - 7, ABSENT] {
        cases.bad((&SET, &list([0, 44], 1, start), &src), 34);
    }
}

/// Entries and words left over or missing.
fn entries(cases: &mut Cases) {
    let src = [0; 8];
    let top = [4, 0, 0, 32, 1];
    let leaf = [2, 0, 0, 8, 0];
    let value = hex("00000001 0000000000000000 00000001 00000001 00000008 0000000000000000");
    cases.good((&SET, &[top, leaf].concat(), &src), &value);
    for list in [
        vec![],
        vec![4],
        vec![4, 0, 0, 32],
        top.to_vec(),
        leaf.to_vec(),
        [leaf, top].concat(),
        [top, leaf, leaf].concat(),
        [top, top, leaf].concat(),
        [&top[..], &leaf[..4]].concat(),
        [&top[..], &leaf, &[0]].concat(),
    ] {
        cases.bad((&SET, &list, &src), 34);
    }
}

/// One word of a good list changed.
fn words(cases: &mut Cases) {
    let list = [4, 0, 0, 32, 1, 2, 0, 0, 8, 0];
    for (at, word) in [
        (0, 2),
        (0, 6),
        (0, 0x8000_0004),
        (1, 1),
        (4, 0),
        (4, 2),
        (4, 0x7fff_ffff),
        (4, 0x8000_0001),
        (4, ABSENT),
        (5, 4),
        (5, 3),
        (6, 1),
        (6, ABSENT),
        (8, 7),
        (8, 9),
        (8, ABSENT),
        (9, 1),
        (9, ABSENT),
    ] {
        let mut list = list;
        list[at] = word;
        cases.bad((&SET, &list, &[0; 8]), 34);
    }
}

/// An empty leaf beyond the source is 34 (R8.7); contents must be permitted, and are copied as they
/// are (R8.5).
fn leaves(cases: &mut Cases) {
    let enumeration = [3, 2, 8];
    cases.good((&enumeration, &[2, 0, 0, 0, 0], &[]), &[]);
    cases.good((&enumeration, &[2, 0, 1, 0, 0], &[0xff]), &[]);
    cases.bad((&enumeration, &[2, 0, 1, 0, 0], &[]), 34);
    cases.bad((&enumeration, &[2, 0, 2, 0, 0], &[0xff]), 34);
    cases.bad((&enumeration, &[2, 0, ABSENT, 0, 0], &[]), 34);
    cases.bad((&enumeration, &[2, 0, 0, 1, 0], &[0xff]), 34);
    cases.bad((&enumeration, &[2, 0, 0, 1, 1], b"a"), 34);
    cases.good((&enumeration, &[2, 0, 1, 2, 0], b"abcd"), b"bc");
    cases.bad((&[4, 2, 1, 9], &[2, 0, 0, 1, 0], &[2]), 34);
    cases.good((&[4, 2, 1, 9], &[2, 0, 1, 1, 0], &[2, 1]), &[1]);
    let duration = hex("0123456789abcdef 00000002 0000000c");
    cases.good((&[4, 2, 1, 18], &[2, 0, 0, 16, 0], &duration), &duration);
    cases.bad((&[4, 2, 1, 14], &[2, 0, 0, 16, 0], &duration), 34);
}

/// The list of no words is the supply of the value of no bytes (R8.11).
fn no_type(cases: &mut Cases) {
    cases.good((&[2, 0], &[], &[]), &[]);
    cases.good((&[2, 0], &[], &[1, 2, 3]), &[]);
    for list in [&[0][..], &[0; 5], &[2, 0, 0, 0, 0]] {
        cases.bad((&[2, 0], list, &[]), 34);
    }
}
