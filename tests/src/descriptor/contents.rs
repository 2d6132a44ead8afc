//! 10, 11 and 12, worked out by hand.

use super::bytes::*;
use super::exact::{descriptor_a, ELEVENS};
use super::fixed::Cases;
use crate::crossed::hex;

pub fn add(cases: &mut Cases) {
    ends(cases);
    tags(cases);
    texts(cases);
    contents(cases);
    shapes(cases);
}

/// 10: descriptor A cut at each byte. Where the first block is whole the root is not there.
fn ends(cases: &mut Cases) {
    let a = descriptor_a();
    for end in 1..53 {
        let (number, place) = match end {
            ..34 => (10, 0),
            34 => (18, 34),
            35.. => (10, 34),
        };
        cases.bad(&a[..end], &ELEVENS, number, place);
    }
}

/// 11: every tag that R3.2 does not have, the multirange's 12 too, whatever comes after.
fn tags(cases: &mut Cases) {
    for tag in [2, 12, 14, 0x10, 0x7e, 0x80, 0xff] {
        cases.bad(&[tag], &ELEVENS, 11, 0);
        cases.second(&[tag], 11);
        cases.second(&block(tag, id(1), &[&[0, 0]]), 11);
    }
}

/// 12: names, members, keys and values are text (R3.6).
fn texts(cases: &mut Cases) {
    let bad = text(b"a\xff");
    cases.second(&block(3, id(1), &[&bad, &[1, 0, 0]]), 12);
    cases.second(&block(4, id(1), &[&bad, &[1, 0, 0, 0, 0]]), 12);
    cases.second(&block(10, id(1), &[&bad, &[1]]), 12);
    cases.second(&block(11, id(1), &[&bad, &[1, 1, 0, 0]]), 12);
    cases.second(&enumeration(id(1), &[b"a", b"\xc0\x80"]), 12);
    cases.second(&named_tuple(id(1), &[(b"\xed\xa0\x80", 0)]), 12);
    cases.second(&record(id(1), &[(b"\x80", 0)]), 12);
    cases.second(&[&[0x7f, 0, 0], &bad[..], &text(b"")].concat(), 12);
    cases.second(&[&[0x7f, 0, 0], &text(b"")[..], &bad].concat(), 12);
    let named = In {
        flags: 0,
        cardinality: ONE,
        name: b"\xf4\x90\x80\x80",
        element: 0,
    };
    cases.second(&input(id(1), &[named]), 12);
}

/// 12: bools, operation and dimensions.
fn contents(cases: &mut Cases) {
    for bool in [2, 0x80, 0xff] {
        cases.second(&block(10, id(1), &[&text(b""), &[bool]]), 12);
        cases.second(&block(3, id(1), &[&text(b""), &[bool, 0, 0]]), 12);
        cases.second(&output(id(1), bool, 0, &[]), 12);
    }
    for operation in [0, 3, 0xff] {
        cases.second(&compound(id(1), operation, &[]), 12);
    }
    for dimensions in [
        "0000",
        "0002 ffffffff ffffffff",
        "0201",
        "ffff",
        "0001 00000000",
        "0001 00000001",
        "0001 fffffffe",
        "0001 7fffffff",
    ] {
        let rest = [&schema(&[])[..], &[0, 0], &hex(dimensions)].concat();
        cases.second(&block(6, id(1), &[&rest]), 12);
    }
}

/// 12: flags and cardinalities of shapes.
fn shapes(cases: &mut Cases) {
    let out = |flags, cardinality| Out {
        flags,
        cardinality,
        name: b"n",
        element: 0,
        source: 0,
    };
    let field = |flags, cardinality| In {
        flags,
        cardinality,
        name: b"n",
        element: 0,
    };
    for flags in [8, 0x10, 0x100, 0x0100_0000, 0x8000_0000, 0xffff_ffff] {
        cases.second(&output(id(1), 1, 0, &[out(flags, ONE)]), 12);
        cases.second(&input(id(1), &[field(flags, ONE)]), 12);
    }
    for flags in 1..8 {
        cases.second(&input(id(1), &[field(flags, ONE)]), 12);
    }
    for cardinality in [0, 1, 0x40, 0x42, 0x4c, 0x4e, 0x61, 0x6c, 0x70, 0xff] {
        cases.second(&output(id(1), 1, 0, &[out(0, cardinality)]), 12);
        cases.second(&input(id(1), &[field(0, cardinality)]), 12);
    }
    for cardinality in [0x6e, 0x6f, 0x41, 0x6d, 0x4d] {
        let word = u32::from(cardinality);
        let descriptor = [scalar(INT64), output(id(1), 1, 0, &[out(7, cardinality)])].concat();
        cases.good(&descriptor, &id(1), &[8, 4, 1, 5, 5, 1, 2, word]);
        let descriptor = [scalar(INT64), input(id(1), &[field(0, cardinality)])].concat();
        cases.good(&descriptor, &id(1), &[8, 4, 1, 5, 6, 1, 2, word]);
    }
}
