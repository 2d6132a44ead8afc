//! 15, 16 and 18, worked out by hand: ids, names and roots.

use super::bytes::*;
use super::exact::{descriptor_a, ELEVENS};
use super::fixed::Cases;

pub fn add(cases: &mut Cases) {
    ids(cases);
    names(cases);
    roots(cases);
}

/// 15: an id of zeros, or an earlier block's (R3.7).
fn ids(cases: &mut Cases) {
    for block in [
        scalar(INT64),
        set(known(INT64), 0),
        tuple(known(INT64), &[]),
        object(known(INT64)),
        input(known(INT64), &[]),
    ] {
        cases.second(&block, 15);
    }
    for tag in [0, 1, 3, 4, 5, 6, 7, 8, 9, 10, 11, 13] {
        cases.second(&block(tag, [0; 16], &[]), 15);
        cases.bad(&block(tag, [0; 16], &[]), &id(1), 15, 0);
    }
    // Ids that differ in one byte are two.
    for at in 0..16 {
        let mut other = id(1);
        other[at] ^= 0x40;
        let descriptor = [tuple(id(1), &[]), tuple(other, &[])].concat();
        cases.good(&descriptor, &other, &[6, 4, 4, 0, 4, 0]);
        let again = [&descriptor[..], &tuple(id(1), &[])].concat();
        cases.bad(&again, &other, 15, descriptor.len());
    }
}

/// 16: two elements of an input shape or named tuple have one name; elsewhere they may (R3.8).
fn names(cases: &mut Cases) {
    for name in [&b"n"[..], b"", b"abc"] {
        cases.second(&named_tuple(id(1), &[(name, 0), (name, 0)]), 16);
        cases.second(&named_tuple(id(1), &[(name, 0), (b"x", 0), (name, 0)]), 16);
        let field = In {
            flags: 0,
            cardinality: ONE,
            name,
            element: 0,
        };
        cases.second(&input(id(1), &[field, field]), 16);
        let out = Out {
            flags: 0,
            cardinality: ONE,
            name,
            element: 0,
            source: 0,
        };
        let descriptor = [scalar(INT64), output(id(1), 1, 0, &[out, out])].concat();
        cases.good(&descriptor, &id(1), &[10, 4, 1, 5, 5, 2, 2, 65, 2, 65]);
        let descriptor = [scalar(INT64), record(id(1), &[(name, 0), (name, 0)])].concat();
        cases.good(&descriptor, &known(INT64), &[4, 2, 1, 5]);
        cases.good(&enumeration(id(1), &[name, name]), &id(1), &[3, 2, 8]);
    }
    let near: [(&[u8], u16); 5] = [(b"a", 0), (b"", 0), (b"A", 0), (b"ab", 0), (b"a\0", 0)];
    let descriptor = [scalar(INT64), named_tuple(id(1), &near)].concat();
    cases.good(&descriptor, &id(1), &[11, 4, 1, 5, 4, 5, 2, 2, 2, 2, 2]);
}

/// 18: no block has the root id, or one without values; its length, and zeros (R3.17).
fn roots(cases: &mut Cases) {
    let a = descriptor_a();
    for root in [
        &[][..],
        &[0x11; 15],
        &[0x11; 17],
        &[0x11; 32],
        &[0; 16],
        &id(7),
    ] {
        cases.bad(&a, root, 18, 53);
    }
    for root in [&[][..], &[0; 15], &[0; 17], &[0x11; 16], &known(INT64)] {
        cases.bad(&[], root, 18, 0);
    }
    for block in [object(id(1)), compound(id(1), 1, &[]), record(id(1), &[])] {
        cases.bad(&block, &id(1), 18, block.len());
    }
    let annotated = [&a[..], &annotation(1)].concat();
    cases.good(&annotated, &ELEVENS, &[6, 4, 1, 5, 2, 2]);
    cases.bad(&annotated, &id(1), 18, annotated.len());
}
