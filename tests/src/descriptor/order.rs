//! Two faults in one descriptor, where the order of R1.8 and R3.5 says which is given.

use super::bytes::*;
use super::exact::descriptor_a;
use super::fixed::{Cases, AFTER};

pub fn add(cases: &mut Cases) {
    of_calls(cases);
    of_fields(cases);
    of_later_fields(cases);
    of_counts(cases);
    of_names(cases);
    of_elements(cases);
    of_free_shapes(cases);
}

/// The total of bytes, then the root id's length and zeros, come before the blocks; a root that is
/// missing comes after them (R1.8).
fn of_calls(cases: &mut Cases) {
    let long = vec![0xff; 65_536];
    for root in [&[][..], &[0; 3], &[0; 16], &[0x11; 16]] {
        cases.bad(&long, root, 17, 0);
    }
    for root in [&[][..], &[0x11; 3], &[0; 16], &[0x11; 17]] {
        cases.bad(&long[..65_535], root, 18, 65_535);
        cases.bad(&[2], root, 18, 1);
        cases.bad(&descriptor_a()[..20], root, 18, 20);
    }
    cases.bad(&long[..65_535], &id(1), 11, 0);
    cases.bad(&descriptor_a()[..20], &id(1), 10, 0);
}

/// Field after field, and of each field first whether it is whole (R3.5).
fn of_fields(cases: &mut Cases) {
    // Nothing after a tag that is unknown, or an id that is there already, is looked at.
    cases.second(&[2], 11);
    cases.second(&block(0, known(INT64), &[]), 15);
    cases.second(&block(0, id(1), &[]), 10);
    cases.second(&[&[0][..], &[0; 15]].concat(), 10);
    // A text that is cut is 10 though its bytes so far are no text.
    cases.second(&block(10, id(1), &[&[0, 0, 0, 3, 0xff, 0xff]]), 10);
    cases.second(&block(10, id(1), &[&[0xff, 0xff, 0xff, 0xff, 0xff]]), 10);
    cases.second(&block(10, id(1), &[&[0, 0, 0, 2, 0xff, 0xff]]), 12);
    // The name's rule comes before the bool's, and the bool's before a missing count.
    cases.second(&block(3, id(1), &[&text(b"\xff"), &[2]]), 12);
    cases.second(&block(3, id(1), &[&text(b"a"), &[2]]), 12);
    cases.second(&block(3, id(1), &[&text(b"a"), &[1]]), 10);
    cases.second(&block(3, id(1), &[&text(b"a"), &[1, 0, 1]]), 10);
    cases.second(&block(3, id(1), &[&text(b"a"), &[1, 0, 2, 0, 1]]), 13);
    cases.second(&block(3, id(1), &[&text(b"a"), &[1, 0, 2, 0, 0]]), 10);
}

/// Field order in compounds, arrays and annotations.
fn of_later_fields(cases: &mut Cases) {
    // Compound: the operation before the count.
    cases.second(&block(11, id(1), &[&text(b""), &[0, 3]]), 12);
    cases.second(&block(11, id(1), &[&text(b""), &[0, 1]]), 10);
    // Array: type, dimension count, dimension.
    let array = |rest: &[u8]| block(6, id(1), &[&schema(&[]), rest]);
    cases.second(&array(&[0, 1, 0, 2]), 13);
    cases.second(&array(&[0, 0, 0, 2]), 12);
    cases.second(&array(&[0, 0, 0, 1, 0, 0, 0]), 10);
    // Annotation: index, key, value.
    cases.second(&[0x7f, 0, 1], 13);
    cases.second(&[0x7f, 0], 10);
    cases.second(&[&[0x7f, 0, 0][..], &text(b"\xff")].concat(), 12);
    cases.second(&[&[0x7f, 0, 0][..], &text(b"k")].concat(), 10);
}

/// With nothing after it a count of 513 is 17, and one of 512 is 10 (R3.9).
fn of_counts(cases: &mut Cases) {
    let heads: [(u8, Vec<u8>); 12] = [
        (3, [text(b"t"), vec![1]].concat()),
        (4, [text(b"t"), vec![1]].concat()),
        (4, schema(&[])),
        (5, schema(&[])),
        (6, [text(b"t"), vec![1]].concat()),
        (7, schema(&[])),
        (7, [text(b"t"), vec![1]].concat()),
        (9, [text(b"t"), vec![1]].concat()),
        (11, [text(b"t"), vec![1, 1]].concat()),
        (1, vec![1, 0, 0]),
        (8, Vec::new()),
        (13, Vec::new()),
    ];
    for (tag, head) in heads {
        let block = |count: u16| block(tag, id(1), &[&head, &count.to_be_bytes()]);
        for count in [513, 514, 0x8000, 0xffff] {
            cases.second(&block(count), 17);
        }
        cases.second(&block(512), 10);
        cases.second(&block(1), 10);
    }
}

/// 16 comes with the second name, after its 12 and before the element's type (R3.8).
fn of_names(cases: &mut Cases) {
    let field = |flags, cardinality, name, element| In {
        flags,
        cardinality,
        name,
        element,
    };
    let first = field(0, ONE, &b"n"[..], 0);
    for (other, number) in [
        (field(1, 0, b"n", 9), 12),
        (field(0, 0, b"n", 9), 12),
        (field(0, ONE, b"\xff", 9), 12),
        (field(0, ONE, b"n", 9), 16),
        (field(0, ONE, b"m", 9), 13),
    ] {
        cases.second(&input(id(1), &[first, other]), number);
    }
    cases.second(&named_tuple(id(1), &[(b"n", 0), (b"n", 9)]), 16);
    cases.second(&named_tuple(id(1), &[(b"n", 9), (b"n", 0)]), 13);
    cases.second(&named_tuple(id(1), &[(b"\xff", 0), (b"\xff", 0)]), 12);
    // The second name is there, what comes after it is not.
    let mut cut = named_tuple(id(1), &[(b"n", 0), (b"n", 0)]);
    cut.truncate(cut.len() - 2);
    cases.second(&cut, 16);
    cut.truncate(cut.len() - 1);
    cases.second(&cut, 10);
}

/// Of an output shape: flags, cardinality, name, type, source. Block 1 is an object type.
fn of_elements(cases: &mut Cases) {
    let before = [scalar(INT64), object(id(1))].concat();
    let out = |flags, cardinality, name, element, source| Out {
        flags,
        cardinality,
        name,
        element,
        source,
    };
    for (element, number) in [
        (out(8, 0, &b"\xff"[..], 9, 9), 12),
        (out(0, 0, b"n", 9, 9), 12),
        (out(0, ONE, b"\xff", 9, 9), 12),
        (out(0, ONE, b"n", 2, 0), 13),
        (out(0, ONE, b"n", 1, 9), 14),
        (out(0, ONE, b"n", 0, 9), 13),
        (out(0, ONE, b"n", 0, 0), 14),
    ] {
        let descriptor = [&before[..], &output(id(2), 0, 1, &[element])].concat();
        cases.bad(&descriptor, &known(INT64), number, before.len());
    }
    // The shape's type comes before its count, and a bool before the type.
    for (head, number) in [
        (&[2, 0xff, 0xff][..], 12),
        (&[0, 0, 2, 0xff, 0xff], 13),
        (&[0, 0, 0, 0xff, 0xff], 14),
        (&[0, 0, 1, 0xff, 0xff], 17),
        (&[0, 0, 1, 0], 10),
        (&[0, 0], 10),
    ] {
        let descriptor = [&before[..], &block(1, id(2), &[head])].concat();
        cases.bad(&descriptor, &known(INT64), number, before.len());
    }
}

/// In a free shape both types may hold anything, but they must be whole (R3.12).
fn of_free_shapes(cases: &mut Cases) {
    for number in [0, 1, 2, 0x7fff, 0xffff] {
        let out = Out {
            flags: 0,
            cardinality: AT_MOST_ONE,
            name: b"n",
            element: 0,
            source: number,
        };
        let shape = output(id(1), 1, number, &[out]);
        let descriptor = [&scalar(INT64), &shape[..]].concat();
        cases.good(&descriptor, &id(1), &[8, 4, 1, 5, 5, 1, 2, 0x6f]);
        let end = descriptor.len();
        for cut in [1, 2, 3] {
            cases.bad(&descriptor[..end - cut], &id(1), 10, AFTER);
        }
    }
}
