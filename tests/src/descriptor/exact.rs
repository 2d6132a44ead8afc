//! Cases worked out by hand: the eleven of docs/RULES.md, and one of each kind of block.

use super::bytes::*;
use super::draft::Id;
use super::fixed::Cases;
use crate::crossed::hex;

/// The root of descriptor A.
pub const ELEVENS: Id = [0x11; 16];

/// Descriptor A of docs/RULES.md, 53 bytes: an int64 and a set of it.
pub fn descriptor_a() -> Vec<u8> {
    hex(
        "03 00000000000000000000000000000105 0000000a 7374643a3a696e743634 01 0000 \
         00 11111111111111111111111111111111 0000",
    )
}

pub fn add(cases: &mut Cases) {
    edges(cases);
    values_of_a(cases);
    required_input(cases);
    cardinalities(cases);
    no_type(cases);
    formats(cases);
    rich(cases);
}

/// The cases 1, 8 and 9 of docs/RULES.md.
fn edges(cases: &mut Cases) {
    let a = descriptor_a();
    assert_eq!(a.len(), 53, "descriptor A has 53 bytes");
    cases.good(&a, &ELEVENS, &[6, 4, 1, 5, 2, 2]);
    // The first block may be the root too.
    cases.good(&a, &known(INT64), &[6, 2, 1, 5, 2, 2]);
    let mut eight = a.clone();
    eight[52] = 1;
    cases.bad(&eight, &ELEVENS, 13, 34);
    let nine = [&a[..35], &known(INT64)[..], &a[51..]].concat();
    cases.bad(&nine, &ELEVENS, 15, 34);
}

/// The cases 2 to 7 of docs/RULES.md.
fn values_of_a(cases: &mut Cases) {
    let a = descriptor_a();
    let two = hex("00000001 0000000000000000 00000002 00000001 \
         00000008 0000000000000007 00000008 ffffffffffffffff");
    let list = [4, 0, 0, 44, 2, 2, 0, 24, 8, 0, 2, 1, 36, 8, 0];
    cases.listed(&a, &ELEVENS, &two, &list);
    cases.listed(&a, &ELEVENS, &[0; 12], &[4, 0, 0, 12, 0]);
    let none = hex("00000001 0000000000000000 00000000 00000001");
    cases.faulty(&a, &ELEVENS, &none, (22, 0));
    cases.faulty(&a, &ELEVENS, &two[..43], (20, 0));
    cases.faulty(&a, &ELEVENS, &[&two[..], &[0]].concat(), (21, 0));
    let seven = hex("00000001 0000000000000000 00000001 00000001 00000007 00000000000000");
    cases.faulty(&a, &ELEVENS, &seven, (24, 24));
    cases.faulty(&a, &ELEVENS, &[0; 65_536], (28, 0));
}

/// The cases 10 and 11 of docs/RULES.md: an input shape of one int64, which is required.
fn required_input(cases: &mut Cases) {
    let element = In {
        flags: 0,
        cardinality: ONE,
        name: b"n",
        element: 0,
    };
    let descriptor = [scalar(INT64), input(id(1), &[element])].concat();
    cases.good(&descriptor, &id(1), &[8, 4, 1, 5, 6, 1, 2, 65]);
    cases.faulty(&descriptor, &id(1), &[0; 4], (27, 0));
    let twice = hex("00000002 00000000 00000008 0000000000000001 \
         00000000 00000008 0000000000000002");
    cases.faulty(&descriptor, &id(1), &twice, (26, 0));
    let outside = hex("00000001 00000001 ffffffff");
    cases.faulty(&descriptor, &id(1), &outside, (25, 0));
    let below = hex("00000001 00000000 fffffffe");
    cases.faulty(&descriptor, &id(1), &below, (23, 0));
}

/// Which elements are required, and which may be absent, in either shape (R5.11).
fn cardinalities(cases: &mut Cases) {
    let absent = hex("00000001 00000000 ffffffff");
    let list = [4, 0, 0, 12, 1, 2, 0, 12, 0xffff_ffff, 0];
    for cardinality in [0x6e, 0x6f, 0x41, 0x6d, 0x4d] {
        let name = b"n";
        let out = Out {
            flags: 0,
            cardinality,
            name,
            element: 0,
            source: 0,
        };
        let field = In {
            flags: 0,
            cardinality,
            name,
            element: 0,
        };
        let shapes = [output(id(1), 1, 0, &[out]), input(id(1), &[field])];
        for shape in shapes {
            let descriptor = [scalar(INT64), shape].concat();
            match cardinality {
                0x41 | 0x4d => cases.faulty(&descriptor, &id(1), &absent, (27, 0)),
                _ => cases.listed(&descriptor, &id(1), &absent, &list),
            }
        }
    }
}

/// An id of zeros and no bytes: "no type" (R3.17).
fn no_type(cases: &mut Cases) {
    cases.good(&[], &[0; 16], &[2, 0]);
    cases.listed(&[], &[0; 16], &[], &[]);
    cases.faulty(&[], &[0; 16], &[0], (21, 0));
    cases.faulty(&[], &[0; 16], &[0; 65_535], (21, 0));
    cases.faulty(&[], &[0; 16], &[0; 65_536], (28, 0));
}

/// The twenty known ids and the numbers of their formats (R3.15).
fn formats(cases: &mut Cases) {
    for (format, low) in (0..).zip((0..=0x12).chain([0x30])) {
        cases.good(&scalar(low), &known(low), &[4, 2, 1, format]);
        let derived = [scalar(low), derived(id(9), &[0])].concat();
        cases.good(&derived, &id(9), &[6, 4, 1, format, 1, format]);
    }
    for low in [0x13, 0x2f, 0x31, 0xff] {
        cases.bad(&scalar(low), &known(low), 12, 0);
    }
}

/// All kinds of blocks: int64 0, str 1, one derived from int64 2, object type 3, compound 4, tuple
/// 5, named tuple 6, array 7, set of arrays 8, set of tuples 9, enumeration 10, range 11, output
/// shape 12, record 13, input shape 14; and annotations.
pub fn rich_descriptor() -> Vec<u8> {
    [
        scalar(INT64),
        scalar(STR),
        derived(id(2), &[1, 0]),
        annotation(2),
        object(id(3)),
        compound(id(4), 2, &[3, 3]),
        tuple(id(5), &[0, 1]),
        named_tuple(id(6), &[(b"a", 0), (b"", 5)]),
        array(id(7), 0),
        set(id(8), 7),
        set(id(9), 5),
        annotation(3),
        enumeration(id(10), &[b"red", b"red"]),
        range(id(11), 2),
        rich_output(),
        record(id(13), &[(b"", 12), (b"", 3)]),
        rich_input(),
        annotation(14),
    ]
    .concat()
}

fn rich_output() -> Vec<u8> {
    let out = |cardinality, element| Out {
        flags: 7,
        cardinality,
        name: b"same",
        element,
        source: 4,
    };
    output(id(12), 0, 3, &[out(ONE, 8), out(AT_MOST_ONE, 11)])
}

fn rich_input() -> Vec<u8> {
    let field = |cardinality, name, element| In {
        flags: 0,
        cardinality,
        name,
        element,
    };
    let (x, y) = (field(ONE, b"x", 12), field(0x6d, b"y", 10));
    input(id(14), &[x, y, field(0x4d, b"", 9)])
}

/// Nodes start at 2, 4, 6, -, -, 8, 12, 16, 18, 20, 22, 23, 25, -, 31.
const RICH: [u32; 39] = [
    39, 31, 1, 5, 1, 1, 1, 5, 4, 2, 2, 4, 4, 2, 2, 8, 2, 2, 3, 16, 2, 8, 8, 7, 6, 5, 2, 18, 0x41,
    23, 0x6f, 6, 3, 25, 0x41, 22, 0x6d, 20, 0x4d,
];

/// A value of the rich descriptor's input shape: its elements in the order 2, 1 (absent), 0.
pub fn rich_value() -> Vec<u8> {
    let head = "00000001 0000000000000000 00000001 00000001";
    let tuple = "00000002 00000000 00000008 0000000000000007 ffffffff 00000002 6162";
    let array = format!("{head} 00000008 0000000000000009");
    let arrays = format!("{head} 0000002c 00000001 00000005 00000020 {array}");
    let output = format!("00000002 00000000 00000044 {arrays} 00000000 ffffffff");
    hex(&format!(
        "00000003 00000002 00000036 {head} 0000001e {tuple} 00000001 ffffffff \
         00000000 00000058 {output}"
    ))
}

/// The list of the rich value, worked out by hand.
const RICH_LIST: [[u32; 5]; 11] = [
    [31, 0, 0, 170, 3],
    [20, 2, 12, 54, 1],
    [8, 0, 36, 30, 2],
    [2, 0, 48, 8, 0],
    [4, 1, 64, 2, 0],
    [22, 1, 74, 0xffff_ffff, 0],
    [25, 0, 82, 88, 2],
    [18, 0, 94, 68, 1],
    [16, 0, 130, 32, 1],
    [2, 0, 154, 8, 0],
    [23, 1, 170, 0xffff_ffff, 0],
];

fn rich(cases: &mut Cases) {
    let descriptor = rich_descriptor();
    cases.good(&descriptor, &id(14), &RICH);
    let list = RICH_LIST.as_flattened();
    cases.listed(&descriptor, &id(14), &rich_value(), list);
    for (block, start) in [2, 4, 6, 0, 0, 8, 12, 16, 18, 20, 22, 23, 25, 0, 31]
        .into_iter()
        .enumerate()
    {
        let root = match block {
            0 => known(INT64),
            1 => known(STR),
            _ => id(block as u16),
        };
        let mut plan = RICH;
        plan[1] = start;
        match start {
            0 => cases.bad(&descriptor, &root, 18, descriptor.len()),
            _ => cases.good(&descriptor, &root, &plan),
        }
    }
}
