//! Compiling descriptors beside the second program, which keeps all that it reads of a block and
//! finds ids and names by hashing. Through its own crossing it does what a C call has to; its inner
//! function gives the plan as words.
//!
//! To compare each id with all earlier ones, and each name with all earlier ones of its block, is
//! worse than linear: the worst that the limits allow is printed, and how the cost of one grows
//! with their number.

use crate::race::race;
use crate::table;
use compare::descriptor::bytes::{
    array, block, compound, derived, enumeration, id, input_of_names, named_tuple, object, output,
    range, scalar, set, shorts, text, tuple, Out, INT64, ONE, STR,
};
use compare::ffi;
use second::crossing;
use second::descriptor;
use std::hint::black_box;

/// Words of plan room in every call.
const ROOM: usize = 8_192;

/// The most bytes of a descriptor (R1.4).
const MOST_BYTES: usize = 65_535;

pub fn print() {
    table::head("Descriptor");
    for subject in [many_blocks(), wide_shapes(), small()] {
        table::row(&subject.name, subject.times());
    }
    println!();
    table::head("Descriptor, worst of ids and names");
    for subject in [
        alike_ids(1_024),
        alike_names(512, 114),
        many_short_names(15),
    ] {
        table::row(&subject.name, subject.times());
    }
    println!();
    print_growth();
}

/// How the cost of an id, with its block, and of a name changes with their number.
fn print_growth() {
    table::head("Nanoseconds a block or name");
    for count in [16, 64, 256, 1_024] {
        let subject = alike_ids(count);
        let each = |time: f64| 1e3 * time / f64::from(count);
        table::row(&subject.name, subject.times().map(each));
    }
    for count in [16, 64, 256, 512] {
        let subject = alike_names(count, 20);
        let each = |time: f64| 1e3 * time / count as f64;
        table::row(&subject.name, subject.times().map(each));
    }
}

/// A good descriptor whose plan can cross.
struct Subject {
    name: String,
    descriptor: Vec<u8>,
    root: [u8; 16],
}

impl Subject {
    /// Microseconds of the library, of the second program's crossing and of its inner function.
    fn times(&self) -> [f64; 3] {
        let Subject {
            name,
            descriptor,
            root,
        } = self;
        let (mut ours, mut theirs) = (vec![0; 4 * ROOM], vec![0; 4 * ROOM]);
        let answers = [
            ffi::compile(descriptor, root, &mut ours),
            crossing::compile(descriptor, root, &mut theirs),
        ];
        assert_eq!(answers[0], answers[1], "{name}");
        assert_eq!(answers[0].number, 0, "{name}");
        assert!(ours == theirs, "{name}: the plans differ");
        race([
            &mut || {
                let answer = ffi::compile(black_box(descriptor), root, &mut ours);
                assert_eq!(answer.number, 0);
            },
            &mut || {
                let answer = crossing::compile(black_box(descriptor), root, &mut theirs);
                assert_eq!(answer.number, 0);
            },
            &mut || {
                let words = descriptor::compile(black_box(descriptor), root, ROOM);
                assert!(black_box(words).is_ok());
            },
        ])
    }
}

fn subject(name: String, descriptor: Vec<u8>, root: [u8; 16]) -> Subject {
    assert!(descriptor.len() <= MOST_BYTES, "{name}: too many bytes");
    Subject {
        name,
        descriptor,
        root,
    }
}

/// A name of 24 letters, a schema flag and these ancestors.
fn long_schema(ancestors: &[u16]) -> Vec<u8> {
    [text(&[b'n'; 24]), vec![1], shorts(ancestors)].concat()
}

/// 1,024 blocks of all kinds, and 60,000 bytes with an annotation.
fn many_blocks() -> Subject {
    let mut descriptor = [scalar(INT64), scalar(STR), object(id(2))].concat();
    for number in 3..1_024 {
        descriptor.extend(some_block(number));
    }
    let missing = 60_000 - descriptor.len();
    descriptor.extend([0x7f, 0, 0]);
    descriptor.extend(text(&vec![b'k'; missing - 11]));
    descriptor.extend(text(b""));
    let name = format!("{} bytes, 1,024 blocks", descriptor.len());
    subject(name, descriptor, id(1_023))
}

/// Eight kinds in turn: each eighth, from 7 on, is a shape of an array in a set, an enumeration and
/// a range before it.
fn some_block(number: u16) -> Vec<u8> {
    let (tag, rest): (u8, Vec<u8>) = match number % 8 {
        0 => (3, long_schema(&[2, 0])),
        1 => (4, [long_schema(&[]), shorts(&[0, 1, 0])].concat()),
        2 => return named_tuple(id(number), &[(b"first", 0), (b"second", 1)]),
        3 => return array(id(number), 0),
        4 => return set(id(number), number - 1),
        5 => return enumeration(id(number), &[b"red", b"green", b"blue", &[b'm'; 20]]),
        6 => (9, [long_schema(&[0, 1, 2]), vec![0, 0]].concat()),
        _ => return row(number),
    };
    block(tag, id(number), &[&rest])
}

/// A shape of five fields.
fn row(number: u16) -> Vec<u8> {
    let field = |element| Out {
        flags: 0,
        cardinality: ONE,
        name: b"8 bytes.",
        element,
        source: 2,
    };
    let elements = [0, 1, number - 1, number - 2, number - 3].map(field);
    output(id(number), 0, 2, &elements)
}

/// So many names, of so many letters each, of which no two are the same: they differ in the last
/// four.
fn names(count: usize, letters: usize) -> Vec<Vec<u8>> {
    let name = |number: usize| format!("{}{number:04}", "n".repeat(letters - 4)).into_bytes();
    (0..count).map(name).collect()
}

fn output_shape(number: u16, names: &[Vec<u8>]) -> Vec<u8> {
    let field = |name| Out {
        flags: 1,
        cardinality: ONE,
        name,
        element: 1,
        source: 2,
    };
    let elements: Vec<Out> = names.iter().map(|name| field(&name[..])).collect();
    output(id(number), 0, 2, &elements)
}

/// Three output and two input shapes of 512 fields.
fn wide_shapes() -> Subject {
    let names = names(512, 8);
    let descriptor = [
        scalar(INT64),
        scalar(STR),
        object(id(2)),
        output_shape(3, &names),
        input_of_names(id(4), &names),
        output_shape(5, &names),
        input_of_names(id(6), &names),
        output_shape(7, &names),
    ]
    .concat();
    let name = format!("{} bytes, shapes of 512", descriptor.len());
    subject(name, descriptor, id(7))
}

/// What a query of a few fields has.
fn small() -> Subject {
    let mut descriptor = Vec::new();
    for low in 0..10 {
        descriptor.extend(scalar(low));
    }
    descriptor.extend(
        [
            object(id(10)),
            compound(id(11), 1, &[10, 10]),
            derived(id(12), &[1]),
            enumeration(id(13), &[b"red", b"green"]),
            tuple(id(14), &[0, 1, 2]),
            array(id(15), 14),
            range(id(16), 5),
            small_shape(),
            set(id(18), 17),
            input_of_names(id(19), &names(6, 8)),
        ]
        .concat(),
    );
    let name = format!("{} bytes, 20 blocks", descriptor.len());
    subject(name, descriptor, id(18))
}

fn small_shape() -> Vec<u8> {
    let field = |element| Out {
        flags: 0,
        cardinality: ONE,
        name: b"a field",
        element,
        source: 10,
    };
    let elements = [0, 1, 5, 12, 13, 14, 15, 16].map(field);
    output(id(17), 0, 11, &elements)
}

/// So many ids that are alike but for their last two bytes, in the smallest blocks.
fn alike_ids(count: u16) -> Subject {
    let mut descriptor = tuple(id(0), &[]);
    for number in 1..count {
        descriptor.extend(object(id(number)));
    }
    subject(format!("{count} ids alike to the last"), descriptor, id(0))
}

/// An input shape of so many names that are alike but for their last four letters.
fn alike_names(count: usize, letters: usize) -> Subject {
    let shape = input_of_names(id(1), &names(count, letters));
    let name = format!("{count} names of {letters} letters");
    subject(name, [scalar(INT64), shape].concat(), id(1))
}

/// So many named tuples of 512 names of two letters: the most names there can be in blocks of 512.
fn many_short_names(tuples: u16) -> Subject {
    let names: Vec<[u8; 2]> = (0..512)
        .map(|n| [b'0' + (n / 64) as u8, b'0' + (n % 64) as u8])
        .collect();
    let elements: Vec<(&[u8], u16)> = names.iter().map(|name| (&name[..], 0)).collect();
    let mut descriptor = scalar(INT64);
    for number in 1..=tuples {
        descriptor.extend(named_tuple(id(number), &elements));
    }
    let name = format!("{tuples} times 512 names of 2 letters");
    subject(name, descriptor, id(1))
}
