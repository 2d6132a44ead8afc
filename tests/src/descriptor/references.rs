//! 13 and 14, worked out by hand.

use super::bytes::*;
use super::draft::Id;
use super::fixed::Cases;

pub fn add(cases: &mut Cases) {
    references(cases);
    kinds(cases);
    scalars(cases);
}

/// The blocks that refer to one block, each in one of the ways that there are; of a shape the type,
/// an element and its source in turn.
fn referring(index: u16) -> Vec<Vec<u8>> {
    let mut blocks = element_referring(index);
    let out = |source| Out {
        flags: 0,
        cardinality: ONE,
        name: b"n",
        element: 0,
        source,
    };
    blocks.extend([
        compound(id(99), 1, &[index]),
        output(id(99), 0, index, &[]),
        output(id(99), 0, 2, &[out(index)]),
    ]);
    blocks
}

/// Those that refer to it as an element.
fn element_referring(index: u16) -> Vec<Vec<u8>> {
    let out = Out {
        flags: 0,
        cardinality: ONE,
        name: b"n",
        element: index,
        source: 0,
    };
    let field = In {
        flags: 0,
        cardinality: ONE,
        name: b"n",
        element: index,
    };
    vec![
        set(id(99), index),
        array(id(99), index),
        range(id(99), index),
        tuple(id(99), &[0, index]),
        named_tuple(id(99), &[(b"n", index)]),
        output(id(99), 1, 0, &[out]),
        input(id(99), &[field]),
    ]
}

/// 13: the third block and more of int64, str and an object type.
fn references(cases: &mut Cases) {
    let before = [scalar(INT64), scalar(STR), object(id(2))].concat();
    for index in [3, 4, 0x100, 0x7fff, 0x8000, 0xffff] {
        let mut blocks = referring(index);
        blocks.push(record(id(99), &[(b"", index)]));
        blocks.push(derived(known(STR + 1), &[index]));
        blocks.push(derived(id(99), &[index, 0]));
        blocks.push(derived(id(99), &[0, index]));
        blocks.push(annotation(index));
        for block in blocks {
            let descriptor = [&before[..], &block].concat();
            cases.bad(&descriptor, &known(INT64), 13, before.len());
        }
    }
    cases.bad(&set(id(1), 0), &id(1), 13, 0);
    cases.bad(&annotation(0), &id(1), 13, 0);
}

/// 14: each way of referring to each kind of block. The blocks are int64, a scalar derived from it,
/// object type, compound, record, tuple, named tuple, array, set, enumeration, range, both shapes.
fn kinds(cases: &mut Cases) {
    let blocks = [
        scalar(INT64),
        derived(id(1), &[0]),
        object(id(2)),
        compound(id(3), 1, &[]),
        record(id(4), &[]),
        tuple(id(5), &[]),
        named_tuple(id(6), &[]),
        array(id(7), 0),
        set(id(8), 0),
        enumeration(id(9), &[]),
        range(id(10), 0),
        output(id(11), 1, 0, &[]),
        input(id(12), &[]),
    ]
    .concat();
    for index in 0..13 {
        for (block, permitted) in referring(index).into_iter().zip(permitted(index)) {
            let descriptor = [&blocks[..], &block].concat();
            if permitted {
                cases.good(&descriptor, &known(INT64), &plan_of_kinds(&block, index));
            } else {
                cases.bad(&descriptor, &known(INT64), 14, blocks.len());
            }
        }
    }
}

/// Whether each way of referring, in the order of `referring`, may go to the block of this index.
fn permitted(index: u16) -> [bool; 10] {
    let values = !(2..=4).contains(&index);
    let (is_array, is_set) = (index == 7, index == 8);
    let object_type = index == 2 || index == 3;
    [
        values && !is_set,
        values && !is_set && !is_array,
        index <= 1,
        values,
        values,
        values,
        values,
        object_type,
        object_type,
        object_type,
    ]
}

/// The plan of the blocks above and one more that refers to one of them.
fn plan_of_kinds(block: &[u8], index: u16) -> Vec<u32> {
    let starts = [2, 4, 0, 0, 0, 6, 8, 10, 12, 14, 15, 17, 19];
    let start = starts[usize::from(index)];
    let mut plan = vec![
        0, 2, 1, 5, 1, 5, 4, 0, 4, 0, 2, 2, 2, 2, 8, 7, 2, 5, 0, 6, 0,
    ];
    plan.extend(match (block[0], block.len()) {
        (0, _) if index == 7 => vec![3, start],
        (0 | 6, _) => vec![2, start],
        (9, _) => vec![7, start],
        (4, _) => vec![4, 2, 2, start],
        (5, _) => vec![4, 1, start],
        (8, _) => vec![6, 1, start, 0x41],
        (1, 22) => vec![5, 0],
        // Of a shape that is not free the element is the int64, of a free one this block.
        (1, _) if block[17] == 0 => vec![5, 1, 2, 0x41],
        (1, _) => vec![5, 1, start, 0x41],
        _ => Vec::new(),
    });
    plan[0] = plan.len() as u32;
    plan
}

/// 12 and 14 for the ancestors of a scalar whose own id is not known (R3.16).
fn scalars(cases: &mut Cases) {
    cases.second(&derived(id(1), &[]), 12);
    for id in near_ids() {
        cases.second(&derived(id, &[]), 12);
        let descriptor = [scalar(INT64), derived(id, &[0])].concat();
        cases.good(&descriptor, &id, &[6, 4, 1, 5, 1, 5]);
    }
    let before = [scalar(INT64), derived(id(1), &[0]), object(id(2))].concat();
    for (ancestors, number) in [(&[1][..], 14), (&[2], 14), (&[0, 1], 14), (&[0, 2], 14)] {
        let descriptor = [&before[..], &derived(id(3), ancestors)].concat();
        cases.bad(&descriptor, &id(1), number, before.len());
    }
    for ancestors in [&[0][..], &[1, 0], &[2, 0], &[2, 1, 0, 0]] {
        let descriptor = [&before[..], &derived(id(3), ancestors)].concat();
        cases.good(&descriptor, &id(3), &[8, 6, 1, 5, 1, 5, 1, 5]);
    }
    // A tuple with a known id is no scalar (R3.16).
    let tuple = tuple(known(STR), &[]);
    let descriptor = [&tuple[..], &derived(id(1), &[0])].concat();
    cases.bad(&descriptor, &known(STR), 14, tuple.len());
    cases.good(&tuple, &known(STR), &[4, 2, 4, 0]);
}

/// Ids that are nearly that of str.
fn near_ids() -> Vec<Id> {
    let mut ids: Vec<Id> = (0..14)
        .map(|at| {
            let mut id = known(STR);
            id[at] = 1;
            id
        })
        .collect();
    for high in [0, 2, 0x81, 0xff] {
        let mut id = known(STR);
        id[14] = high;
        ids.push(id);
    }
    ids
}
