//! Cases at and past height 32.

use super::bytes::*;
use super::draft::Id;
use super::fixed::Cases;
use crate::crossed::list;

pub fn add(cases: &mut Cases) {
    heights(cases);
    sets_of_arrays(cases);
    in_order(cases);
    without_height(cases);
}

/// A container of one element, and its node over a node that starts there.
type Above = fn(Id, u16) -> Vec<u8>;

fn of_output(id: Id, element: u16) -> Vec<u8> {
    let out = Out {
        flags: 0,
        cardinality: ONE,
        name: b"",
        element,
        source: 0xffff,
    };
    output(id, 1, 0xffff, &[out])
}

fn of_input(id: Id, element: u16) -> Vec<u8> {
    let field = In {
        flags: 0,
        cardinality: ONE,
        name: b"",
        element,
    };
    input(id, &[field])
}

fn of_tuple(id: Id, element: u16) -> Vec<u8> {
    tuple(id, &[element])
}

fn of_named_tuple(id: Id, element: u16) -> Vec<u8> {
    named_tuple(id, &[(b"", element)])
}

/// An empty tuple or an int64 under containers, so that the last block has this height.
fn chain(bottom: Vec<u8>, height: u16, above: Above) -> Vec<u8> {
    let mut descriptor = bottom;
    for number in 1..height {
        descriptor.extend(above(id(number), number - 1));
    }
    descriptor
}

/// The nodes of a chain, and the value and list of its last block: all of the four have the same
/// bytes.
fn check_chain(cases: &mut Cases, descriptor: &[u8], height: u16, node: &[u32]) {
    let mut plan = vec![0, 0, 1, 5];
    let (mut starts, mut value) = (vec![2], vec![7; 8]);
    for _ in 1..height {
        let last = starts[starts.len() - 1];
        starts.push(plan.len() as u32);
        plan.extend(node.iter().map(|&word| if word == 0 { last } else { word }));
        let head = list(&[1, 0, value.len() as u32]);
        value = [head, value].concat();
    }
    plan[0] = plan.len() as u32;
    plan[1] = starts[starts.len() - 1];
    cases.good(descriptor, &id(height - 1), &plan);
    let entry = |(level, &start): (usize, &u32)| {
        let length = 8 + 12 * (starts.len() - 1 - level);
        let below = u32::from(level + 1 < starts.len());
        [start, 0, 12 * level as u32, length as u32, below]
    };
    let words: Vec<u32> = starts.iter().rev().enumerate().flat_map(entry).collect();
    cases.listed(descriptor, &id(height - 1), &value, &words);
}

fn heights(cases: &mut Cases) {
    let kinds: [(Above, &[u32]); 4] = [
        (of_tuple, &[4, 1, 0]),
        (of_named_tuple, &[4, 1, 0]),
        (of_output, &[5, 1, 0, 65]),
        (of_input, &[6, 1, 0, 65]),
    ];
    for (above, node) in kinds {
        for height in [31, 32] {
            let descriptor = chain(scalar(INT64), height, above);
            check_chain(cases, &descriptor, height, node);
        }
        let most = chain(scalar(INT64), 32, above);
        for (above, _) in kinds {
            let descriptor = [&most[..], &above(id(99), 31)].concat();
            cases.bad(&descriptor, &known(INT64), 17, most.len());
        }
        for block in [set(id(99), 31), array(id(99), 31)] {
            let descriptor = [&most[..], &block].concat();
            cases.bad(&descriptor, &known(INT64), 17, most.len());
        }
        // One without elements has height 1 (R3.13).
        let empty = chain(tuple(id(0), &[]), 33, above);
        let last = chain(tuple(id(0), &[]), 32, above).len();
        cases.bad(&empty, &id(0), 17, last);
    }
}

/// An array of what has height 30 under a set of arrays, and one that is higher.
fn sets_of_arrays(cases: &mut Cases) {
    let thirty = chain(scalar(INT64), 30, of_tuple);
    let good = [&thirty[..], &array(id(50), 29), &set(id(51), 30)].concat();
    let plan = [&plan_of_tuples(30, 95, 93)[..], &[2, 88, 3, 91]].concat();
    cases.good(&good, &id(51), &plan);
    let higher = chain(scalar(INT64), 31, of_tuple);
    let array_on_top = [&higher[..], &array(id(50), 30)].concat();
    let bad = [&array_on_top[..], &set(id(51), 31)].concat();
    cases.bad(&bad, &id(51), 17, array_on_top.len());
}

/// The first words of a plan: total, root, and a chain of tuples over an int64 of this height.
fn plan_of_tuples(height: u32, total: u32, root: u32) -> Vec<u32> {
    let mut plan = vec![total, root, 1, 5, 4, 1, 2];
    plan.extend((1..height - 1).flat_map(|level| [4, 1, 1 + 3 * level]));
    plan
}

/// 13 and 14 come before 17; the source type and all later elements after it (R3.13).
fn in_order(cases: &mut Cases) {
    let most = chain(scalar(INT64), 32, of_tuple);
    let before = [&most[..], &object(id(50))].concat();
    let out = |element, source| Out {
        flags: 0,
        cardinality: ONE,
        name: b"",
        element,
        source,
    };
    for (block, number) in [
        (range(id(99), 31), 14),
        (output(id(99), 0, 32, &[out(31, 99)]), 17),
        (output(id(99), 0, 32, &[out(0, 99), out(31, 32)]), 13),
        (tuple(id(99), &[31, 99]), 17),
        (tuple(id(99), &[99, 31]), 13),
        (tuple(id(99), &[32, 31]), 14),
        // All after the element's reference is missing.
        (array(id(99), 31)[..27].to_vec(), 17),
    ] {
        let descriptor = [&before[..], &block].concat();
        cases.bad(&descriptor, &known(INT64), number, before.len());
    }
}

/// Ancestors, records and annotations add no height.
fn without_height(cases: &mut Cases) {
    let descriptor = [
        chain(scalar(INT64), 32, of_tuple),
        block(7, id(60), &[&schema(&[31]), &[0, 0]]),
        record(id(61), &[(b"", 31)]),
        annotation(31),
    ];
    let plan = [&plan_of_tuples(32, 98, 97)[..], &[8]].concat();
    cases.good(&descriptor.concat(), &id(60), &plan);
}
