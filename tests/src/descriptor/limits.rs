//! Cases at and past each largest size of R1.4.

use super::bytes::*;
use super::fixed::Cases;
use crate::crossed::list;
use crate::expected::Expected;
use crate::text::letters;

pub fn add(cases: &mut Cases) {
    bytes(cases);
    blocks(cases);
    ancestors(cases);
    elements(cases);
    members(cases);
    plan_words(cases);
}

/// A descriptor of so many bytes: an enumeration with a long name.
fn long(bytes: usize) -> Vec<u8> {
    let name = text(&letters(bytes - 26));
    block(7, id(1), &[&name, &[1, 0, 0, 0, 0]])
}

fn bytes(cases: &mut Cases) {
    for size in [65_534, 65_535] {
        cases.good(&long(size), &id(1), &[3, 2, 8]);
        cases.listed(&long(size), &id(1), b"ab", &[2, 0, 0, 2, 0]);
        cases.bad(&long(size)[..size - 1], &id(1), 10, 0);
    }
    for size in [65_536, 65_537, 131_072, 200_000] {
        cases.bad(&long(size), &id(1), 17, 0);
        cases.bad(&long(size), &[0; 16], 17, 0);
        cases.bad(&long(size), &[], 17, 0);
    }
}

/// So many blocks, all of them empty tuples, with ids from 0.
fn tuples(count: u16) -> Vec<u8> {
    (0..count)
        .flat_map(|number| tuple(id(number), &[]))
        .collect()
}

fn plan_of_tuples(count: u16, root: u16) -> Vec<u32> {
    let mut plan = vec![2 + 2 * u32::from(count), 2 + 2 * u32::from(root)];
    plan.extend([4, 0].repeat(usize::from(count)));
    plan
}

/// Block 1,025 of those that have an index is refused with its tag, after 11 (R3.14).
fn blocks(cases: &mut Cases) {
    for count in [1_023, 1_024] {
        let descriptor = tuples(count);
        for root in [0, count - 1] {
            cases.good(&descriptor, &id(root), &plan_of_tuples(count, root));
            let node = 2 + 2 * u32::from(root);
            cases.listed(&descriptor, &id(root), &[0; 4], &[node, 0, 0, 4, 0]);
        }
    }
    let most = tuples(1_024);
    for tag in 0..=0xff {
        let number = match tag {
            0 | 1 | 3..=11 | 13 => 17,
            0x7f => 10,
            _ => 11,
        };
        let descriptor = [&most[..], &[tag]].concat();
        cases.bad(&descriptor, &id(0), number, most.len());
    }
    for block in [tuple(id(2_000), &[]), object(id(2_000)), tuple(id(0), &[])] {
        let descriptor = [&most[..], &block].concat();
        cases.bad(&descriptor, &id(0), 17, most.len());
    }
    // Annotations are not counted.
    let annotated = [&most[..], &annotation(1_023).repeat(40)].concat();
    cases.good(&annotated, &id(1_023), &plan_of_tuples(1_024, 1_023));
    let late = [&most[..], &annotation(1_024)].concat();
    cases.bad(&late, &id(0), 13, most.len());
    // Blocks without values are counted.
    let objects: Vec<u8> = (0..1_023).flat_map(|number| object(id(number))).collect();
    let last = [&objects[..], &tuple(id(1_023), &[])].concat();
    cases.good(&last, &id(1_023), &[4, 2, 4, 0]);
    let past = [&last[..], &object(id(1_024))].concat();
    cases.bad(&past, &id(1_023), 17, last.len());
}

/// A block after an int64, with its plan if it is accepted, for 511, 512 and 513 items.
fn counted(cases: &mut Cases, made: impl Fn(usize) -> (Vec<u8>, Vec<u32>)) {
    let first = scalar(INT64);
    for count in [511, 512, 513] {
        let (block, node) = made(count);
        let descriptor = [&first[..], &block].concat();
        if count <= 512 {
            let total = 4 + node.len() as u32;
            let plan = [&[total, 2, 1, 5], &node[..]].concat();
            cases.good(&descriptor, &known(INT64), &plan);
        } else {
            cases.bad(&descriptor, &known(INT64), 17, first.len());
        }
    }
}

fn ancestors(cases: &mut Cases) {
    let rests: [(u8, &[u8], &[u32]); 6] = [
        (3, &[], &[1, 5]),
        (4, &[0, 0], &[4, 0]),
        (5, &[0, 0], &[4, 0]),
        (6, &[0, 0, 0, 1, 0xff, 0xff, 0xff, 0xff], &[2, 2]),
        (7, &[0, 0], &[8]),
        (9, &[0, 0], &[7, 2]),
    ];
    for (tag, rest, node) in rests {
        counted(cases, |count| {
            let head = schema(&vec![0; count]);
            (block(tag, id(1), &[&head, rest]), node.to_vec())
        });
    }
}

/// So many names, of which no two are the same.
fn names(count: usize) -> Vec<Vec<u8>> {
    (0..count)
        .map(|number| format!("{number}").into_bytes())
        .collect()
}

fn elements(cases: &mut Cases) {
    counted(cases, |count| {
        let node = [vec![4, count as u32], vec![2; count]].concat();
        (tuple(id(1), &vec![0; count]), node)
    });
    counted(cases, |count| {
        let names = names(count);
        let elements: Vec<(&[u8], u16)> = names.iter().map(|name| (&name[..], 0)).collect();
        let node = [vec![4, count as u32], vec![2; count]].concat();
        (named_tuple(id(1), &elements), node)
    });
    counted(cases, |count| {
        let out = Out {
            flags: 0,
            cardinality: ONE,
            name: b"",
            element: 0,
            source: 0,
        };
        let node = [vec![5, count as u32], [2, 65].repeat(count)].concat();
        (output(id(1), 1, 0, &vec![out; count]), node)
    });
    counted(cases, |count| {
        let node = [vec![6, count as u32], [2, 111].repeat(count)].concat();
        (input_of_names(id(1), &names(count)), node)
    });
    counted(cases, |count| {
        let elements: Vec<(&[u8], u16)> = vec![(b"", 0); count];
        (record(id(1), &elements), Vec::new())
    });
}

fn members(cases: &mut Cases) {
    counted(cases, |count| {
        let members: Vec<&[u8]> = vec![b"m"; count];
        (enumeration(id(1), &members), vec![8])
    });
    for count in [512, 513] {
        let first = object(id(1));
        let compound = compound(id(2), 1, &vec![0; count]);
        let descriptor = [&first[..], &compound].concat();
        if count <= 512 {
            cases.bad(&descriptor, &id(2), 18, descriptor.len());
        } else {
            cases.bad(&descriptor, &id(2), 17, first.len());
        }
    }
}

/// An enumeration and tuples of it, so that the plan has so many words, and that plan.
fn wide(words: usize) -> (Vec<u8>, Vec<u32>) {
    let mut descriptor = enumeration(id(0), &[]);
    let mut plan = vec![words as u32, 0, 8];
    let mut number = 0;
    while plan.len() < words {
        let count = (words - plan.len() - 2).min(512);
        number += 1;
        descriptor.extend(tuple(id(number), &vec![0; count]));
        plan[1] = plan.len() as u32;
        plan.extend([4, count as u32]);
        plan.extend(vec![2; count]);
    }
    (descriptor, plan)
}

/// A plan of more than 8,192 words does not fit in any room from C (R9.6).
fn plan_words(cases: &mut Cases) {
    for words in [8_191, 8_192] {
        let (descriptor, plan) = wide(words);
        assert_eq!(plan.len(), words, "a plan of so many words");
        cases.good(&descriptor, &id(16), &plan);
        for room in [32_768, 32_769, 32_772, 150_000] {
            let written = Expected::Written(plan.clone());
            cases.known(&descriptor, &id(16), room, written);
        }
        let count = plan[plan[1] as usize + 1];
        let mut value = list(&[count]);
        value.extend(vec![0; 8 * count as usize]);
        let mut entries = vec![plan[1], 0, 0, 4 + 8 * count, count];
        entries.extend((0..count).flat_map(|index| [2, index, 12 + 8 * index, 0, 0]));
        cases.listed(&descriptor, &id(16), &value, &entries);
    }
    for words in [8_193, 8_194, 20_000, 30_000] {
        let (descriptor, plan) = wide(words);
        for room in [0, 32_764, 32_768, 32_772, 4 * plan.len(), 200_000] {
            cases.known(&descriptor, &id(16), room, Expected::Refused(30, 0));
        }
        // 18 and block faults come before it.
        cases.bad(&descriptor, &id(999), 18, descriptor.len());
        let cut = &descriptor[..descriptor.len() - 1];
        let last = (plan.len() - plan[1] as usize - 2) * 2 + 27;
        cases.bad(cut, &id(16), 10, descriptor.len() - last);
    }
}
