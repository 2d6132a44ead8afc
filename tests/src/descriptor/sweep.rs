//! Every value of what has few: nothing is known of the answers.

use super::bytes::*;
use super::exact::{descriptor_a, rich_descriptor, rich_value, ELEVENS};
use super::fixed::Cases;

pub fn add(cases: &mut Cases) {
    tags(cases);
    known_ids(cases);
    of_a(cases);
    rich(cases);
}

/// Each tag with an id and some like bytes after it, of the known tags from none to many.
fn tags(cases: &mut Cases) {
    let first = scalar(INT64);
    for tag in 0..=0xff {
        let most = if tag <= 13 || tag == 0x7f { 40 } else { 1 };
        for byte in [0, 1, 2, 0x41, 0xff] {
            for length in 0..most {
                let block = block(tag, id(1), &[&vec![byte; length]]);
                cases.unknown(&block, &id(1), &[]);
                cases.unknown(&[&first[..], &block].concat(), &id(1), &[0; 4]);
            }
        }
    }
}

/// Each id that is zero but for its last two bytes, of which the first is at most 2, with no
/// ancestor and with one; and then what the scalar holds.
fn known_ids(cases: &mut Cases) {
    for last in 0..0x300_u16 {
        let mut id = [0; 16];
        id[14..].copy_from_slice(&last.to_be_bytes());
        for size in [1, 8, 16] {
            cases.unknown(&derived(id, &[]), &id, &vec![0; size]);
        }
        let descriptor = [scalar(INT64), derived(id, &[0])].concat();
        cases.unknown(&descriptor, &id, &[0; 8]);
    }
}

/// Each byte of descriptor A as each value, with each of its two roots.
fn of_a(cases: &mut Cases) {
    let a = descriptor_a();
    for at in 0..a.len() {
        for byte in 0..=0xff {
            let mut changed = a.clone();
            changed[at] = byte;
            cases.unknown(&changed, &ELEVENS, &[0; 12]);
            cases.unknown(&changed, &known(INT64), &[0; 8]);
        }
    }
}

/// The rich descriptor with a value: each part of it from the start, each of its bytes changed,
/// taken out and doubled, and each two of them as a count or reference.
fn rich(cases: &mut Cases) {
    let (rich, value) = (rich_descriptor(), rich_value());
    let mut push = |changed: &[u8]| cases.unknown(changed, &id(14), &value);
    for at in 0..rich.len() {
        push(&rich[..at]);
        for change in [0x01, 0x02, 0x04, 0x08, 0x80, 0xff] {
            let mut changed = rich.clone();
            changed[at] ^= change;
            push(&changed);
        }
        let mut changed = rich.clone();
        changed.remove(at);
        push(&changed);
        changed.splice(at..at, [rich[at]; 2]);
        push(&changed);
    }
    for at in 0..rich.len() - 1 {
        for short in (0..18).chain([0x200, 0x201, 0x8000, 0xffff]) {
            let mut changed = rich.clone();
            changed[at..at + 2].copy_from_slice(&u16::to_be_bytes(short));
            push(&changed);
        }
    }
    for at in 0..value.len() {
        for change in [0x01, 0x80, 0xff] {
            let mut changed = value.clone();
            changed[at] ^= change;
            cases.unknown(&rich, &id(14), &changed);
        }
        cases.unknown(&rich, &id(14), &value[..at]);
    }
}
