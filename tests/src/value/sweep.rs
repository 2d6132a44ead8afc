//! Every value of what has few of them: flags, named bytes, sizes of scalars, words of a plan, the
//! bytes of a value with all kinds of containers, and texts with one letter at each place. Chance
//! would leave some out.

use super::fixed::Cases;
use super::scalar::{BOOL, FORMATS, JSON, STR};
use crate::crossed::hex;
use crate::text;

/// A plan of all kinds. str at 2, int16 at 4, enumeration at 6, array of int16 at 7, set of arrays
/// at 9, range at 11, tuple at 13, output object at 17, set of tuples at 23, input object at 25.
pub const RICH: [u32; 37] = [
    37, 25, 1, 1, 1, 3, 8, 2, 4, 3, 7, 7, 4, 4, 2, 2, 6, 5, 2, 9, 0x6f, 11, 0x41, 2, 13, 6, 5, 17,
    0x41, 23, 0x4d, 2, 0x6f, 4, 0x6e, 7, 0x6d,
];

pub fn add(cases: &mut Cases) {
    flags(cases);
    scalars(cases);
    letters(cases);
    plan_words(cases);
    rich(cases);
    texts(cases);
}

/// A value of the rich plan: its elements in the order 1, 2 (absent), 0, 4.
pub fn rich_value() -> Vec<u8> {
    let set = |count: u32| format!("00000001 0000000000000000 {count:08x} 00000001");
    let tuple = "00000002 00000000 00000002 6162 00000000 00000000";
    let tuples = format!("{} 00000016 {tuple} 00000016 {tuple}", set(2));
    let array = format!("{} 00000002 0001", set(1));
    let envelope = |array: &str, length: u32| {
        format!("{:08x} 00000001 00000000 {length:08x} {array}", 12 + length)
    };
    let empty = "00".repeat(12);
    let arrays = [envelope(&array, 26), envelope(&empty, 12)].join(" ");
    let range = "02 00000002 0001 00000002 0009";
    let output = format!(
        "00000002 00000000 {:08x} {} {arrays} 00000000 0000000d {range}",
        20 + 42 + 28,
        set(2)
    );
    hex(&format!(
        "00000004 00000001 00000048 {tuples} 00000002 ffffffff 00000000 {:08x} {output} \
         00000004 0000001a {array}",
        4 + 8 + 90 + 8 + 13
    ))
}

/// Each flags byte of a range with no bound, one and two.
fn flags(cases: &mut Cases) {
    for flags in 0..=0xff {
        for bounds in ["", "00000002 0001", "00000002 0001 00000002 0009"] {
            let value = [&[flags][..], &hex(bounds)].concat();
            cases.unknown(&[6, 4, 1, 3, 7, 2], &value);
        }
    }
}

/// Each format with each size up to 24 of like bytes, each bool, and each first byte of a json.
fn scalars(cases: &mut Cases) {
    for format in 0..FORMATS {
        for size in 0..=24 {
            for byte in [0x00, 0x01, 0x40, 0xff] {
                cases.unknown(&[4, 2, 1, format], &vec![byte; size]);
            }
            // Zero digits, as many as there is place for.
            if size >= 8 {
                let mut number = vec![0; size];
                number[1] = (size as u8 - 8) / 2;
                cases.unknown(&[4, 2, 1, format], &number);
            }
        }
    }
    for byte in 0..=0xff {
        cases.unknown(&[4, 2, 1, BOOL], &[byte]);
        cases.unknown(&[4, 2, 1, JSON], &[byte]);
        cases.unknown(&[4, 2, 1, JSON], &[byte, b'{', b'}']);
    }
}

/// Table 3-7: each first byte over 7f with each second byte, then each third and fourth byte, as a
/// text; and the edges of each column as a json and as an enumeration.
fn letters(cases: &mut Cases) {
    for first in 0x80..=0xff {
        let length = match first {
            ..0xe0 => 2,
            0xe0..0xf0 => 3,
            0xf0.. => 4,
        };
        for second in 0..=0xff {
            let letter = [first, second, 0x80, 0x80];
            cases.unknown(&[4, 2, 1, STR], &letter[..length]);
        }
        for second in [0x7f, 0x80, 0x8f, 0x90, 0x9f, 0xa0, 0xbf, 0xc0] {
            let letter = [1, first, second, 0x80, 0x80];
            cases.unknown(&[4, 2, 1, JSON], &letter[..1 + length]);
            cases.unknown(&[3, 2, 8], &letter[1..1 + length]);
        }
    }
    for byte in 0..=0xff {
        cases.unknown(&[4, 2, 1, STR], &[0xe2, 0x82, byte]);
        cases.unknown(&[4, 2, 1, STR], &[0xf1, 0x82, byte, 0x80]);
        cases.unknown(&[4, 2, 1, STR], &[0xf1, 0x82, 0x80, byte]);
    }
}

/// Each small kind, format and cardinality, and each word of the rich plan as each small number.
fn plan_words(cases: &mut Cases) {
    let large = [
        0x141,
        0x14d,
        0x1_0041,
        0x4100_0000,
        0x8000_0005,
        0xffff_ffff,
    ];
    for word in (0..=300).chain(large) {
        cases.unknown(&[3, 2, word], &[]);
        cases.unknown(&[4, 2, word, 0], &[0; 4]);
        cases.unknown(&[5, 3, 8, word, 2], &[0; 12]);
        cases.unknown(&[4, 2, 1, word], &[0]);
        let absent = hex("00000001 00000000 ffffffff");
        for kind in [5, 6] {
            cases.unknown(&[8, 4, 1, 5, kind, 1, 2, word], &absent);
        }
    }
    let value = rich_value();
    for at in 0..RICH.len() {
        for word in (0..=40).chain([0x41, 0x4d, 0x6d, 0x6e, 0x6f, 0x200, 0x201, 0xffff_ffff]) {
            let mut plan = RICH;
            plan[at] = word;
            cases.unknown(&plan, &value);
        }
    }
}

/// The rich value, each part of it from the start, each of its bytes changed, taken out and
/// doubled, and each four of them as a length that is not there.
fn rich(cases: &mut Cases) {
    let value = rich_value();
    cases.good(&RICH, &value, rich_list().as_flattened());
    for at in 0..value.len() {
        cases.unknown(&RICH, &value[..at]);
        for change in [0x01, 0x02, 0x04, 0x80, 0xff] {
            let mut changed = value.clone();
            changed[at] ^= change;
            cases.unknown(&RICH, &changed);
        }
        let mut changed = value.clone();
        changed.remove(at);
        cases.unknown(&RICH, &changed);
        changed.splice(at..at, [value[at]; 2]);
        cases.unknown(&RICH, &changed);
    }
    for at in 0..value.len() - 3 {
        for word in [0xffff_ffff_u32, 0xffff_fffe, 0x7fff_ffff, 0, 1, 2] {
            let mut changed = value.clone();
            changed[at..at + 4].copy_from_slice(&word.to_be_bytes());
            cases.unknown(&RICH, &changed);
        }
    }
}

/// One letter at each place among plain ones, and letters of one row of the table; as a text, which
/// starts where the lent bytes do, and as a json, which starts behind a byte. These come last, so
/// that every case before them keeps its number.
fn texts(cases: &mut Cases) {
    for text in text::stepped().into_iter().chain(text::rows()) {
        cases.unknown(&[4, 2, 1, STR], &text);
        cases.unknown(&[4, 2, 1, JSON], &[&[1], &text[..]].concat());
    }
}

/// The list of the rich value, worked out by hand.
pub fn rich_list() -> Vec<[u32; 5]> {
    vec![
        [25, 0, 0, 257, 4],
        [23, 1, 12, 72, 2],
        [13, 0, 36, 22, 2],
        [2, 0, 48, 2, 0],
        [6, 1, 58, 0, 0],
        [13, 1, 62, 22, 2],
        [2, 0, 74, 2, 0],
        [6, 1, 84, 0, 0],
        [2, 2, 92, 0xffff_ffff, 0],
        [17, 0, 100, 123, 2],
        [9, 0, 112, 90, 2],
        [7, 0, 148, 26, 1],
        [4, 0, 172, 2, 0],
        [7, 1, 190, 12, 0],
        [11, 1, 210, 13, 2],
        [4, 0, 215, 2, 0],
        [4, 1, 221, 2, 0],
        [7, 4, 231, 26, 1],
        [4, 0, 255, 2, 0],
    ]
}
