//! Cases worked out by hand: those of docs/RULES.md that have a value, and one of each kind of
//! container.

use super::fixed::Cases;
use crate::crossed::hex;

/// A set of int64: the plan of descriptor A of docs/RULES.md.
pub const SET: [u32; 6] = [6, 4, 1, 5, 2, 2];
/// An input object of one int64, which is required.
pub const INPUT: [u32; 8] = [8, 4, 1, 5, 6, 1, 2, 65];

pub fn add(cases: &mut Cases) {
    edges(cases);
    sets(cases);
    arrays(cases);
    tuples(cases);
    outputs(cases);
    inputs(cases);
    ranges(cases);
}

/// The cases 2 to 7, 10 and 11 of docs/RULES.md.
fn edges(cases: &mut Cases) {
    let two = hex("00000001 0000000000000000 00000002 00000001 \
         00000008 0000000000000007 00000008 ffffffffffffffff");
    let list = [4, 0, 0, 44, 2, 2, 0, 24, 8, 0, 2, 1, 36, 8, 0];
    cases.good(&SET, &two, &list);
    cases.good(&SET, &[0; 12], &[4, 0, 0, 12, 0]);
    let none = hex("00000001 0000000000000000 00000000 00000001");
    cases.bad(&SET, &none, 22, 0);
    cases.bad(&SET, &two[..43], 20, 0);
    cases.bad(&SET, &[&two[..], &[0]].concat(), 21, 0);
    let seven = hex("00000001 0000000000000000 00000001 00000001 00000007 00000000000000");
    cases.bad(&SET, &seven, 24, 24);
    cases.bad(&INPUT, &[0; 4], 27, 0);
    let twice = hex("00000002 00000000 00000008 0000000000000001 \
         00000000 00000008 0000000000000002");
    cases.bad(&INPUT, &twice, 26, 0);
}

fn sets(cases: &mut Cases) {
    // Reserved bytes are not looked at.
    let reserved = hex("00000000 ffffffffffffffff");
    cases.good(&SET, &reserved, &[4, 0, 0, 12, 0]);
    let one = hex("00000001 0123456789abcdef 00000001 00000001 00000008 0000000000000007");
    cases.good(&SET, &one, &[4, 0, 0, 32, 1, 2, 0, 24, 8, 0]);
    // R5.4: the upper bound is 1 or more; and R5.3: the elements run out.
    for upper in ["ffffffff", "80000000"] {
        let head = format!("00000001 0000000000000000 {upper} 00000001");
        cases.bad(&SET, &hex(&head), 22, 0);
    }
    let huge = hex("00000001 0000000000000000 7fffffff 00000001 00000008 0000000000000007");
    cases.bad(&SET, &huge, 20, 0);
    for lower in ["00000000", "00000002", "ffffffff"] {
        let head = format!("00000001 0000000000000000 00000001 {lower}");
        cases.bad(&SET, &hex(&head), 22, 0);
    }
    for length in ["ffffffff", "fffffffe", "80000000"] {
        let value = format!("00000001 0000000000000000 00000001 00000001 {length}");
        cases.bad(&SET, &hex(&value), 23, 0);
    }
}

/// A set of arrays of bool: leaf at 2, array at 4, set at 6.
fn arrays(cases: &mut Cases) {
    let plan = [8, 6, 1, 9, 2, 2, 3, 4];
    let head = "00000001 0000000000000000 00000001 00000001";
    let array = "00000001 0000000000000000 00000002 00000001 00000001 01 00000001 00";
    let good = hex(&format!(
        "{head} 0000002a 00000001 ffffffff 0000001e {array}"
    ));
    let list = [
        [6, 0, 0, 66, 1],
        [4, 0, 36, 30, 2],
        [2, 0, 60, 1, 0],
        [2, 1, 65, 1, 0],
    ];
    cases.good(&plan, &good, list.as_flattened());
    let empty = hex(&format!(
        "{head} 00000018 00000001 00000000 0000000c {}",
        "00".repeat(12)
    ));
    cases.good(&plan, &empty, &[6, 0, 0, 48, 1, 4, 0, 36, 12, 0]);
    // The place of a fault in the array is the array, or its element.
    let mut bad = good.clone();
    bad[64 + 1] = 2;
    cases.bad(&plan, &bad, 24, 65);
    bad[36 + 3] = 2;
    cases.bad(&plan, &bad, 22, 36);
    bad[24 + 3] = 0;
    cases.bad(&plan, &bad, 22, 0);
    let short = hex(&format!(
        "{head} 00000018 00000001 00000000 0000000c {}",
        "00".repeat(11)
    ));
    cases.bad(&plan, &short, 20, 0);
    cases.bad(&plan, &good[..35], 20, 0);
}

/// A tuple of an int16 and an empty tuple: leaf at 2, empty tuple at 4, tuple at 6.
fn tuples(cases: &mut Cases) {
    let plan = [10, 6, 1, 3, 4, 0, 4, 2, 2, 4];
    let good = hex("00000002 ffffffff 00000002 8000 00000000 00000004 00000000");
    let list = [[6, 0, 0, 26, 2], [2, 0, 12, 2, 0], [4, 1, 22, 4, 0]];
    cases.good(&plan, &good, list.as_flattened());
    cases.good(&[4, 2, 4, 0], &[0; 4], &[2, 0, 0, 4, 0]);
    for count in ["00000001", "00000003", "80000002", "ffffffff"] {
        cases.bad(&plan, &hex(count), 22, 0);
    }
    cases.bad(&plan, &hex("00000002 00000000 ffffffff"), 23, 0);
    cases.bad(&plan, &hex("00000002 00000000 fffffffe"), 23, 0);
    cases.bad(&plan, &[&good[..], &[0]].concat(), 21, 0);
    cases.bad(&plan, &good[..25], 20, 0);
    cases.bad(&plan, &good[..14], 20, 0);
    // The empty tuple has bytes left over.
    let over = hex("00000002 00000000 00000002 8000 00000000 00000005 0000000000");
    cases.bad(&plan, &over, 21, 22);
    cases.bad(&plan, &[], 20, 0);
    cases.bad(&plan, &[0, 0, 0], 20, 0);
}

/// An object of an int16 of each cardinality: none, at most one, one, many, at least one.
fn outputs(cases: &mut Cases) {
    let plan = [
        16, 4, 1, 3, 5, 5, 2, 0x6e, 2, 0x6f, 2, 0x41, 2, 0x6d, 2, 0x4d,
    ];
    let absent = "00000000 ffffffff";
    let present = "00000007 00000002 0001";
    let good = hex(&format!(
        "00000005 {absent} {absent} {present} {absent} {present}"
    ));
    let list = [
        [4, 0, 0, 48, 5],
        [2, 0, 12, 0xffff_ffff, 0],
        [2, 1, 20, 0xffff_ffff, 0],
        [2, 2, 28, 2, 0],
        [2, 3, 38, 0xffff_ffff, 0],
        [2, 4, 46, 2, 0],
    ];
    cases.good(&plan, &good, list.as_flattened());
    let full = hex(&format!("00000005 {}", format!("{present} ").repeat(5)));
    let mut words = vec![4, 0, 0, 54, 5];
    words.extend((0..5).flat_map(|index| [2, index, 12 + 10 * index, 2, 0]));
    cases.good(&plan, &full, &words);
    for missing in [2, 4] {
        let fields: Vec<&str> = (0..5)
            .map(|index| if index == missing { absent } else { present })
            .collect();
        let value = hex(&format!("00000005 {}", fields.join(" ")));
        cases.bad(&plan, &value, 27, 0);
    }
    cases.bad(&plan, &hex("00000005 00000000 fffffffe"), 23, 0);
    cases.bad(&plan, &hex("00000004"), 22, 0);
    // The last element is absent: its start is the value's end.
    let last = [8, 4, 1, 3, 5, 1, 2, 0x6f];
    let value = hex("00000001 00000000 ffffffff");
    cases.good(&last, &value, &[4, 0, 0, 12, 1, 2, 0, 12, 0xffff_ffff, 0]);
}

/// An input object of an enumeration that may be absent and a bool that is required, in another
/// input object: enumeration at 2, bool at 3, inner object at 5, outer at 11.
fn inputs(cases: &mut Cases) {
    let plan = [15, 11, 8, 1, 9, 6, 2, 2, 0x6f, 3, 0x41, 6, 1, 5, 0x6d];
    let inner = "00000002 00000001 00000001 01 00000000 00000002 6162";
    let good = hex(&format!("00000001 00000000 00000017 {inner}"));
    let list = [
        [11, 0, 0, 35, 1],
        [5, 0, 12, 23, 2],
        [3, 1, 24, 1, 0],
        [2, 0, 33, 2, 0],
    ];
    cases.good(&plan, &good, list.as_flattened());
    cases.good(&plan, &[0; 4], &[11, 0, 0, 4, 0]);
    let absent = hex("00000001 00000000 ffffffff");
    let list = [11, 0, 0, 12, 1, 5, 0, 12, 0xffff_ffff, 0];
    cases.good(&plan, &absent, &list);
    // Places inside are the inner object's.
    let mut bad = good.clone();
    bad[12 + 7] = 2;
    cases.bad(&plan, &bad, 25, 12);
    bad[12 + 7] = 0;
    cases.bad(&plan, &bad, 26, 12);
    let without = hex("00000001 00000000 0000000e 00000001 00000000 00000002 6162");
    cases.bad(&plan, &without, 27, 12);
    let negative = hex("00000001 00000000 00000004 ffffffff");
    cases.bad(&plan, &negative, 22, 12);
    for index in ["00000001", "ffffffff", "80000000", "7fffffff", "00000200"] {
        let outside = hex(&format!("00000001 {index} ffffffff"));
        cases.bad(&plan, &outside, 25, 0);
    }
}

/// A range of int32: leaf at 2, range at 4.
fn ranges(cases: &mut Cases) {
    let plan = [6, 4, 1, 4, 7, 2];
    let bound = "00000004 00000001";
    for flags in ["01", "18"] {
        cases.good(&plan, &hex(flags), &[4, 0, 0, 1, 0]);
    }
    for flags in ["08", "0c"] {
        let value = hex(&format!("{flags} {bound}"));
        cases.good(&plan, &value, &[4, 0, 0, 9, 1, 2, 1, 5, 4, 0]);
    }
    for flags in ["10", "12"] {
        let value = hex(&format!("{flags} {bound}"));
        cases.good(&plan, &value, &[4, 0, 0, 9, 1, 2, 0, 5, 4, 0]);
    }
    for flags in ["00", "02", "04", "06"] {
        let value = hex(&format!("{flags} {bound} {bound}"));
        let list = [[4, 0, 0, 17, 2], [2, 0, 5, 4, 0], [2, 1, 13, 4, 0]];
        cases.good(&plan, &value, list.as_flattened());
    }
    for flags in ["03", "0a", "14", "1a", "1c", "09", "11", "20", "80", "ff"] {
        let value = hex(&format!("{flags} {bound} {bound}"));
        cases.bad(&plan, &value, 22, 0);
    }
    // A missing flags byte is 20 (R5.12).
    cases.bad(&plan, &[], 20, 0);
    cases.bad(&plan, &hex("00 00000004 000000"), 20, 0);
    cases.bad(&plan, &hex("00 ffffffff"), 23, 0);
    cases.bad(&plan, &hex("01 00"), 21, 0);
    cases.bad(&plan, &hex("18 00000004 00000001"), 21, 0);
    cases.bad(&plan, &hex("08 00000003 000000"), 24, 5);
}
