//! Two faults in one input, where the order of R1.9 and R5.2 says which is given.

use super::exact::{INPUT, SET};
use super::fixed::Cases;
use crate::crossed::hex;

pub fn add(cases: &mut Cases) {
    of_calls(cases);
    of_set_heads(cases);
    of_envelopes(cases);
    of_sparse_heads(cases);
    of_elements(cases);
}

/// 33, 28, the value's faults, 31 (R1.9). The last is seen wherever a refusal meets no room.
fn of_calls(cases: &mut Cases) {
    let long = vec![0xff; 65_536];
    cases.bad(&[4, 2, 1, 20], &long, 33, 0);
    cases.bad(&SET, &long, 28, 0);
    cases.bad(&[4, 2, 1, 2], &long, 28, 0);
    cases.bad(&SET, &long[..65_535], 22, 0);
}

/// Field by field: ndims, its rule, reserved, upper, its rule, lower, its rule (R5.4).
fn of_set_heads(cases: &mut Cases) {
    for (head, number) in [
        ("", 20),
        ("000000", 20),
        ("00000002", 22),
        ("ffffffff", 22),
        ("00000000", 20),
        ("00000001", 20),
        ("00000000 00000000000000", 20),
        ("00000001 0000000000000000", 20),
        ("00000001 0000000000000000 00000000", 22),
        ("00000001 0000000000000000 00000001", 20),
        ("00000001 0000000000000000 00000000 00000002", 22),
        ("00000001 0000000000000000 00000001 00000002", 22),
        ("00000001 0000000000000000 00000001 000000", 20),
        ("00000001 0000000000000000 00000001 00000001", 20),
        ("00000001 0000000000000000 00000001 00000001 ffffff", 20),
        ("00000000 0000000000000000 00", 21),
    ] {
        cases.bad(&SET, &hex(head), number, 0);
    }
}

/// The checks of an envelope in the order of R5.6, by which -1 as its length is 22.
fn of_envelopes(cases: &mut Cases) {
    let plan = [8, 6, 1, 9, 2, 2, 3, 4];
    for (envelope, number) in [
        ("0000000c 00000002 00000000 ffffff", 20),
        ("0000000c 00000002 00000000 ffffffff", 22),
        ("0000000b 00000001 00000000 ffffffff", 23),
        ("0000000c 00000001 00000000 fffffffe", 23),
        ("ffffffff 00000001 00000000 80000000", 23),
        ("ffffffff 00000001 00000000 0000000c", 22),
        ("0000000c 00000001 00000000 0000000c", 22),
        ("00000017 00000001 00000000 0000000c", 22),
        ("00000018 00000001 00000000 0000000c", 20),
        ("8000000b 00000001 00000000 7fffffff", 22),
        ("7fffffff 00000001 00000000 7ffffff3", 20),
    ] {
        let value = format!("00000001 0000000000000000 00000001 00000001 {envelope}");
        cases.bad(&plan, &hex(&value), number, 0);
    }
}

/// The checks of a sparse entry in the order of R5.10, and those after the last in that of R5.14.
fn of_sparse_heads(cases: &mut Cases) {
    let one = "00000000 00000008 0000000000000001";
    for (value, number, place) in [
        ("00000001 00000009 ffffff".to_string(), 20, 0),
        ("00000001 00000009 fffffffe".to_string(), 25, 0),
        ("00000001 00000009 7fffffff".to_string(), 25, 0),
        (format!("00000002 {one} 00000000 fffffffe"), 26, 0),
        (format!("00000002 {one} 00000000 ffffffff"), 26, 0),
        (format!("00000002 {one} 00000000 7fffffff"), 26, 0),
        (format!("00000002 {one} 00000001 00000000"), 25, 0),
        (format!("00000003 {one} 00000001 00000000 {one}"), 25, 0),
        (format!("00000002 {one}"), 20, 0),
        (format!("7fffffff {one}"), 20, 0),
        (format!("00000001 {one} 00"), 21, 0),
        ("00000001 00000000 fffffffe".to_string(), 23, 0),
        ("00000001 00000000 ffffffff".to_string(), 27, 0),
        ("00000001 00000000 00000008".to_string(), 20, 0),
        ("00000001 00000000 00000000 00".to_string(), 24, 12),
        ("00000000 00".to_string(), 21, 0),
        ("ffffffff".to_string(), 22, 0),
    ] {
        cases.bad(&INPUT, &hex(&value), number, place);
    }
    // Optional: an absent element counts as given, first or second.
    let optional = [8, 4, 1, 5, 6, 1, 2, 0x6f];
    let absent = "00000000 ffffffff";
    cases.bad(
        &optional,
        &hex(&format!("00000002 {absent} {absent}")),
        26,
        0,
    );
    cases.bad(&optional, &hex(&format!("00000002 {absent} {one}")), 26, 0);
    cases.bad(&optional, &hex(&format!("00000002 {one} {absent}")), 26, 0);
}

/// Everything inside an element comes before the next one's head, and an element that does not fit
/// is not looked into (R5.2). A tuple of two tuples of a bool: at 2, 4 and 7.
fn of_elements(cases: &mut Cases) {
    let plan = [11, 7, 1, 9, 4, 1, 2, 4, 2, 4, 4];
    let good = "00000000 0000000d 00000001 00000000 00000001 01";
    let content = "00000000 0000000d 00000001 00000000 00000001 02";
    let count = "00000000 0000000d 00000002 00000000 00000001 01";
    for (value, number, place) in [
        (format!("00000002 {content} 00000000 ffffffff"), 24, 24),
        (format!("00000002 {count} {content}"), 22, 12),
        (format!("00000002 {content} {count}"), 24, 24),
        (format!("00000002 {good} {count}"), 22, 33),
        (format!("00000002 {good} {content} 00"), 24, 45),
        (format!("00000002 {good} {good} 00"), 21, 0),
        ("00000002 00000000 0000000d 00000002".to_string(), 20, 0),
        (format!("00000002 {good}"), 20, 0),
        (format!("00000003 {content}"), 22, 0),
    ] {
        cases.bad(&plan, &hex(&value), number, place);
    }
}
