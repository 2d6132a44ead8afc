//! Scalars and enumerations at the top, worked out by hand.

use super::fixed::Cases;
use crate::crossed::hex;

pub fn add(cases: &mut Cases) {
    texts(cases);
    decimals(cases);
    bigints(cases);
    durations(cases);
}

fn good(cases: &mut Cases, format: u32, value: &str) {
    let value = hex(value);
    let list = [2, 0, 0, value.len() as u32, 0];
    cases.good(&[4, 2, 1, format], &value, &list);
}

fn bad(cases: &mut Cases, format: u32, value: &str) {
    cases.bad(&[4, 2, 1, format], &hex(value), 24, 0);
}

/// str, bytes, bool, json and an enumeration.
fn texts(cases: &mut Cases) {
    good(cases, 1, "");
    good(cases, 1, "00 efbfbe f48fbfbf");
    bad(cases, 1, "61 f4908080");
    good(cases, 2, "");
    good(cases, 2, "ff");
    bad(cases, 9, "02");
    bad(cases, 9, "");
    bad(cases, 9, "0000");
    good(cases, 15, "01");
    bad(cases, 15, "");
    bad(cases, 15, "00");
    bad(cases, 15, "02 7b7d");
    bad(cases, 15, "01 ff");
    cases.good(&[3, 2, 8], &hex("f09f9982"), &[2, 0, 0, 4, 0]);
    cases.bad(&[3, 2, 8], &hex("eda080"), 24, 0);
}

/// The size by the number of digits, the sign, and the greatest digit (R5.16).
fn decimals(cases: &mut Cases) {
    good(cases, 8, "0000 8000 4000 ffff");
    good(cases, 8, "0001 0000 0000 0000 270f");
    bad(cases, 8, "0001 0000 0000 0000 2710");
    bad(cases, 8, "0002 0000 0000 0000 0000 2710");
    bad(cases, 8, "0001 0000 0000 0000");
    bad(cases, 8, "0101 0000 0000 0000 0000");
    bad(cases, 8, "0000 0000 0000 0000 0000");
    bad(cases, 8, "0000 0000 4001 0000");
    bad(cases, 8, "0000 0000 8000 0000");
    bad(cases, 8, "0000 0000 c000 0000");
    bad(cases, 8, "0000 0000 0000 00");
}

/// Its last field is zero, and no digit is a fraction (R5.16).
fn bigints(cases: &mut Cases) {
    good(cases, 16, "0000 8000 4000 0000");
    good(cases, 16, "0002 0001 0000 0000 0000 0000");
    good(cases, 16, "0001 7fff 0000 0000 270f");
    bad(cases, 16, "0002 0000 0000 0000 0001 0001");
    bad(cases, 16, "0001 ffff 0000 0000 0001");
    bad(cases, 16, "0001 8000 0000 0000 0001");
    bad(cases, 16, "0001 0000 0000 0000 2710");
    bad(cases, 16, "0000 0000 0000 0001");
}

/// A duration's last eight bytes are zero; of the others any bytes pass (R5.15).
fn durations(cases: &mut Cases) {
    good(cases, 14, "ffffffffffffffff 00000000 00000000");
    bad(cases, 14, "0000000000000000 00000000 00000001");
    bad(cases, 14, "0000000000000000 01000000 00000000");
    bad(cases, 14, "0000000000000000 00000000 000000");
    good(cases, 17, "ffffffffffffffff ffffffff ffffffff");
    good(cases, 18, "ffffffffffffffff ffffffff ffffffff");
    bad(cases, 18, "0000000000000000 00000000");
}
