//! The numbers of each format, worked out by hand, and what has none.

use super::fixed::Cases;
use crate::crossed::hex;
use crate::value::exact::INPUT;
use crate::value::scalar::{least, FORMATS, INT64};

pub fn add(cases: &mut Cases) {
    numbers(cases);
    others(cases);
}

/// Each format, its first bit set and not, floats that are no number among them.
fn numbers(cases: &mut Cases) {
    for (format, bytes, bits) in [
        (3, "7fff", 0x7fff),
        (3, "8001", 0xffff_ffff_ffff_8001),
        (4, "7fffffff", 0x7fff_ffff),
        (4, "80000001", 0xffff_ffff_8000_0001),
        (5, "7fffffffffffffff", 0x7fff_ffff_ffff_ffff),
        (5, "8000000000000001", 0x8000_0000_0000_0001),
        (6, "c17a0000", 0xc17a_0000),
        (6, "80000000", 0x8000_0000),
        (6, "7fa00001", 0x7fa0_0001),
        (6, "ffffffff", 0xffff_ffff),
        (7, "c02f400000000000", 0xc02f_4000_0000_0000),
        (7, "7ff0000000000001", 0x7ff0_0000_0000_0001),
        (7, "fff8000000000001", 0xfff8_0000_0000_0001),
        (9, "00", 0),
        (9, "01", 1),
        (19, "0000000007b00000", 0x07b0_0000),
        (19, "ffffffffffffffff", u64::MAX),
    ] {
        let value = hex(bytes);
        let part = (0, value.len() as u32);
        cases.found(
            (&[4, 2, 1, format], &value, &[]),
            part,
            Some((format, bits)),
        );
    }
}

/// All other formats, enumerations, and containers of one integer.
fn others(cases: &mut Cases) {
    for format in (0..FORMATS).filter(|format| ![3, 4, 5, 6, 7, 9, 19].contains(format)) {
        let mut value = vec![0; least(format)];
        if format == 15 {
            value[0] = 1;
        }
        let part = (0, value.len() as u32);
        cases.found((&[4, 2, 1, format], &value, &[]), part, None);
    }
    cases.found((&[3, 2, 8], b"1", &[]), (0, 1), None);
    let one = hex("00000001 00000000 00000008 0000000000000001");
    cases.found((&INPUT, &one, &[]), (0, 20), None);
    cases.found((&INPUT, &one, &[0]), (12, 8), Some((INT64, 1)));
}
