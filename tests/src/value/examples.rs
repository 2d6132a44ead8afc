//! Every example of a scalar in the protocol's description: its bytes as they stand there, held
//! against the value that they are said to have, and run by themselves and in each kind of
//! container.

use super::fixed::Cases;
use super::scalar::numeric;
use crate::crossed::hex;

struct Example {
    format: u32,
    /// As the description has them.
    bytes: &'static str,
    /// As the value that the description gives is written.
    built: Vec<u8>,
}

pub fn add(cases: &mut Cases) {
    for Example {
        format,
        bytes,
        built,
    } in examples()
    {
        let bytes = hex(bytes);
        assert_eq!(bytes, built, "the example of format {format}");
        alone(cases, format, &bytes);
        in_set(cases, format, &bytes);
        in_objects(cases, format, &bytes);
        in_range(cases, format, &bytes);
    }
    empty_sets(cases);
}

fn example(format: u32, bytes: &'static str, built: impl AsRef<[u8]>) -> Example {
    Example {
        format,
        bytes,
        built: built.as_ref().to_vec(),
    }
}

fn examples() -> Vec<Example> {
    let mut examples = texts();
    examples.extend(numbers());
    examples.extend(times());
    examples
}

/// uuid, str; bytes and json, of which no bytes stand there.
fn texts() -> Vec<Example> {
    let uuid = "b9545c35-1fe7-485f-a6ea-f8ead251abd3".replace('-', "");
    vec![
        example(0, "b9545c351fe7485f a6eaf8ead251abd3", hex(&uuid)),
        example(1, "48656c6c6f2120f09f9982", "Hello! \u{1f642}"),
        example(2, "00ff80", [0, 0xff, 0x80]),
        example(15, "017b2261223a317d", b"\x01{\"a\":1}"),
    ]
}

/// int16 to float64, decimal, bool, bigint, memory.
fn numbers() -> Vec<Example> {
    let decimal = numeric(1, 0x4000, 7, &[1, 5_000, 6_250, 0]);
    let bigint = numeric(1, 0x4000, 0, &[1, 5_000]);
    let memory: i64 = 123 * 1_024 * 1_024;
    vec![
        example(3, "199c", 6_556_i16.to_be_bytes()),
        example(4, "000a0131", 655_665_i32.to_be_bytes()),
        example(
            5,
            "01b69b4be052fab1",
            123_456_789_987_654_321_i64.to_be_bytes(),
        ),
        example(6, "c17a0000", (-15.625_f32).to_be_bytes()),
        example(7, "c02f400000000000", (-15.625_f64).to_be_bytes()),
        example(8, "0004000140000007 00011388186a0000", decimal),
        example(9, "01", [u8::from(true)]),
        example(9, "00", [u8::from(false)]),
        example(16, "0002000140000000 00011388", bigint),
        example(19, "0000000007b00000", memory.to_be_bytes()),
    ]
}

/// datetime and local_datetime of 2019-05-06, 12:00, local_date, local_time, and the durations.
fn times() -> Vec<Example> {
    let days: i32 = 19 * 365 + 5 + 31 + 28 + 31 + 30 + 5;
    let noon = (i64::from(days) * 86_400 + 12 * 3_600) * 1_000_000;
    let ten_past = (12 * 3_600 + 10 * 60) * 1_000_000_i64;
    let seconds: i64 = 48 * 3_600 + 45 * 60 + 7;
    let span = seconds * 1_000_000 + 600_000;
    vec![
        example(10, "00022b359bc41000", noon.to_be_bytes()),
        example(11, "00022b359bc41000", noon.to_be_bytes()),
        example(12, "00001b99", days.to_be_bytes()),
        example(13, "0000000a32aef600", ten_past.to_be_bytes()),
        example(14, "00000028dd117280 00000000 00000000", long(span, 0, 0)),
        example(
            17,
            "00000028dd117280 00000010 0000001f",
            long(span, 16, 2 * 12 + 7),
        ),
        example(18, "0000000000000000 00000002 0000000c", long(0, 2, 12)),
    ]
}

/// Microseconds, days and months.
fn long(microseconds: i64, days: i32, months: i32) -> Vec<u8> {
    let (days, months) = (days.to_be_bytes(), months.to_be_bytes());
    [&microseconds.to_be_bytes()[..], &days, &months].concat()
}

/// At the top; but for texts and bytes, a byte less or more is too few or too many.
fn alone(cases: &mut Cases, format: u32, bytes: &[u8]) {
    let plan = [4, 2, 1, format];
    cases.good(&plan, bytes, &[2, 0, 0, bytes.len() as u32, 0]);
    if ![1, 2, 15].contains(&format) {
        cases.bad(&plan, &bytes[..bytes.len() - 1], 24, 0);
        cases.bad(&plan, &[bytes, &[0]].concat(), 24, 0);
    }
}

fn word(number: usize) -> [u8; 4] {
    (number as u32).to_be_bytes()
}

/// Twice in a set.
fn in_set(cases: &mut Cases, format: u32, bytes: &[u8]) {
    let element = [&word(bytes.len())[..], bytes].concat();
    let head = hex("00000001 0000000000000000 00000002 00000001");
    let value = [&head[..], &element, &element].concat();
    let length = bytes.len() as u32;
    let list = [
        [4, 0, 0, 28 + 2 * length, 2],
        [2, 0, 24, length, 0],
        [2, 1, 28 + length, length, 0],
    ];
    cases.good(&[6, 4, 1, format, 2, 2], &value, list.as_flattened());
}

/// In a tuple, an output object and an input object of one element: all have the same bytes.
fn in_objects(cases: &mut Cases, format: u32, bytes: &[u8]) {
    let value = [&hex("00000001 00000000")[..], &word(bytes.len()), bytes].concat();
    let length = bytes.len() as u32;
    let list = [[4, 0, 0, 12 + length, 1], [2, 0, 12, length, 0]];
    let plans: [&[u32]; 3] = [
        &[7, 4, 1, format, 4, 1, 2],
        &[8, 4, 1, format, 5, 1, 2, 0x41],
        &[8, 4, 1, format, 6, 1, 2, 0x4d],
    ];
    for plan in plans {
        cases.good(plan, &value, list.as_flattened());
    }
}

/// As the upper bound of a range.
fn in_range(cases: &mut Cases, format: u32, bytes: &[u8]) {
    let value = [&[0x0c], &word(bytes.len())[..], bytes].concat();
    let length = bytes.len() as u32;
    let list = [[4, 0, 0, 5 + length, 1], [2, 1, 5, length, 0]];
    cases.good(&[6, 4, 1, format, 7, 2], &value, list.as_flattened());
}

/// A set or array without elements has 12 bytes, whatever its element's type (R5.4).
fn empty_sets(cases: &mut Cases) {
    let plans: [&[u32]; 4] = [
        &[6, 4, 1, 5, 2, 2],
        &[5, 3, 8, 2, 2],
        &[8, 6, 4, 0, 2, 2, 2, 2],
        &[8, 6, 1, 5, 2, 2, 3, 4],
    ];
    for plan in plans {
        cases.good(plan, &[0; 12], &[plan[1], 0, 0, 12, 0]);
    }
}
