//! Scalars in human form: R5.15 says what the bytes mean.

use super::calendar;
use super::float;
use super::texts::{self, Extent};
use second::scalar::Format;
use std::str;

/// More zeros than these, where the wire has none, are not written out.
const MOST_ZEROS: i64 = 200;

/// The name of a format, in the order of their numbers.
pub const NAMES: [&str; 20] = [
    "uuid",
    "str",
    "bytes",
    "int16",
    "int32",
    "int64",
    "float32",
    "float64",
    "decimal",
    "bool",
    "datetime",
    "local_datetime",
    "local_date",
    "local_time",
    "duration",
    "json",
    "bigint",
    "relative_duration",
    "date_duration",
    "memory",
];

pub fn name(format: Format) -> &'static str {
    let number = Format::ALL.iter().position(|other| *other == format);
    NAMES[number.expect("one of the twenty")]
}

/// A permitted scalar.
pub fn scalar(format: Format, bytes: &[u8], extent: Extent) -> String {
    match format {
        Format::Uuid => texts::uuid(bytes),
        Format::Str => texts::quoted(text(bytes), extent),
        Format::Bytes => texts::hex(bytes, extent),
        Format::Int16 => i16::from_be_bytes(sized(bytes)).to_string(),
        Format::Int32 => int32(bytes).to_string(),
        Format::Int64 => int64(bytes).to_string(),
        Format::Float32 => float::float32(f32::from_be_bytes(sized(bytes))),
        Format::Float64 => float::float64(f64::from_be_bytes(sized(bytes))),
        Format::Decimal | Format::Bigint => decimal(bytes),
        Format::Bool => (bytes == [1]).to_string(),
        Format::Datetime => calendar::date_time(int64(bytes)) + "Z",
        Format::LocalDatetime => calendar::date_time(int64(bytes)),
        Format::LocalDate => calendar::date(int32(bytes).into()),
        Format::LocalTime => calendar::time(int64(bytes)),
        Format::Duration | Format::RelativeDuration => duration(int64(&bytes[..8]), &bytes[8..]),
        // The first 8 bytes are reserved.
        Format::DateDuration => duration(0, &bytes[8..]),
        Format::Json if bytes.len() == 1 => "no text".into(),
        Format::Json => texts::as_it_is(text(&bytes[1..]), extent),
        Format::Memory => memory(int64(bytes)),
    }
}

pub fn text(bytes: &[u8]) -> &str {
    str::from_utf8(bytes).expect("an accepted text")
}

fn sized<const N: usize>(bytes: &[u8]) -> [u8; N] {
    bytes.try_into().expect("an accepted size")
}

fn int32(bytes: &[u8]) -> i32 {
    i32::from_be_bytes(sized(bytes))
}

fn int64(bytes: &[u8]) -> i64 {
    i64::from_be_bytes(sized(bytes))
}

fn duration(microseconds: i64, days_and_months: &[u8]) -> String {
    let (days, months) = days_and_months.split_at(4);
    calendar::duration(microseconds, int32(days), int32(months))
}

/// Digits with the point after so many of them, which may be none or more than there are.
pub fn with_point(digits: &str, before: i64) -> String {
    let before_all = "0".repeat(usize::try_from(-before).unwrap_or(0));
    let after_all = "0".repeat(usize::try_from(before - digits.len() as i64).unwrap_or(0));
    let all = before_all + digits + &after_all;
    let (whole, part) = all.split_at(usize::try_from(before).unwrap_or(0));
    let whole = match whole.trim_start_matches('0') {
        "" => "0",
        whole => whole,
    };
    match part.trim_end_matches('0') {
        "" => whole.into(),
        part => format!("{whole}.{part}"),
    }
}

/// Count, weight, sign, scale, and digits to the base 10,000, of which the first counts 10,000 to
/// the power of weight.
fn decimal(bytes: &[u8]) -> String {
    let short = |at: usize| u16::from_be_bytes([bytes[2 * at], bytes[2 * at + 1]]);
    let (count, weight) = (i64::from(short(0)), i64::from(short(1) as i16));
    let sign = if short(2) == 0 { "" } else { "-" };
    let digits: String = (4..bytes.len() / 2)
        .map(|at| format!("{:04}", short(at)))
        .collect();
    let unit = weight + 1 - count; // the power of the last digit
    if count > 0 && (4 * unit > MOST_ZEROS || -4 * weight > MOST_ZEROS) {
        let power = format!("{sign}{} x 10000^{unit}", with_point(&digits, 4 * count));
        return match short(3) {
            0 => power,
            scale => with_scale(&power, scale),
        };
    }
    let number = with_point(&digits, 4 * (weight + 1));
    format!("{sign}{}", to_scale(&number, short(3)))
}

/// With as many places as the scale says, if there are fewer.
fn to_scale(number: &str, scale: u16) -> String {
    let (whole, part) = number.split_once('.').unwrap_or((number, ""));
    match i64::from(scale) - part.len() as i64 {
        ..=0 => number.into(),
        zeros @ ..=MOST_ZEROS => format!("{whole}.{part}{}", "0".repeat(zeros as usize)),
        _ => with_scale(number, scale),
    }
}

fn with_scale(number: &str, scale: u16) -> String {
    format!("{number} (scale {scale})")
}

/// In the largest unit that divides it.
fn memory(bytes: i64) -> String {
    let units = [
        (50, "PiB"),
        (40, "TiB"),
        (30, "GiB"),
        (20, "MiB"),
        (10, "KiB"),
    ];
    let fits = |(power, _): &&(u32, &str)| bytes != 0 && bytes % (1 << power) == 0;
    match units.iter().find(fits) {
        Some((power, unit)) => format!("{} {unit}", bytes / (1 << power)),
        None => format!("{bytes} B"),
    }
}
