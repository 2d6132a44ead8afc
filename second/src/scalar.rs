//! What scalars and enumerations may hold: R5.15 to R5.17.

/// The twenty formats, in the order of their numbers 0 to 19 (R5.15).
#[derive(Clone, Copy, Debug, PartialEq, Eq)]
pub enum Format {
    Uuid,
    Str,
    Bytes,
    Int16,
    Int32,
    Int64,
    Float32,
    Float64,
    Decimal,
    Bool,
    Datetime,
    LocalDatetime,
    LocalDate,
    LocalTime,
    Duration,
    Json,
    Bigint,
    RelativeDuration,
    DateDuration,
    Memory,
}

/// The greatest digit of a decimal or bigint (R5.16).
const MOST_DIGIT: u16 = 9_999;

/// The last microsecond of a day (R5.15).
const LAST_OF_DAY: i64 = 86_399_999_999;

impl Format {
    pub const ALL: [Format; 20] = [
        Format::Uuid,
        Format::Str,
        Format::Bytes,
        Format::Int16,
        Format::Int32,
        Format::Int64,
        Format::Float32,
        Format::Float64,
        Format::Decimal,
        Format::Bool,
        Format::Datetime,
        Format::LocalDatetime,
        Format::LocalDate,
        Format::LocalTime,
        Format::Duration,
        Format::Json,
        Format::Bigint,
        Format::RelativeDuration,
        Format::DateDuration,
        Format::Memory,
    ];

    /// The format of a number, if it is one of the twenty.
    pub fn numbered(number: u32) -> Option<Format> {
        Format::ALL.get(number as usize).copied()
    }

    /// Whether a scalar of this format may hold these bytes (else refusal 24).
    pub fn permits(self, content: &[u8]) -> bool {
        match self {
            Format::Bytes => true,
            Format::Str => is_text(content),
            Format::Json => json(content),
            Format::Bool => matches!(content, [0 | 1]),
            Format::Decimal => decimal(content),
            Format::Bigint => bigint(content),
            Format::LocalTime => local_time(content),
            Format::Duration => duration(content),
            Format::Int16 => content.len() == 2,
            Format::Int32 | Format::Float32 | Format::LocalDate => content.len() == 4,
            // Dates, with a time or without, have no limits (R5.15).
            Format::Int64
            | Format::Float64
            | Format::Datetime
            | Format::LocalDatetime
            | Format::Memory => content.len() == 8,
            // The reserved bytes of a date_duration may be anything (R5.18).
            Format::Uuid | Format::RelativeDuration | Format::DateDuration => content.len() == 16,
        }
    }
}

/// Any text, a member or not (R5.17).
pub fn enumeration(content: &[u8]) -> bool {
    is_text(content)
}

/// Well-formed text (R2.6).
fn is_text(content: &[u8]) -> bool {
    std::str::from_utf8(content).is_ok()
}

/// The byte 1 and then text, whatever its grammar (R5.15).
fn json(content: &[u8]) -> bool {
    match content.split_first() {
        Some((1, text)) => is_text(text),
        _ => false,
    }
}

/// Microseconds that lie within a day (R5.15).
fn local_time(content: &[u8]) -> bool {
    let microseconds = content.try_into().map(i64::from_be_bytes);
    microseconds.is_ok_and(|microseconds| (0..=LAST_OF_DAY).contains(&microseconds))
}

/// Microseconds, and eight bytes that are zero (R5.15).
fn duration(content: &[u8]) -> bool {
    content.len() == 16 && content[8..] == [0; 8]
}

/// The head that decimal and bigint share, once their common rule holds.
struct Digits {
    count: u16,
    weight: i16,
    /// decimal's display scale, bigint's reserved field.
    fourth: u16,
}

/// The fields that decimal and bigint share, and the digits (R5.16).
fn digits(content: &[u8]) -> Option<Digits> {
    let word = |pair: &[u8]| u16::from_be_bytes([pair[0], pair[1]]);
    let (head, rest) = content.split_at_checked(8)?;
    let (count, sign) = (word(&head[..2]), word(&head[4..6]));
    let whole = rest.len() == 2 * usize::from(count);
    let permitted = rest.chunks_exact(2).all(|digit| word(digit) <= MOST_DIGIT);
    (whole && matches!(sign, 0 | 0x4000) && permitted).then_some(Digits {
        count,
        weight: word(&head[2..4]) as i16,
        fourth: word(&head[6..]),
    })
}

/// Any weight and any display scale pass (R5.16).
fn decimal(content: &[u8]) -> bool {
    digits(content).is_some()
}

/// Its last field is zero, and no digit is a fraction (R5.16).
fn bigint(content: &[u8]) -> bool {
    digits(content).is_some_and(|digits| {
        let room = i32::from(digits.weight) + 1;
        digits.fourth == 0 && (digits.count == 0 || i32::from(digits.count) <= room)
    })
}
