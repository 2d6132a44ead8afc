//! The layouts of the ten messages, as data.

use Field::{Bytes, Fixed, One, OneOf, Run, Text};

/// The two sides that know messages.
pub const CLIENT: u32 = 0;
pub const SERVER: u32 = 1;

/// One field of a body, or a run with its items.
#[derive(Debug, PartialEq, Eq)]
pub enum Field {
    /// A number or uuid of so many bytes, all of whose bits pass.
    Fixed(usize),
    /// One byte, which must be among these.
    OneOf(&'static [u8]),
    /// D's u16, which must be 1. It is a field as any other (R2.8).
    One,
    /// u32 length and well-formed UTF-8.
    Text,
    /// u32 length and any bytes.
    Bytes,
    /// A u16 count, itself a field, and as many times these fields (R2.7).
    Run(&'static [Field]),
}

const U16: Field = Fixed(2);
const U32: Field = Fixed(4);
const U64: Field = Fixed(8);
const UUID: Field = Fixed(16);
const ANNOTATIONS: Field = Run(&[Text, Text]);
const ATTRIBUTES: Field = Run(&[U16, Bytes]);
const ERROR_SEVERITY: Field = OneOf(&[0x78, 0xc8, 0xff]);
const LOG_SEVERITY: Field = OneOf(&[0x14, 0x28, 0x3c, 0x50]);
const STATE: Field = OneOf(&[0x49, 0x54, 0x45]);
const CARDINALITY: Field = OneOf(&[0x6e, 0x6f, 0x41, 0x6d, 0x4d]);

/// The body fields of a message, or `None` where the type byte is unknown for that side.
pub fn layout(side: u32, type_byte: u8) -> Option<&'static [Field]> {
    match side {
        CLIENT => client(type_byte),
        SERVER => server(type_byte),
        _ => None,
    }
}

fn client(type_byte: u8) -> Option<&'static [Field]> {
    match type_byte {
        b'S' => Some(&[]),
        b'V' => Some(&[U16, U16, Run(&[Text, Text]), Run(&[Text, ANNOTATIONS])]),
        _ => None,
    }
}

fn server(type_byte: u8) -> Option<&'static [Field]> {
    match type_byte {
        b'E' => Some(&[ERROR_SEVERITY, U32, Text, ATTRIBUTES]),
        b'L' => Some(&[LOG_SEVERITY, U32, Text, ANNOTATIONS]),
        b'Z' => Some(&[ANNOTATIONS, STATE]),
        b'C' => Some(&[ANNOTATIONS, U64, Text, UUID, Bytes]),
        b'T' => Some(&[ANNOTATIONS, U64, CARDINALITY, UUID, Bytes, UUID, Bytes]),
        b's' => Some(&[UUID, Bytes]),
        b'D' => Some(&[One, Bytes]),
        b'S' => Some(&[Bytes, Bytes]),
        _ => None,
    }
}

impl Field {
    /// Whether a u32 length stands before the content.
    pub fn has_length(&self) -> bool {
        matches!(self, Text | Bytes)
    }

    /// The width of the content where the layout fixes it; a run stands for its count here.
    pub fn width(&self) -> Option<usize> {
        match self {
            Fixed(width) => Some(*width),
            OneOf(_) => Some(1),
            One | Run(_) => Some(2),
            Text | Bytes => None,
        }
    }

    /// Whether the content, already of the right width, obeys the field's rule (refusal 6).
    pub fn permits(&self, content: &[u8]) -> bool {
        match self {
            OneOf(allowed) => allowed.contains(&content[0]),
            One => content == [0, 1],
            Text => std::str::from_utf8(content).is_ok(),
            // Bits of a u64 without a name pass (R2.5), and a count is never too large (R2.7).
            Fixed(_) | Bytes | Run(_) => true,
        }
    }
}
