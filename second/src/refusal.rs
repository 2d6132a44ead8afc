//! Refusals: R1.3.

/// A message whose end is not there yet.
pub const NOT_WHOLE: u32 = 1;
/// A length field that no message has.
pub const BAD_LENGTH: u32 = 2;
/// A type byte that the side does not have.
pub const UNKNOWN_TYPE: u32 = 3;
/// A message is over before a field is.
pub const FIELD_PAST_END: u32 = 4;
/// A message goes on after its last field.
pub const BYTES_LEFT: u32 = 5;
/// A field of a message holds what it must not.
pub const BAD_FIELD: u32 = 6;
/// A descriptor is over before a field is.
pub const CUT_DESCRIPTOR: u32 = 10;
/// A tag that no block has.
pub const UNKNOWN_TAG: u32 = 11;
/// A field of a block holds what it must not.
pub const BAD_CONTENT: u32 = 12;
/// A reference to no earlier block.
pub const BAD_REFERENCE: u32 = 13;
/// A reference to a block that may not be used there.
pub const WRONG_KIND: u32 = 14;
/// A block's id that is all zero, or was used before.
pub const BAD_ID: u32 = 15;
/// Two elements of one input shape or named tuple have one name.
pub const NAME_TWICE: u32 = 16;
/// A descriptor is larger than one may be.
pub const DESCRIPTOR_SIZE: u32 = 17;
/// No block has the root id, or none with values.
pub const NO_ROOT: u32 = 18;
/// A container is over before a head, or an element's data, is.
pub const CUT_CONTAINER: u32 = 20;
/// A container goes on after its last element.
pub const BYTES_OVER: u32 = 21;
/// A head holds what it must not.
pub const BAD_HEAD: u32 = 22;
/// A negative length that does not mean absent.
pub const BAD_ELEMENT_LENGTH: u32 = 23;
/// The bytes of a scalar or an enumeration break its rule.
pub const BAD_SCALAR: u32 = 24;
/// A sparse entry's index is none of its shape's.
pub const INDEX_OUTSIDE: u32 = 25;
/// Two sparse entries have one index.
pub const INDEX_TWICE: u32 = 26;
/// A required element is absent, or is not given.
pub const REQUIRED: u32 = 27;
/// A value is larger than one may be.
pub const VALUE_SIZE: u32 = 28;
/// The plan does not fit its room.
pub const PLAN_ROOM: u32 = 30;
/// The list does not fit its room.
pub const LIST_ROOM: u32 = 31;
/// What is written does not fit its room.
pub const OUTPUT_ROOM: u32 = 32;
/// Words that are no plan.
pub const BAD_PLAN: u32 = 33;
/// A supply of no accepted value.
pub const NO_VALUE: u32 = 34;
/// A path to no entry.
pub const NO_ENTRY: u32 = 35;
/// A path to an absent element.
pub const ABSENT_ELEMENT: u32 = 36;
/// An element that is not a number.
pub const NO_NUMBER: u32 = 37;

/// Why something was not accepted, and where.
#[derive(Clone, Copy, Debug, PartialEq, Eq)]
pub struct Refusal {
    pub number: u32,
    pub place: u32,
}

impl Refusal {
    pub(crate) fn at(number: u32, place: usize) -> Refusal {
        Refusal {
            number,
            place: place as u32,
        }
    }

    /// A refusal whose place is 0 by the table.
    pub(crate) fn at_start(number: u32) -> Refusal {
        Refusal::at(number, 0)
    }
}
