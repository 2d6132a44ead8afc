//! Blocks as data: all the fields of R3.3. Nothing is judged here.

use crate::scalar::Format;

pub type Id = [u8; 16];

/// The blocks of a descriptor, those that take an index and those that do not.
#[derive(Clone, Debug, Default, PartialEq, Eq)]
pub struct Blocks<'a> {
    /// A block's index is its place here (R3.4).
    pub list: Vec<Block<'a>>,
    /// These have no index (R3.4).
    pub annotations: Vec<Annotation<'a>>,
}

#[derive(Clone, Debug, PartialEq, Eq)]
pub struct Annotation<'a> {
    /// The index of the block that it is for.
    pub block: u16,
    pub key: &'a str,
    pub value: &'a str,
}

/// A block with an index. References are indexes of earlier blocks.
#[derive(Clone, Debug, PartialEq, Eq)]
pub struct Block<'a> {
    pub id: Id,
    /// 0 for blocks without values, which have none.
    pub height: u32,
    pub body: Body<'a>,
}

/// What a block has after its id, by its tag.
#[derive(Clone, Debug, PartialEq, Eq)]
pub enum Body<'a> {
    /// 0
    Set { element: u16 },
    /// 1
    Output {
        free: bool,
        object: u16,
        elements: Vec<OutputElement<'a>>,
    },
    /// 3
    Scalar { schema: Schema<'a>, format: Format },
    /// 4
    Tuple {
        schema: Schema<'a>,
        elements: Vec<u16>,
    },
    /// 5
    NamedTuple {
        schema: Schema<'a>,
        elements: Vec<NamedElement<'a>>,
    },
    /// 6
    Array { schema: Schema<'a>, element: u16 },
    /// 7
    Enumeration {
        schema: Schema<'a>,
        members: Vec<&'a str>,
    },
    /// 8
    Input { elements: Vec<InputElement<'a>> },
    /// 9
    Range { schema: Schema<'a>, bound: u16 },
    /// 10
    Object { name: Name<'a> },
    /// 11
    Compound {
        name: Name<'a>,
        operation: u8,
        components: Vec<u16>,
    },
    /// 13
    Record { elements: Vec<NamedElement<'a>> },
}

#[derive(Clone, Copy, Debug, PartialEq, Eq)]
pub struct Name<'a> {
    pub text: &'a str,
    pub schema_defined: bool,
}

#[derive(Clone, Debug, PartialEq, Eq)]
pub struct Schema<'a> {
    pub name: Name<'a>,
    pub ancestors: Vec<u16>,
}

/// An element of a named tuple or an SQL record.
#[derive(Clone, Copy, Debug, PartialEq, Eq)]
pub struct NamedElement<'a> {
    pub name: &'a str,
    pub block: u16,
}

#[derive(Clone, Copy, Debug, PartialEq, Eq)]
pub struct InputElement<'a> {
    pub flags: u32,
    pub cardinality: u8,
    pub name: &'a str,
    pub block: u16,
}

#[derive(Clone, Copy, Debug, PartialEq, Eq)]
pub struct OutputElement<'a> {
    pub flags: u32,
    pub cardinality: u8,
    pub name: &'a str,
    pub block: u16,
    /// The type that the element comes from.
    pub source: u16,
}

impl Body<'_> {
    /// Object types, compound types and records have none (R3.2).
    pub fn has_values(&self) -> bool {
        !matches!(
            self,
            Body::Object { .. } | Body::Compound { .. } | Body::Record { .. }
        )
    }

    pub fn is_set(&self) -> bool {
        matches!(self, Body::Set { .. })
    }

    pub fn is_array(&self) -> bool {
        matches!(self, Body::Array { .. })
    }

    pub fn is_scalar(&self) -> bool {
        matches!(self, Body::Scalar { .. })
    }

    /// An object type or a compound of such.
    pub fn is_object_type(&self) -> bool {
        matches!(self, Body::Object { .. } | Body::Compound { .. })
    }
}
