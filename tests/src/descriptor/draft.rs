//! A descriptor before it is put together: blocks of fields, each of which says what it stands for,
//! so that a fault can be put where it is wanted. Nothing is judged here.

pub type Id = [u8; 16];

#[derive(Clone, Debug, Default)]
pub struct DescriptorDraft {
    pub blocks: Vec<BlockDraft>,
    /// The id that is lent.
    pub root: Vec<u8>,
}

#[derive(Clone, Debug)]
pub struct BlockDraft {
    pub kind: Kind,
    /// The first is the tag.
    pub fields: Vec<Field>,
}

/// What other blocks may want of a block that they refer to.
#[derive(Clone, Copy, Debug, PartialEq, Eq)]
pub enum Kind {
    /// A scalar whose own id is known.
    Known,
    /// A scalar that has its format from its last ancestor.
    Derived,
    Set,
    Array,
    /// Some other block with values.
    Other,
    /// An object type, or a compound of such.
    ObjectType,
    Record,
    /// It takes no index.
    Annotation,
}

#[derive(Clone, Debug)]
pub struct Field {
    pub role: Role,
    pub content: Content,
}

#[derive(Clone, Copy, Debug, PartialEq, Eq)]
pub enum Role {
    Tag,
    Id,
    Text,
    /// A text that may not be twice in its block.
    Name,
    Bool,
    /// Of ancestors, elements, components or members.
    Count,
    /// A reference to any earlier block.
    Earlier,
    /// The last ancestor of a scalar whose own id is not known.
    Parent,
    /// A reference to a block that this one's values have values of.
    Element(Wanted),
    /// A reference to an object type.
    ObjectType,
    /// A number that is not looked at.
    Free,
    Flags,
    InputFlags,
    Cardinality,
    Operation,
    DimensionCount,
    Dimension,
}

/// The blocks that an element reference may go to.
#[derive(Clone, Copy, Debug, PartialEq, Eq)]
pub enum Wanted {
    OfSet,
    OfArray,
    OfRange,
    /// Of a tuple or shape.
    Any,
}

#[derive(Clone, Debug)]
pub enum Content {
    /// A number of so many bytes.
    Number(usize, u32),
    Id(Id),
    /// With the length that stands before it, where it is not the true one.
    Text(Vec<u8>, Option<u32>),
}

/// The bytes of a descriptor, and where the tag of each block stands.
#[derive(Default)]
pub struct Laid {
    pub bytes: Vec<u8>,
    pub tags: Vec<usize>,
}

impl Kind {
    pub fn has_index(self) -> bool {
        self != Kind::Annotation
    }

    pub fn has_values(self) -> bool {
        !matches!(self, Kind::ObjectType | Kind::Record | Kind::Annotation)
    }

    /// Whether a block of this kind may be referred to so.
    pub fn fits(self, role: Role) -> bool {
        match role {
            Role::Parent => self == Kind::Known,
            Role::ObjectType => self == Kind::ObjectType,
            Role::Element(Wanted::Any) => self.has_values(),
            Role::Element(Wanted::OfSet) => self.has_values() && self != Kind::Set,
            Role::Element(Wanted::OfArray) => {
                self.has_values() && !matches!(self, Kind::Set | Kind::Array)
            }
            Role::Element(Wanted::OfRange) => matches!(self, Kind::Known | Kind::Derived),
            _ => true,
        }
    }
}

impl Role {
    /// Whether it is a reference that must be to an earlier block.
    pub fn is_reference(self) -> bool {
        matches!(
            self,
            Role::Earlier | Role::Parent | Role::Element(_) | Role::ObjectType
        )
    }
}

impl DescriptorDraft {
    /// The places in `blocks` of those that have an index, by that index.
    pub fn indexed(&self) -> Vec<usize> {
        (0..self.blocks.len())
            .filter(|&block| self.blocks[block].kind.has_index())
            .collect()
    }

    pub fn lay(&self) -> Laid {
        let mut laid = Laid::default();
        for block in &self.blocks {
            laid.tags.push(laid.bytes.len());
            for field in &block.fields {
                field.content.put(&mut laid.bytes);
            }
        }
        laid
    }
}

impl BlockDraft {
    /// The block's id, unless it has none.
    pub fn id(&self) -> Option<Id> {
        self.fields.iter().find_map(|field| match field.content {
            Content::Id(id) => Some(id),
            _ => None,
        })
    }
}

impl Content {
    fn put(&self, bytes: &mut Vec<u8>) {
        match self {
            Content::Number(width, number) => bytes.extend(&number.to_be_bytes()[4 - width..]),
            Content::Id(id) => bytes.extend(id),
            Content::Text(text, length) => {
                bytes.extend(length.unwrap_or(text.len() as u32).to_be_bytes());
                bytes.extend(text);
            }
        }
    }
}

impl Field {
    pub fn number(role: Role, width: usize, number: u32) -> Field {
        Field {
            role,
            content: Content::Number(width, number),
        }
    }

    pub fn text(role: Role, text: Vec<u8>) -> Field {
        Field {
            role,
            content: Content::Text(text, None),
        }
    }

    pub fn count(items: usize) -> Field {
        Field::number(Role::Count, 2, items as u32)
    }

    pub fn reference(role: Role, index: u16) -> Field {
        Field::number(role, 2, u32::from(index))
    }
}
