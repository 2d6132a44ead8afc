//! The fields of each tag after the id, in the order of R3.3.

use super::block::{Body, Id, InputElement, Name, NamedElement, OutputElement, Schema};
use super::reader::{Reader, Tag};
use super::references::{is_array_element, is_set_element};
use crate::refusal::{self, Refusal};
use crate::scalar::Format;
use std::collections::HashSet;

/// An output shape's flags have three bits (R3.6).
const SHAPE_FLAGS: u32 = 0b111;

impl<'a> Reader<'a> {
    pub fn body_of(&mut self, tag: Tag, id: &Id) -> Result<Body<'a>, Refusal> {
        Ok(match tag {
            Tag::Set => Body::Set {
                element: self.element(is_set_element)?,
            },
            Tag::Output => self.output()?,
            Tag::Scalar => self.scalar(id)?,
            Tag::Tuple => Body::Tuple {
                schema: self.schema()?,
                elements: self.items(|reader| reader.element(Body::has_values))?,
            },
            Tag::NamedTuple => Body::NamedTuple {
                schema: self.schema()?,
                elements: self.named_elements()?,
            },
            Tag::Array => self.array()?,
            Tag::Enumeration => Body::Enumeration {
                schema: self.schema()?,
                members: self.items(|reader| reader.fields.text())?,
            },
            Tag::Input => Body::Input {
                elements: self.input_elements()?,
            },
            Tag::Range => Body::Range {
                schema: self.schema()?,
                bound: self.element(Body::is_scalar)?,
            },
            Tag::Object => Body::Object { name: self.name()? },
            Tag::Compound => self.compound()?,
            Tag::Record => Body::Record {
                elements: self.items(Reader::record_element)?,
            },
        })
    }

    /// A count and as many items.
    fn items<T>(
        &mut self,
        mut item: impl FnMut(&mut Self) -> Result<T, Refusal>,
    ) -> Result<Vec<T>, Refusal> {
        let count = self.fields.count()?;
        let mut items = Vec::with_capacity(usize::from(count));
        for _ in 0..count {
            items.push(item(self)?);
        }
        Ok(items)
    }

    /// The name of a type, and whether the schema has it.
    fn name(&mut self) -> Result<Name<'a>, Refusal> {
        Ok(Name {
            text: self.fields.text()?,
            schema_defined: self.fields.bool()?,
        })
    }

    /// Name, flag and ancestors, which are earlier blocks of any kind (R3.11).
    fn schema(&mut self) -> Result<Schema<'a>, Refusal> {
        Ok(Schema {
            name: self.name()?,
            ancestors: self.items(Reader::reference)?,
        })
    }

    /// The format is the block's own by its id, or else that of its last ancestor, a scalar with a
    /// known id; without any ancestor it is 12, with another one 14 (R3.16). The last ancestor is
    /// the block's last field, and no ancestor's rule but 13 is judged before it.
    fn scalar(&mut self, id: &Id) -> Result<Body<'a>, Refusal> {
        let schema = self.schema()?;
        let format = match (known_format(id), schema.ancestors.last()) {
            (Some(format), _) => format,
            (None, None) => return self.fields.refuse(refusal::BAD_CONTENT),
            (None, Some(&last)) => self.format_of(last)?,
        };
        Ok(Body::Scalar { schema, format })
    }

    /// The tag must be a scalar's, and the id known (R3.16).
    fn format_of(&self, index: u16) -> Result<Format, Refusal> {
        self.demand_kind(index, Body::is_scalar)?;
        match known_format(&self.blocks.list[usize::from(index)].id) {
            Some(format) => Ok(format),
            None => self.fields.refuse(refusal::WRONG_KIND),
        }
    }

    /// An array has one dimension, of which the bound is -1 (R3.6).
    fn array(&mut self) -> Result<Body<'a>, Refusal> {
        let schema = self.schema()?;
        let element = self.element(is_array_element)?;
        let dimensions = self.fields.short()?;
        self.fields.demand(dimensions == 1)?;
        let dimension = i32::from_be_bytes(self.fields.take()?);
        self.fields.demand(dimension == -1)?;
        Ok(Body::Array { schema, element })
    }

    /// What is done with the components is 1 or 2 (R3.6).
    fn compound(&mut self) -> Result<Body<'a>, Refusal> {
        let name = self.name()?;
        let operation = self.fields.byte()?;
        self.fields.demand(operation == 1 || operation == 2)?;
        Ok(Body::Compound {
            name,
            operation,
            components: self.items(Reader::object_type)?,
        })
    }

    fn output(&mut self) -> Result<Body<'a>, Refusal> {
        let free = self.fields.bool()?;
        Ok(Body::Output {
            free,
            object: self.shape_type(free)?,
            elements: self.items(|reader| reader.output_element(free))?,
        })
    }

    /// In a free shape it may hold anything, though it must be whole (R3.12).
    fn shape_type(&mut self, free: bool) -> Result<u16, Refusal> {
        if free {
            self.fields.short()
        } else {
            self.object_type()
        }
    }

    fn output_element(&mut self, free: bool) -> Result<OutputElement<'a>, Refusal> {
        let flags = self.fields.word()?;
        self.fields.demand(flags & !SHAPE_FLAGS == 0)?;
        Ok(OutputElement {
            flags,
            cardinality: self.fields.cardinality()?,
            name: self.fields.text()?,
            block: self.element(Body::has_values)?,
            source: self.shape_type(free)?,
        })
    }

    /// An input shape's flags are 0 (R3.6).
    fn input_elements(&mut self) -> Result<Vec<InputElement<'a>>, Refusal> {
        let mut names = HashSet::new();
        self.items(|reader| {
            let flags = reader.fields.word()?;
            reader.fields.demand(flags == 0)?;
            Ok(InputElement {
                flags,
                cardinality: reader.fields.cardinality()?,
                name: reader.new_name(&mut names)?,
                block: reader.element(Body::has_values)?,
            })
        })
    }

    fn named_elements(&mut self) -> Result<Vec<NamedElement<'a>>, Refusal> {
        let mut names = HashSet::new();
        self.items(|reader| {
            Ok(NamedElement {
                name: reader.new_name(&mut names)?,
                block: reader.signed_element()?,
            })
        })
    }

    /// No two elements may have one name: 16 comes with the second (R3.8).
    fn new_name(&mut self, names: &mut HashSet<&'a str>) -> Result<&'a str, Refusal> {
        let name = self.fields.text()?;
        if !names.insert(name) {
            return self.fields.refuse(refusal::NAME_TWICE);
        }
        Ok(name)
    }

    /// It may be an earlier block of any kind (R3.11).
    fn record_element(&mut self) -> Result<NamedElement<'a>, Refusal> {
        Ok(NamedElement {
            name: self.fields.text()?,
            block: self.reference()?,
        })
    }
}

/// Known ids begin with fourteen zeros; the last two bytes are 01 and the format's number, but for
/// memory, which has 01 30 (R3.15).
fn known_format(id: &Id) -> Option<Format> {
    let [zeros @ .., high, low] = id;
    if *zeros != [0; 14] || *high != 1 {
        return None;
    }
    match low {
        0x00..=0x12 => Format::numbered(u32::from(*low)),
        0x30 => Some(Format::Memory),
        _ => None,
    }
}
