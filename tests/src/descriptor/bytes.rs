//! Blocks put together by hand, their fields in the order of R3.3.

use super::draft::Id;

/// Cardinalities.
pub const ONE: u8 = 0x41;
pub const AT_MOST_ONE: u8 = 0x6f;

/// Last bytes of known ids.
pub const STR: u8 = 0x01;
pub const INT64: u8 = 0x05;

/// An id that is no known one.
pub fn id(number: u16) -> Id {
    let mut id = [0xee; 16];
    id[14..].copy_from_slice(&number.to_be_bytes());
    id
}

/// The known id of a scalar, by its last byte.
pub fn known(low: u8) -> Id {
    let mut id = [0; 16];
    id[14..].copy_from_slice(&[1, low]);
    id
}

pub fn text(content: &[u8]) -> Vec<u8> {
    [&(content.len() as u32).to_be_bytes(), content].concat()
}

/// A count and as many numbers.
pub fn shorts(numbers: &[u16]) -> Vec<u8> {
    let mut bytes = count(numbers.len()).to_vec();
    bytes.extend(numbers.iter().flat_map(|number| number.to_be_bytes()));
    bytes
}

fn count(items: usize) -> [u8; 2] {
    (items as u16).to_be_bytes()
}

/// A block of this tag and id.
pub fn block(tag: u8, id: Id, rest: &[&[u8]]) -> Vec<u8> {
    [&[tag], &id[..], &rest.concat()].concat()
}

/// The name "t", which the schema has, and ancestors.
pub fn schema(ancestors: &[u16]) -> Vec<u8> {
    [text(b"t"), vec![1], shorts(ancestors)].concat()
}

/// A scalar of a known id, without ancestors.
pub fn scalar(low: u8) -> Vec<u8> {
    derived(known(low), &[])
}

pub fn derived(id: Id, ancestors: &[u16]) -> Vec<u8> {
    block(3, id, &[&schema(ancestors)])
}

pub fn set(id: Id, element: u16) -> Vec<u8> {
    block(0, id, &[&element.to_be_bytes()])
}

pub fn array(id: Id, element: u16) -> Vec<u8> {
    let dimensions = [0, 1, 0xff, 0xff, 0xff, 0xff];
    block(6, id, &[&schema(&[]), &element.to_be_bytes(), &dimensions])
}

pub fn range(id: Id, bound: u16) -> Vec<u8> {
    block(9, id, &[&schema(&[]), &bound.to_be_bytes()])
}

pub fn tuple(id: Id, elements: &[u16]) -> Vec<u8> {
    block(4, id, &[&schema(&[]), &shorts(elements)])
}

pub fn named_tuple(id: Id, elements: &[(&[u8], u16)]) -> Vec<u8> {
    block(5, id, &[&schema(&[]), &named(elements)])
}

pub fn record(id: Id, elements: &[(&[u8], u16)]) -> Vec<u8> {
    block(13, id, &[&named(elements)])
}

fn named(elements: &[(&[u8], u16)]) -> Vec<u8> {
    let element = |(name, index): &(&[u8], u16)| [text(name), index.to_be_bytes().to_vec()];
    let mut bytes = count(elements.len()).to_vec();
    bytes.extend(elements.iter().flat_map(element).flatten());
    bytes
}

pub fn enumeration(id: Id, members: &[&[u8]]) -> Vec<u8> {
    let texts: Vec<u8> = members.iter().flat_map(|member| text(member)).collect();
    block(7, id, &[&schema(&[]), &count(members.len()), &texts])
}

pub fn object(id: Id) -> Vec<u8> {
    block(10, id, &[&text(b"o"), &[0]])
}

pub fn compound(id: Id, operation: u8, components: &[u16]) -> Vec<u8> {
    let rest = [text(b"c"), vec![0, operation], shorts(components)];
    block(11, id, &[&rest.concat()])
}

pub fn annotation(index: u16) -> Vec<u8> {
    [&[0x7f], &index.to_be_bytes()[..], &text(b"k"), &text(b"v")].concat()
}

/// An element of an output shape.
#[derive(Clone, Copy)]
pub struct Out<'a> {
    pub flags: u32,
    pub cardinality: u8,
    pub name: &'a [u8],
    pub element: u16,
    pub source: u16,
}

impl Out<'_> {
    fn bytes(&self) -> Vec<u8> {
        let end = [self.element.to_be_bytes(), self.source.to_be_bytes()];
        let flags = self.flags.to_be_bytes();
        [
            &flags,
            &[self.cardinality][..],
            &text(self.name),
            end.as_flattened(),
        ]
        .concat()
    }
}

pub fn output(id: Id, free: u8, object: u16, elements: &[Out]) -> Vec<u8> {
    let elements_bytes: Vec<u8> = elements.iter().flat_map(Out::bytes).collect();
    let head = [&[free], &object.to_be_bytes()[..], &count(elements.len())].concat();
    block(1, id, &[&head, &elements_bytes])
}

/// An element of an input shape.
#[derive(Clone, Copy)]
pub struct In<'a> {
    pub flags: u32,
    pub cardinality: u8,
    pub name: &'a [u8],
    pub element: u16,
}

impl In<'_> {
    fn bytes(&self) -> Vec<u8> {
        let (flags, element) = (self.flags.to_be_bytes(), self.element.to_be_bytes());
        [&flags, &[self.cardinality][..], &text(self.name), &element].concat()
    }
}

pub fn input(id: Id, elements: &[In]) -> Vec<u8> {
    let bytes: Vec<u8> = elements.iter().flat_map(In::bytes).collect();
    block(8, id, &[&count(elements.len()), &bytes])
}

/// An input shape with elements of these names, all of them of the first block's type and none
/// required.
pub fn input_of_names(id: Id, names: &[Vec<u8>]) -> Vec<u8> {
    let element = |name| In {
        flags: 0,
        cardinality: AT_MOST_ONE,
        name,
        element: 0,
    };
    let elements: Vec<In> = names.iter().map(|name| element(&name[..])).collect();
    input(id, &elements)
}
