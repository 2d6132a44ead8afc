//! The table of values and the text that each must be printed as, and captures of its rows.
//!
//! A row of the table is a kind, the value's bytes in hex, and the text, with bars between them. A
//! kind is the name of a format, "range of" one, or "enumeration". With "optional" before it the
//! value is an object with one element of that kind, which may be absent, and the text is the
//! element's; with "sparse", an input object.

use super::human::NAMES;
use crate::crossed::hex;

pub struct Row {
    pub kind: String,
    pub value: Vec<u8>,
    pub text: String,
}

/// The rows; lines that start with # and empty ones are for the reader.
pub fn rows(table: &str) -> Result<Vec<Row>, String> {
    let is_row = |line: &&str| !line.is_empty() && !line.starts_with('#');
    table.lines().filter(is_row).map(row).collect()
}

fn row(line: &str) -> Result<Row, String> {
    let mut columns = line.splitn(3, '|').map(str::trim);
    let mut column = || columns.next().ok_or_else(|| format!("no row: {line}"));
    Ok(Row {
        kind: column()?.into(),
        value: hex(column()?),
        text: column()?.into(),
    })
}

/// A message: type, length, body.
pub fn message(type_byte: u8, body: &[u8]) -> Vec<u8> {
    let length = 4 + body.len() as u32;
    [&[type_byte], &length.to_be_bytes()[..], body].concat()
}

/// Bytes with their length before them.
fn long(bytes: &[u8]) -> Vec<u8> {
    [&(bytes.len() as u32).to_be_bytes()[..], bytes].concat()
}

/// A descriptor and its root.
pub type Rooted<'a> = (&'a [u8], &'a [u8]);

/// "No type": no bytes, and id zero.
pub const NO_TYPE: Rooted<'static> = (&[], &[0; 16]);

/// A T whose output has this descriptor and root; the input has no type.
pub fn description(descriptor: &[u8], root: &[u8]) -> Vec<u8> {
    description_of(NO_TYPE, (descriptor, root))
}

/// A T with these descriptors, many rows, and no annotations.
pub fn description_of(input: Rooted, output: Rooted) -> Vec<u8> {
    let mut body = [&[0; 2 + 8][..], b"m"].concat();
    for (descriptor, root) in [input, output] {
        body.extend(root);
        body.extend(long(descriptor));
    }
    message(b'T', &body)
}

/// A D with this value.
pub fn data(value: &[u8]) -> Vec<u8> {
    message(b'D', &[&[0, 1], &long(value)[..]].concat())
}

/// An s with this descriptor and root.
pub fn state(descriptor: &[u8], root: &[u8]) -> Vec<u8> {
    message(b's', &[root, &long(descriptor)].concat())
}

/// A C whose state data is this value, by the s with this root.
pub fn complete(root: &[u8], value: &[u8]) -> Vec<u8> {
    let before = [0; 2 + 8 + 4];
    message(b'C', &[&before, root, &long(value)].concat())
}

/// The id of a known scalar.
fn scalar_id(format: usize) -> [u8; 16] {
    let mut id = [0; 16];
    id[14] = 1;
    id[15] = if format == 19 { 0x30 } else { format as u8 };
    id
}

/// Tag and id, an empty name, not of the schema, no ancestors.
fn head(tag: u8, id: [u8; 16]) -> Vec<u8> {
    [&[tag], &id[..], &[0; 4 + 1 + 2]].concat()
}

/// Blocks, how many they are, and the id of the last, which is the root.
struct Blocks {
    bytes: Vec<u8>,
    count: u8,
    root: [u8; 16],
}

impl Blocks {
    fn one(bytes: Vec<u8>, root: [u8; 16]) -> Blocks {
        let count = 1;
        Blocks { bytes, count, root }
    }

    /// With one more block, which refers to the last.
    fn and(mut self, make: impl Fn([u8; 16], [u8; 2]) -> Vec<u8>) -> Blocks {
        let root = [0xaa + self.count; 16];
        self.bytes.extend(make(root, [0, self.count - 1]));
        self.count += 1;
        Blocks { root, ..self }
    }
}

/// A free shape with an element of each name, at most one of it.
fn shape(id: [u8; 16], of: [u8; 2], names: &[String]) -> Vec<u8> {
    let (free, no_type, flags) = ([1], [0; 2], [0; 4]);
    let count = (names.len() as u16).to_be_bytes();
    let element = |name: &String| {
        let name = long(name.as_bytes());
        [&flags[..], &[0x6f], &name, &of, &no_type].concat()
    };
    let elements: Vec<u8> = names.iter().flat_map(element).collect();
    [&[1], &id[..], &free, &no_type, &count, &elements].concat()
}

/// An input shape with one element, at most one of it.
fn input_shape(id: [u8; 16], of: [u8; 2]) -> Vec<u8> {
    let (one, flags, name) = ([0, 1], [0; 4], [0; 4]);
    [&[8], &id[..], &one, &flags, &[0x6f], &name, &of].concat()
}

/// The descriptor of a row's kind.
fn descriptor(kind: &str) -> Result<Blocks, String> {
    if let Some(of) = kind.strip_prefix("optional ") {
        let no_name = [String::new()];
        return Ok(descriptor(of)?.and(|id, of| shape(id, of, &no_name)));
    }
    if let Some(of) = kind.strip_prefix("sparse ") {
        return Ok(descriptor(of)?.and(input_shape));
    }
    if let Some(of) = kind.strip_prefix("range of ") {
        return Ok(descriptor(of)?.and(|id, of| [head(9, id), of.to_vec()].concat()));
    }
    if kind == "enumeration" {
        let (id, no_members) = ([0xaa; 16], vec![0, 0]);
        return Ok(Blocks::one([head(7, id), no_members].concat(), id));
    }
    let format = NAMES.iter().position(|name| *name == kind);
    let id = scalar_id(format.ok_or_else(|| format!("no such kind: {kind}"))?);
    Ok(Blocks::one(head(3, id), id))
}

/// One side's bytes: a description and the value, for each row.
pub fn capture(rows: &[Row]) -> Result<Vec<u8>, String> {
    let mut capture = Vec::new();
    for row in rows {
        let blocks = descriptor(&row.kind)?;
        capture.extend(description(&blocks.bytes, &blocks.root));
        capture.extend(data(&row.value));
    }
    Ok(capture)
}

/// A T whose rows are objects with a text of each name.
pub fn named(names: &[String]) -> Vec<u8> {
    let text = descriptor("str").expect("a known kind");
    let blocks = text.and(|id, of| shape(id, of, names));
    description(&blocks.bytes, &blocks.root)
}

/// Of lines that were printed, those of each row's tree.
pub fn trees(lines: &[String]) -> Vec<&[String]> {
    let is_row = |line: &&[String]| line[0].starts_with("  row: ");
    let of_tree = |line: &&String| line.starts_with("    ");
    let tree = |from: &'_ [String]| from[1..].iter().take_while(of_tree).count();
    let starts = (0..lines.len()).map(|at| &lines[at..]);
    starts
        .filter(is_row)
        .map(|from| &from[1..1 + tree(from)])
        .collect()
}

impl Row {
    /// The lines that its value must be printed as.
    pub fn tree(&self) -> Vec<String> {
        let line = |depth, kind, text| format!("{depth}0  {kind:<18} {text}");
        let inside = |kind, of| {
            let top = line("    ", kind, "1 element");
            vec![top, line("      ", of, &self.text)]
        };
        match self.kind.split_once(' ') {
            Some(("optional", of)) => inside("object", of),
            Some(("sparse", of)) => inside("input object", of),
            _ => vec![line("    ", &self.kind, &self.text)],
        }
    }
}
