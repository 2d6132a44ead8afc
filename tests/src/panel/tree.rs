//! Values as trees, and what a descriptor's root accepts.

use super::human;
use super::texts::{self, Extent};
use second::descriptor::block::{Block, Body};
use second::entry::Entry;

const NAME_WIDTH: usize = 12;
const KIND_WIDTH: usize = 18;

/// An element of a block: its name, the block that it refers to, and its cardinality in words.
struct Element<'a> {
    name: &'a str,
    block: usize,
    cardinality: &'static str,
}

/// The elements of a tuple or shape, or the one of the other containers; a leaf has none.
fn elements<'a>(body: &Body<'a>) -> Vec<Element<'a>> {
    let element = |name, block: u16, cardinality| Element {
        name,
        block: usize::from(block),
        cardinality: cardinality_in_words(cardinality),
    };
    match body {
        Body::Set { element: block } | Body::Array { element: block, .. } => {
            vec![element("", *block, 0)]
        }
        Body::Range { bound, .. } => vec![element("", *bound, 0)],
        Body::Tuple { elements, .. } => elements
            .iter()
            .map(|block| element("", *block, 0))
            .collect(),
        Body::NamedTuple { elements, .. } => elements
            .iter()
            .map(|named| element(named.name, named.block, 0))
            .collect(),
        Body::Output { elements, .. } => elements
            .iter()
            .map(|of| element(of.name, of.block, of.cardinality))
            .collect(),
        Body::Input { elements } => elements
            .iter()
            .map(|of| element(of.name, of.block, of.cardinality))
            .collect(),
        _ => Vec::new(),
    }
}

fn cardinality_in_words(cardinality: u8) -> &'static str {
    match cardinality {
        0x6e => "none",
        0x6f => "at most one",
        0x41 => "one",
        0x6d => "many",
        0x4d => "at least one",
        _ => "",
    }
}

/// Whether all elements are of one block.
fn is_alike(body: &Body) -> bool {
    matches!(
        body,
        Body::Set { .. } | Body::Array { .. } | Body::Range { .. }
    )
}

/// What a block is called, without what it is of.
fn kind(body: &Body) -> &'static str {
    match body {
        Body::Set { .. } => "set",
        Body::Array { .. } => "array",
        Body::Range { .. } => "range",
        Body::Tuple { .. } | Body::NamedTuple { .. } => "tuple",
        Body::Output { .. } => "object",
        Body::Input { .. } => "input object",
        Body::Enumeration { .. } => "enumeration",
        Body::Scalar { format, .. } => human::name(*format),
        _ => panic!("a block without values"),
    }
}

fn whole_kind(blocks: &[Block], block: usize) -> String {
    let body = &blocks[block].body;
    match body {
        Body::Set { .. } | Body::Array { .. } | Body::Range { .. } => {
            let of = elements(body)[0].block;
            format!("{} of {}", kind(body), kind(&blocks[of].body))
        }
        _ => kind(body).into(),
    }
}

/// Index, and name if there is one.
fn label(index: u32, name: &str, extent: Extent) -> String {
    if name.is_empty() {
        return format!("{index:<2} ");
    }
    let width = NAME_WIDTH.saturating_sub(name.chars().count());
    format!(
        "{index:<2} {}{} ",
        texts::bare(name, extent),
        " ".repeat(width)
    )
}

/// The lines of a plan: its root, and each element directly below.
pub fn plan(blocks: &[Block], root: usize) -> Vec<String> {
    let mut lines = vec![whole_kind(blocks, root)];
    let body = &blocks[root].body;
    if matches!(
        body,
        Body::Set { .. } | Body::Array { .. } | Body::Range { .. }
    ) {
        return lines;
    }
    for (index, element) in (0..).zip(elements(body)) {
        let (label, kind) = (
            label(index, element.name, Extent::Cut),
            whole_kind(blocks, element.block),
        );
        lines.push(match element.cardinality {
            "" => format!("  {label}{kind}"),
            many => format!("  {label}{kind:<KIND_WIDTH$} {many}"),
        });
    }
    lines
}

/// A value that was accepted, as its list gives it.
pub struct Tree<'a> {
    blocks: &'a [Block<'a>],
    value: &'a [u8],
    entries: &'a [Entry],
    /// The entry that comes next.
    next: usize,
    extent: Extent,
    lines: Vec<String>,
}

impl<'a> Tree<'a> {
    /// The lines of the element that a path leads to, in a value of the root block.
    pub fn lines(
        blocks: &'a [Block<'a>],
        root: usize,
        value: &'a [u8],
        entries: &'a [Entry],
        path: &[u32],
        extent: Extent,
    ) -> Vec<String> {
        let mut tree = Tree {
            blocks,
            value,
            entries,
            next: 0,
            extent,
            lines: Vec::new(),
        };
        let (block, name) = tree.descend(root, path);
        tree.element(block, name, 0);
        let whole = tree.next == entries.len();
        assert!(whole || !path.is_empty(), "an entry that belongs nowhere");
        tree.lines
    }

    /// Goes down a path; the block and name of what it leads to, whose entry is then the next.
    fn descend(&mut self, root: usize, path: &[u32]) -> (usize, &'a str) {
        let (mut block, mut name) = (root, "");
        for &index in path {
            let body = &self.blocks[block].body;
            let all = elements(body);
            self.next += 1;
            while self.entries[self.next].index != index {
                self.skip();
            }
            let element = &all[if is_alike(body) { 0 } else { index as usize }];
            (block, name) = (element.block, element.name);
        }
        (block, name)
    }

    /// Passes over an entry and all below it.
    fn skip(&mut self) {
        for _ in 0..self.take().below {
            self.skip();
        }
    }

    fn take(&mut self) -> Entry {
        self.next += 1;
        self.entries[self.next - 1]
    }

    /// The next entry, a value of this block, and all below it.
    fn element(&mut self, block: usize, name: &str, depth: usize) {
        let entry = self.take();
        let body = &self.blocks[block].body;
        let label = label(entry.index, name, self.extent);
        let kind = whole_kind(self.blocks, block);
        let content = match body {
            _ if entry.is_absent() => "absent".into(),
            Body::Scalar { format, .. } => human::scalar(*format, self.bytes(entry), self.extent),
            Body::Enumeration { .. } => texts::quoted(human::text(self.bytes(entry)), self.extent),
            Body::Range { bound, .. } => self.range(entry, usize::from(*bound)),
            _ => counted(entry.below),
        };
        let indent = "  ".repeat(depth);
        self.lines
            .push(format!("{indent}{label}{kind:<KIND_WIDTH$} {content}"));
        if !matches!(body, Body::Range { .. }) {
            self.inside(body, entry.below, depth + 1);
        }
    }

    /// The elements of a container.
    fn inside(&mut self, body: &Body, count: u32, depth: usize) {
        let inside = elements(body);
        for _ in 0..count {
            let index = self.entries[self.next].index as usize;
            let element = &inside[if is_alike(body) { 0 } else { index }];
            self.element(element.block, element.name, depth);
        }
    }

    /// A range with its bounds, whose entries come next.
    fn range(&mut self, entry: Entry, bound: usize) -> String {
        let Body::Scalar { format, .. } = &self.blocks[bound].body else {
            panic!("bounds are scalars");
        };
        let mut bounds = ["unbounded".to_string(), "unbounded".to_string()];
        for _ in 0..entry.below {
            let entry = self.take();
            bounds[entry.index as usize] = human::scalar(*format, self.bytes(entry), self.extent);
        }
        let flags = self.value[entry.start as usize];
        if flags == 1 {
            return "empty".into();
        }
        let open = if flags & 2 != 0 { '[' } else { '(' };
        let close = if flags & 4 != 0 { ']' } else { ')' };
        format!("{open}{}, {}{close}", bounds[0], bounds[1])
    }

    fn bytes(&self, entry: Entry) -> &'a [u8] {
        entry.bytes(self.value).expect("inside the value")
    }
}

fn counted(count: u32) -> String {
    match count {
        0 => "empty".into(),
        1 => "1 element".into(),
        _ => format!("{count} elements"),
    }
}
