//! The walk through a value, which lists an entry for all that it passes.

use super::container::{Container, Span};
use crate::entry::{ABSENT, ENTRY_WORDS};
use crate::plan::{Node, Tree};
use crate::refusal::{self, Refusal};
use crate::scalar::{self, Format};

/// A container's entry comes before those of its elements, each with all that it holds (R6.2). That
/// is also the order of faults: all inside an element is judged before the next one's head (R5.2).
pub struct Walk<'a> {
    tree: &'a Tree,
    /// The top value: places are offsets in it.
    value: &'a [u8],
    words: Vec<u32>,
}

impl<'a> Walk<'a> {
    /// The list of a whole value of the root.
    pub fn of(tree: &'a Tree, value: &'a [u8]) -> Result<Vec<u32>, Refusal> {
        let mut walk = Walk {
            tree,
            value,
            words: Vec::new(),
        };
        let whole = Span {
            start: 0,
            length: value.len(),
        };
        // The index of the top is 0 (R6.3).
        walk.value(tree.root(), 0, whole)?;
        Ok(walk.words)
    }

    /// Judges and lists the value of a node that has these bytes.
    pub fn value(&mut self, node: u32, index: u32, span: Span) -> Result<(), Refusal> {
        let entry = self.words.len();
        self.list([node, index, span.start as u32, span.length as u32, 0]);
        let tree = self.tree;
        let container = Container::new(self.value, span);
        let below = match tree.node(node) {
            Node::Leaf(format) => self.leaf(*format, span),
            Node::Enumeration => self.judge(span, scalar::enumeration),
            Node::Set(element) => self.set(*element, container),
            Node::SetOfArrays(array) => self.set_of_arrays(*array, container),
            Node::Tuple(elements) => self.tuple(elements, container),
            Node::Output(elements) => self.output(elements, container),
            Node::Input(elements) => self.input(elements, container),
            Node::Range(bound) => self.range(*bound, container),
        }?;
        // How many entries are directly below (R6.6).
        self.words[entry + 4] = below;
        Ok(())
    }

    /// Lists an absent element, which starts where its head ends (R6.5).
    pub fn absent(&mut self, node: u32, index: u32, start: usize) {
        self.list([node, index, start as u32, ABSENT, 0]);
    }

    /// The words of an entry (R6.1).
    fn list(&mut self, entry: [u32; ENTRY_WORDS]) {
        self.words.extend(entry);
    }

    fn leaf(&self, format: Format, span: Span) -> Result<u32, Refusal> {
        self.judge(span, |content| format.permits(content))
    }

    /// 24 at the leaf's own start (R5.15, R5.17). Nothing is below it.
    fn judge(&self, span: Span, permits: impl Fn(&[u8]) -> bool) -> Result<u32, Refusal> {
        if permits(&self.value[span.start..span.start + span.length]) {
            Ok(0)
        } else {
            Err(Refusal::at(refusal::BAD_SCALAR, span.start))
        }
    }
}
