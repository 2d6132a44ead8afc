//! Takes the entries of a supply in turn and puts together the value that they are of.

use crate::entry::Entry;
use crate::plan::{Element, Node, Tree};
use crate::scalar;
use crate::value::MOST_BYTES;
use std::vec;

/// In all of its functions `None` says that no accepted value has the supply.
pub struct Builder<'a> {
    tree: &'a Tree,
    /// Those that have not been taken yet.
    entries: vec::IntoIter<Entry>,
    src: &'a [u8],
    value: Vec<u8>,
}

impl<'a> Builder<'a> {
    /// The value of a whole list: entries left over are 34 (R8.6).
    pub fn whole(tree: &'a Tree, list: &[u32], src: &'a [u8]) -> Option<Vec<u8>> {
        let mut builder = Builder {
            tree,
            entries: Entry::all(list)?.into_iter(),
            src,
            value: Vec::new(),
        };
        builder.value(tree.root(), 0)?;
        builder.entries.next().is_none().then_some(builder.value)
    }

    /// The entry that comes next, which stays there.
    pub fn next_entry(&self) -> Option<Entry> {
        self.entries.as_slice().first().copied()
    }

    /// Takes the entry that comes next, whose node and index must be these (R8.3).
    fn take(&mut self, node: u32, index: u32) -> Option<Entry> {
        let entry = self.entries.next()?;
        (entry.node == node && entry.index == index).then_some(entry)
    }

    /// Puts out bytes: a value that is too large would not be accepted (R8.10).
    pub fn put(&mut self, bytes: &[u8]) -> Option<()> {
        self.value.extend(bytes);
        (self.value.len() <= MOST_BYTES).then_some(())
    }

    pub fn put_words(&mut self, words: &[u32]) -> Option<()> {
        words
            .iter()
            .try_for_each(|word| self.put(&word.to_be_bytes()))
    }

    /// Makes a length before the bytes that were put out since `start` true.
    fn set_length(&mut self, at: usize, start: usize, more: usize) {
        let length = (self.value.len() - start + more) as u32;
        self.value[at..at + 4].copy_from_slice(&length.to_be_bytes());
    }

    /// A value of a node that may not be absent.
    fn value(&mut self, node: u32, index: u32) -> Option<()> {
        let entry = self.take(node, index)?;
        if entry.is_absent() {
            return None;
        }
        self.present(entry)
    }

    fn present(&mut self, entry: Entry) -> Option<()> {
        let tree = self.tree;
        match tree.node(entry.node) {
            Node::Leaf(format) => self.leaf(entry, |content| format.permits(content)),
            Node::Enumeration => self.leaf(entry, scalar::enumeration),
            Node::Set(element) => self.set(*element, entry.below),
            Node::SetOfArrays(array) => self.set_of_arrays(*array, entry.below),
            Node::Tuple(elements) => self.tuple(elements, entry.below),
            Node::Output(elements) => self.output(elements, entry.below),
            Node::Input(elements) => self.input(elements, entry.below),
            Node::Range(bound) => self.range(*bound, entry),
        }
    }

    /// A leaf's bytes are those at its start and length, and are copied as they are (R8.2, R8.5).
    fn leaf(&mut self, entry: Entry, permits: impl Fn(&[u8]) -> bool) -> Option<()> {
        let content = entry.bytes(self.src)?;
        if entry.below != 0 || content.len() > MOST_BYTES || !permits(content) {
            return None;
        }
        self.put(content)
    }

    /// A range's flags are the byte at its start (R8.2).
    pub fn flags(&self, entry: Entry) -> Option<u8> {
        self.src.get(entry.start as usize).copied()
    }

    /// An element with its length before it.
    pub fn element(&mut self, node: u32, index: u32) -> Option<()> {
        let at = self.value.len();
        self.put_words(&[0])?;
        self.value(node, index)?;
        self.set_length(at, at + 4, 0);
        Some(())
    }

    /// An array in its envelope, whose length is 12 more than the array's (R5.6).
    pub fn enveloped(&mut self, array: u32, index: u32) -> Option<()> {
        let at = self.value.len();
        self.put_words(&[0, 1, 0])?;
        self.element(array, index)?;
        self.set_length(at, at + 16, 12);
        Some(())
    }

    /// An object's element after its reserved field or index: one that is absent has nothing below
    /// it and may not be required.
    pub fn field(&mut self, element: &Element, index: u32) -> Option<()> {
        if !self.next_entry()?.is_absent() {
            return self.element(element.node, index);
        }
        let entry = self.take(element.node, index)?;
        if element.is_required() || entry.below != 0 {
            return None;
        }
        self.put_words(&[u32::MAX])
    }
}
