//! The entries of a list: R6.1.

/// The words of an entry (R6.1).
pub const ENTRY_WORDS: usize = 5;
/// An absent element's length.
pub const ABSENT: u32 = 0xffff_ffff;

/// An entry's words, of which the length is ffffffff hex where the element is absent (R6.1).
#[derive(Clone, Copy, Debug, PartialEq, Eq)]
pub struct Entry {
    pub node: u32,
    pub index: u32,
    pub start: u32,
    pub length: u32,
    pub below: u32,
}

impl Entry {
    /// The entries of a list, or `None` where its words are not a multiple of five.
    pub fn all(words: &[u32]) -> Option<Vec<Entry>> {
        let entry = |five: &[u32]| Entry {
            node: five[0],
            index: five[1],
            start: five[2],
            length: five[3],
            below: five[4],
        };
        let entries = words.chunks_exact(ENTRY_WORDS);
        let whole = entries.remainder().is_empty();
        whole.then(|| entries.map(entry).collect())
    }

    pub fn is_absent(&self) -> bool {
        self.length == ABSENT
    }

    /// The bytes at its start and length, or `None` where they are not all there, or start past the
    /// end (R8.7).
    pub fn bytes<'a>(&self, source: &'a [u8]) -> Option<&'a [u8]> {
        source
            .get(self.start as usize..)?
            .get(..self.length as usize)
    }
}
