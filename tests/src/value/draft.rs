//! A value before it is put together: what its heads hold and the elements in them. Lengths are the
//! true ones unless the draft says otherwise, so a fault deep inside stays the only one.

/// A value of some node.
#[derive(Clone, Debug)]
pub struct Draft {
    /// The position of its node in the plan.
    pub node: u32,
    pub kind: Kind,
    /// A leaf's content, or what stands before a container's elements.
    pub head: Vec<u8>,
    pub elements: Vec<Element>,
    /// Bytes after the last element; a good value has none.
    pub tail: Vec<u8>,
}

#[derive(Clone, Copy, Debug, PartialEq, Eq)]
pub enum Kind {
    Leaf(u32),
    Enumeration,
    Set,
    SetOfArrays,
    Tuple,
    Output,
    /// With the number of elements of the shape.
    Input(u32),
    Range,
}

#[derive(Clone, Debug)]
pub struct Element {
    pub before: Before,
    pub length: Length,
    pub content: Content,
    /// Its index in the container, as the list gives it.
    pub index: u32,
}

/// What stands before an element's length.
#[derive(Clone, Debug)]
pub enum Before {
    /// In sets, arrays and ranges.
    Nothing,
    /// In tuples and output objects a reserved word, in input objects the index.
    Word(u32),
    Envelope {
        length: Length,
        count: u32,
        reserved: u32,
    },
}

#[derive(Clone, Copy, Debug, PartialEq, Eq)]
pub enum Length {
    True,
    Other(u32),
}

#[derive(Clone, Debug)]
pub enum Content {
    Present(Draft),
    /// Not there; the position of the node that it would be of.
    Absent(u32),
}

/// The bytes of a value, and the list that it has if it is good.
#[derive(Default)]
pub struct Laid {
    pub bytes: Vec<u8>,
    pub words: Vec<u32>,
}

const ABSENT: u32 = 0xffff_ffff;

impl Draft {
    pub fn lay(&self) -> Laid {
        let mut laid = Laid::default();
        laid.put(self, 0);
        laid
    }

    pub fn is_leaf(&self) -> bool {
        matches!(self.kind, Kind::Leaf(_) | Kind::Enumeration)
    }

    /// How many values there are in it, itself included, that are as asked.
    pub fn count(&self, asked: &impl Fn(&Draft) -> bool) -> usize {
        let below: usize = self.below().map(|draft| draft.count(asked)).sum();
        usize::from(asked(self)) + below
    }

    /// The values directly in it.
    fn below(&self) -> impl Iterator<Item = &Draft> {
        self.elements
            .iter()
            .filter_map(|element| match &element.content {
                Content::Present(draft) => Some(draft),
                Content::Absent(_) => None,
            })
    }

    /// One of the values in it that are as asked: the one that has so many of them before it.
    pub fn get(&mut self, asked: &impl Fn(&Draft) -> bool, before: usize) -> Option<&mut Draft> {
        self.find(asked, &mut { before })
    }

    fn find(&mut self, asked: &impl Fn(&Draft) -> bool, before: &mut usize) -> Option<&mut Draft> {
        if asked(self) {
            if *before == 0 {
                return Some(self);
            }
            *before -= 1;
        }
        self.elements
            .iter_mut()
            .find_map(|element| match &mut element.content {
                Content::Present(draft) => draft.find(asked, before),
                Content::Absent(_) => None,
            })
    }
}

impl Laid {
    fn put(&mut self, draft: &Draft, index: u32) {
        let (start, entry) = (self.bytes.len(), self.words.len());
        let count = draft.elements.len() as u32;
        self.words
            .extend([draft.node, index, start as u32, 0, count]);
        self.bytes.extend(&draft.head);
        for element in &draft.elements {
            self.put_element(element);
        }
        self.bytes.extend(&draft.tail);
        self.words[entry + 3] = (self.bytes.len() - start) as u32;
    }

    fn put_element(&mut self, element: &Element) {
        let head = self.bytes.len();
        match &element.before {
            Before::Nothing => {}
            Before::Word(word) => self.put_word(*word),
            Before::Envelope {
                count, reserved, ..
            } => [0, *count, *reserved]
                .into_iter()
                .for_each(|word| self.put_word(word)),
        }
        self.put_word(ABSENT);
        let start = self.bytes.len();
        match &element.content {
            Content::Absent(node) => {
                let entry = [*node, element.index, start as u32, ABSENT, 0];
                self.words.extend(entry);
            }
            Content::Present(draft) => {
                self.put(draft, element.index);
                let length = self.bytes.len() - start;
                self.set_word(start - 4, length as u32);
            }
        }
        let length = self.bytes.len() - start;
        if let Before::Envelope { length: outer, .. } = element.before {
            self.set_word(head, outer.or(12 + length as u32));
        }
        if let Length::Other(word) = element.length {
            self.set_word(start - 4, word);
        }
    }

    fn put_word(&mut self, word: u32) {
        self.bytes.extend(word.to_be_bytes());
    }

    fn set_word(&mut self, at: usize, word: u32) {
        self.bytes[at..at + 4].copy_from_slice(&word.to_be_bytes());
    }
}

impl Length {
    fn or(self, length: u32) -> u32 {
        match self {
            Length::True => length,
            Length::Other(other) => other,
        }
    }
}
