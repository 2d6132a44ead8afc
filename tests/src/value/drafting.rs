//! Makes good values of a plan.

use super::draft::{Before, Content, Draft, Element, Kind, Length};
use super::plan::{is_required, PlanDraft, Shape};
use super::scalar::{self, STR};
use crate::rng::Rng;
use crate::text;

/// The flags that a range may have: empty, none infinite, lower, upper, both infinite.
const FLAGS: [u8; 10] = [0x01, 0x00, 0x02, 0x04, 0x06, 0x08, 0x0c, 0x10, 0x12, 0x18];

/// How large a value is to be.
#[derive(Clone, Copy, Debug)]
pub struct Size {
    /// So many bytes, about, more than its plan's smallest value has.
    pub spare: usize,
    /// So many elements for the first set or array that is met.
    pub many: Option<usize>,
    /// Whether sets are to have elements and objects all fields, as far as there is place.
    pub full: bool,
}

/// A good value of the plan's root, which must have a node.
pub fn make(rng: &mut Rng, plan: &PlanDraft, size: Size) -> Draft {
    let mut drafting = Drafting { rng, plan, size };
    drafting.value(plan.root)
}

struct Drafting<'a> {
    rng: &'a mut Rng,
    plan: &'a PlanDraft,
    /// What is left of it.
    size: Size,
}

impl Drafting<'_> {
    fn value(&mut self, number: usize) -> Draft {
        let node = &self.plan.nodes[number];
        let draft = |kind, head, elements| Draft {
            node: node.start,
            kind,
            head,
            elements,
            tail: Vec::new(),
        };
        match &node.shape {
            Shape::Leaf(format) => draft(Kind::Leaf(*format), self.leaf(*format), Vec::new()),
            Shape::Enumeration => draft(Kind::Enumeration, self.leaf(STR), Vec::new()),
            Shape::Set(element) => {
                let elements = self.elements(*element, 4);
                draft(Kind::Set, self.dimension(elements.len()), elements)
            }
            Shape::SetOfArrays(array) => {
                let elements = self.elements(*array, 16);
                draft(Kind::SetOfArrays, self.dimension(elements.len()), elements)
            }
            Shape::Tuple(elements) => draft(Kind::Tuple, count(elements), self.tuple(elements)),
            Shape::Output(elements) => draft(Kind::Output, count(elements), self.output(elements)),
            Shape::Input(elements) => {
                let given = self.input(elements);
                draft(Kind::Input(elements.len() as u32), count(&given), given)
            }
            Shape::Range(bound) => {
                let (flags, bounds) = self.range(*bound);
                draft(Kind::Range, vec![flags], bounds)
            }
        }
    }

    /// A scalar; an enumeration has the rule of a text.
    fn leaf(&mut self, format: u32) -> Vec<u8> {
        let most = match self.rng.below(16) {
            0 => 200,
            1..4 => 40,
            _ => 10,
        };
        let least = scalar::least(format);
        let content = scalar::good(self.rng, format, least + self.size.spare.min(most));
        self.spend(content.len() - least);
        content
    }

    fn spend(&mut self, bytes: usize) {
        self.size.spare = self.size.spare.saturating_sub(bytes);
    }

    /// Spends the bytes if they are there.
    fn affords(&mut self, bytes: usize) -> bool {
        let affords = bytes <= self.size.spare;
        if affords {
            self.spend(bytes);
        }
        affords
    }

    /// The head of a set or array of so many elements.
    fn dimension(&mut self, count: usize) -> Vec<u8> {
        let mut head = u32::from(count > 0).to_be_bytes().to_vec();
        head.extend(self.reserved().to_be_bytes());
        head.extend(self.reserved().to_be_bytes());
        if count > 0 {
            head.extend((count as u32).to_be_bytes());
            head.extend(1_u32.to_be_bytes());
        }
        head
    }

    /// Anything, since nobody looks at it (R5.18).
    fn reserved(&mut self) -> u32 {
        match self.rng.below(4) {
            0 => self.rng.word(),
            1 => self.rng.pick(&[1, 0xffff_ffff, 0x8000_0000]),
            _ => 0,
        }
    }

    /// As many elements as are asked for and there is place for.
    fn elements(&mut self, number: usize, head: usize) -> Vec<Element> {
        let count = match self.size.many.take() {
            Some(count) => count,
            None if self.size.full => self.rng.pick(&[1, 1, 1, 2]),
            None => self.rng.pick(&[0, 1, 1, 1, 2, 2, 3, 4, 6]),
        };
        let least = head + self.plan.nodes[number].least;
        let mut elements = Vec::new();
        if count == 0 || !self.affords(8) {
            return elements;
        }
        for index in 0..count {
            if !self.affords(least) {
                break;
            }
            let before = match head {
                4 => Before::Nothing,
                _ => Before::Envelope {
                    length: Length::True,
                    count: 1,
                    reserved: self.reserved(),
                },
            };
            elements.push(present(before, index as u32, self.value(number)));
        }
        elements
    }

    fn tuple(&mut self, elements: &[usize]) -> Vec<Element> {
        (0..)
            .zip(elements)
            .map(|(index, &number)| {
                let before = Before::Word(self.reserved());
                present(before, index, self.value(number))
            })
            .collect()
    }

    fn output(&mut self, elements: &[(usize, u32)]) -> Vec<Element> {
        (0..)
            .zip(elements)
            .map(|(index, &(number, cardinality))| {
                let before = Before::Word(self.reserved());
                self.field(before, index, number, cardinality)
            })
            .collect()
    }

    /// All that are required and some others, in any order.
    fn input(&mut self, elements: &[(usize, u32)]) -> Vec<Element> {
        let mut given = Vec::new();
        for (index, &(number, cardinality)) in (0..).zip(elements) {
            let wanted = self.size.full || self.rng.below(3) > 0;
            if is_required(cardinality) || (wanted && self.affords(8)) {
                given.push(self.field(Before::Word(index), index, number, cardinality));
            }
        }
        if self.rng.below(3) > 0 {
            for last in (1..given.len()).rev() {
                given.swap(last, self.rng.below(last + 1));
            }
        }
        given
    }

    /// An element of an object, which is absent at times if it may be.
    fn field(&mut self, before: Before, index: u32, number: usize, cardinality: u32) -> Element {
        let node = &self.plan.nodes[number];
        let wanted = self.size.full || self.rng.below(3) > 0;
        if is_required(cardinality) || (wanted && self.affords(node.least)) {
            return present(before, index, self.value(number));
        }
        Element {
            before,
            length: Length::True,
            content: Content::Absent(node.start),
            index,
        }
    }

    /// The flags and bounds of a range; an empty one if there is no place for another.
    fn range(&mut self, number: usize) -> (u8, Vec<Element>) {
        let flags = self.rng.pick(&FLAGS);
        let indexes: Vec<u32> = [(0, 0x09), (1, 0x11)]
            .into_iter()
            .filter(|(_, without)| flags & without == 0)
            .map(|(index, _)| index)
            .collect();
        if !self.affords(indexes.len() * (4 + self.plan.nodes[number].least)) {
            return (0x01, Vec::new());
        }
        let bound = |index| present(Before::Nothing, index, self.value(number));
        (flags, indexes.into_iter().map(bound).collect())
    }
}

fn present(before: Before, index: u32, draft: Draft) -> Element {
    Element {
        before,
        length: Length::True,
        content: Content::Present(draft),
        index,
    }
}

/// The count before the elements of a tuple or object.
fn count<T>(elements: &[T]) -> Vec<u8> {
    (elements.len() as u32).to_be_bytes().to_vec()
}

/// Adds letters to some leaf that may hold them, where there is one, so that the value has so many
/// bytes.
pub fn grow(rng: &mut Rng, draft: &mut Draft, bytes: usize) {
    let grows = |draft: &Draft| {
        matches!(
            draft.kind,
            Kind::Leaf(scalar::STR | scalar::BYTES | scalar::JSON) | Kind::Enumeration
        )
    };
    let missing = bytes.saturating_sub(draft.lay().bytes.len());
    let count = draft.count(&grows);
    if count > 0 {
        let before = rng.below(count);
        if let Some(leaf) = draft.get(&grows, before) {
            leaf.head.extend(text::letters(missing));
        }
    }
}
