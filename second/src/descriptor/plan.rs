//! The plan of a descriptor's blocks: R4.1, R4.2, R4.7, R4.8.

use super::block::{Block, Body};

/// How many words there are, where the root's node starts, and the nodes of the blocks that have
/// values, in their order (R4.7).
pub fn words(blocks: &[Block], root: usize) -> Vec<u32> {
    let mut plan = Plan {
        words: vec![0, 0],
        starts: Vec::with_capacity(blocks.len()),
    };
    for block in blocks {
        plan.starts.push(plan.words.len() as u32);
        plan.add(block, blocks);
    }
    plan.words[0] = plan.words.len() as u32;
    plan.words[1] = plan.starts[root];
    plan.words
}

struct Plan {
    words: Vec<u32>,
    /// Where the node of each block starts. Nothing refers to blocks without one.
    starts: Vec<u32>,
}

impl Plan {
    fn add(&mut self, block: &Block, blocks: &[Block]) {
        match &block.body {
            Body::Scalar { format, .. } => self.words.extend([1, *format as u32]),
            // R4.8: a set whose element is an array block has a kind of its own.
            Body::Set { element } if blocks[usize::from(*element)].body.is_array() => {
                self.over(3, *element)
            }
            Body::Set { element } | Body::Array { element, .. } => self.over(2, *element),
            Body::Tuple { elements, .. } => self.tuple(elements.iter().copied()),
            Body::NamedTuple { elements, .. } => {
                self.tuple(elements.iter().map(|element| element.block))
            }
            Body::Output { elements, .. } => self.object(
                5,
                elements
                    .iter()
                    .map(|element| (element.block, element.cardinality)),
            ),
            Body::Input { elements } => self.object(
                6,
                elements
                    .iter()
                    .map(|element| (element.block, element.cardinality)),
            ),
            Body::Range { bound, .. } => self.over(7, *bound),
            Body::Enumeration { .. } => self.words.push(8),
            Body::Object { .. } | Body::Compound { .. } | Body::Record { .. } => {}
        }
    }

    fn start(&self, index: u16) -> u32 {
        self.starts[usize::from(index)]
    }

    /// A set or array, a set of arrays, or a range: its kind and one ref (R4.2).
    fn over(&mut self, kind: u32, element: u16) {
        let start = self.start(element);
        self.words.extend([kind, start]);
    }

    /// A tuple: 4, how many elements it has, and their refs (R4.2).
    fn tuple(&mut self, elements: impl ExactSizeIterator<Item = u16>) {
        self.words.extend([4, elements.len() as u32]);
        for element in elements {
            self.words.push(self.start(element));
        }
    }

    /// An object: 5 or 6, how many elements it has, and the ref and cardinality of each (R4.2).
    fn object(&mut self, kind: u32, elements: impl ExactSizeIterator<Item = (u16, u8)>) {
        self.words.extend([kind, elements.len() as u32]);
        for (element, cardinality) in elements {
            let start = self.start(element);
            self.words.extend([start, u32::from(cardinality)]);
        }
    }
}
