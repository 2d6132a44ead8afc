//! A plan as it is made: nodes that refer to each other by number. Nothing is judged here, so that
//! plans which are not well formed can be made too.

use super::scalar;

/// The cardinalities none, at most one, one, many, and at least one.
pub const CARDINALITIES: [u32; 5] = [0x6e, 0x6f, 0x41, 0x6d, 0x4d];

/// One, and at least one (R5.11).
pub fn is_required(cardinality: u32) -> bool {
    cardinality == 0x41 || cardinality == 0x4d
}

#[derive(Clone, Debug, Default)]
pub struct PlanDraft {
    pub nodes: Vec<Node>,
    /// The number of the root; without nodes the plan is "no type".
    pub root: usize,
}

#[derive(Clone, Debug)]
pub struct Node {
    pub shape: Shape,
    /// The position of its first word.
    pub start: u32,
    pub height: usize,
    /// The bytes of its smallest value.
    pub least: usize,
}

/// What a node says. References are numbers of nodes.
#[derive(Clone, Debug)]
pub enum Shape {
    Leaf(u32),
    /// A set or an array.
    Set(usize),
    SetOfArrays(usize),
    Tuple(Vec<usize>),
    /// References and cardinalities.
    Output(Vec<(usize, u32)>),
    Input(Vec<(usize, u32)>),
    Range(usize),
    Enumeration,
}

/// What a word of a plan stands for.
#[derive(Clone, Copy, Debug, PartialEq, Eq)]
pub enum Role {
    Total,
    Root,
    Kind,
    Format,
    Count,
    Reference,
    Cardinality,
}

impl PlanDraft {
    /// Adds a node and gives its number.
    pub fn add(&mut self, shape: Shape) -> usize {
        let start = self.nodes.last().map_or(2, Node::end);
        let heights = shape.references().map(|number| self.nodes[number].height);
        let height = 1 + heights.max().unwrap_or(0);
        let least = self.least(&shape);
        self.nodes.push(Node {
            shape,
            start,
            height,
            least,
        });
        self.nodes.len() - 1
    }

    fn least(&self, shape: &Shape) -> usize {
        let element = |number: usize| 8_usize.saturating_add(self.nodes[number].least);
        let sum = |sizes: &mut dyn Iterator<Item = usize>| sizes.fold(4, usize::saturating_add);
        match shape {
            Shape::Leaf(format) => scalar::least(*format),
            Shape::Enumeration => 0,
            Shape::Set(_) | Shape::SetOfArrays(_) => 12,
            Shape::Range(_) => 1,
            Shape::Tuple(elements) => sum(&mut elements.iter().map(|&number| element(number))),
            Shape::Output(elements) => sum(&mut elements.iter().map(|&(number, cardinality)| {
                if is_required(cardinality) {
                    element(number)
                } else {
                    8
                }
            })),
            Shape::Input(elements) => sum(&mut elements
                .iter()
                .filter(|(_, cardinality)| is_required(*cardinality))
                .map(|&(number, _)| element(number))),
        }
    }

    /// How many words the plan has.
    pub fn length(&self) -> usize {
        self.nodes.last().map_or(2, Node::end) as usize
    }

    pub fn words(&self) -> Vec<u32> {
        let root = self.nodes.get(self.root).map_or(0, |node| node.start);
        let mut words = vec![self.length() as u32, root];
        for node in &self.nodes {
            words.extend(self.node_words(&node.shape));
        }
        words
    }

    fn node_words(&self, shape: &Shape) -> Vec<u32> {
        let start = |number: usize| self.nodes[number].start;
        let pairs = |kind: u32, elements: &[(usize, u32)]| {
            let pair = |&(number, cardinality): &(usize, u32)| [start(number), cardinality];
            let mut words = vec![kind, elements.len() as u32];
            words.extend(elements.iter().flat_map(pair));
            words
        };
        match shape {
            Shape::Leaf(format) => vec![1, *format],
            Shape::Set(element) => vec![2, start(*element)],
            Shape::SetOfArrays(array) => vec![3, start(*array)],
            Shape::Tuple(elements) => {
                let mut words = vec![4, elements.len() as u32];
                words.extend(elements.iter().map(|&number| start(number)));
                words
            }
            Shape::Output(elements) => pairs(5, elements),
            Shape::Input(elements) => pairs(6, elements),
            Shape::Range(bound) => vec![7, start(*bound)],
            Shape::Enumeration => vec![8],
        }
    }

    /// What each word stands for.
    pub fn roles(&self) -> Vec<Role> {
        let mut roles = vec![Role::Total, Role::Root];
        for node in &self.nodes {
            roles.push(Role::Kind);
            match &node.shape {
                Shape::Leaf(_) => roles.push(Role::Format),
                Shape::Set(_) | Shape::SetOfArrays(_) | Shape::Range(_) => {
                    roles.push(Role::Reference);
                }
                Shape::Tuple(elements) => {
                    roles.push(Role::Count);
                    roles.extend(elements.iter().map(|_| Role::Reference));
                }
                Shape::Output(elements) | Shape::Input(elements) => {
                    roles.push(Role::Count);
                    let pair = [Role::Reference, Role::Cardinality];
                    roles.extend(elements.iter().flat_map(|_| pair));
                }
                Shape::Enumeration => {}
            }
        }
        roles
    }
}

impl Node {
    /// The position just past its last word.
    fn end(&self) -> u32 {
        let words = match &self.shape {
            Shape::Enumeration => 1,
            Shape::Leaf(_) | Shape::Set(_) | Shape::SetOfArrays(_) | Shape::Range(_) => 2,
            Shape::Tuple(elements) => 2 + elements.len(),
            Shape::Output(elements) | Shape::Input(elements) => 2 + 2 * elements.len(),
        };
        self.start + words as u32
    }
}

impl Shape {
    fn references(&self) -> Box<dyn Iterator<Item = usize> + '_> {
        match self {
            Shape::Leaf(_) | Shape::Enumeration => Box::new([].into_iter()),
            Shape::Set(number) | Shape::SetOfArrays(number) | Shape::Range(number) => {
                Box::new([*number].into_iter())
            }
            Shape::Tuple(elements) => Box::new(elements.iter().copied()),
            Shape::Output(elements) | Shape::Input(elements) => {
                Box::new(elements.iter().map(|(number, _)| *number))
            }
        }
    }
}
