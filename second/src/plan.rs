//! Plans: R4.1 to R4.6.

use crate::scalar::Format;

/// The most nodes, as many as a descriptor may have blocks (R1.4).
const MOST_NODES: usize = 1_024;
/// The most elements of a node (R1.4).
const MOST_ELEMENTS: u32 = 512;
/// The greatest height of a node (R1.4, R4.5).
const MOST_HEIGHT: u32 = 32;
/// Where the first node starts: after the number of words and that of the root's node (R4.1).
const FIRST_NODE: usize = 2;

/// A well-formed plan.
#[derive(Clone, Debug, PartialEq, Eq)]
pub enum Plan {
    /// The words 2 and 0, a plan without a node (R4.6).
    NoType,
    Typed(Tree),
}

/// The nodes of a plan that has some, and which of them is the root.
#[derive(Clone, Debug, PartialEq, Eq)]
pub struct Tree {
    root: u32,
    /// By the position of their first word; `None` where no node starts.
    nodes: Vec<Option<Placed>>,
}

/// A node that obeys all rules, with its height.
#[derive(Clone, Debug, PartialEq, Eq)]
struct Placed {
    node: Node,
    height: u32,
}

/// A node. A reference is the position of another node's first word.
#[derive(Clone, Debug, PartialEq, Eq)]
pub enum Node {
    Leaf(Format),
    /// A set or an array.
    Set(u32),
    SetOfArrays(u32),
    Tuple(Vec<u32>),
    Output(Vec<Element>),
    Input(Vec<Element>),
    Range(u32),
    Enumeration,
}

/// An element of an output or input object.
#[derive(Clone, Copy, Debug, PartialEq, Eq)]
pub struct Element {
    pub node: u32,
    pub cardinality: u32,
}

impl Element {
    /// None, at most one, one, many, at least one (R2.10).
    fn is_permitted(&self) -> bool {
        [0x6e, 0x6f, 0x41, 0x6d, 0x4d].contains(&self.cardinality)
    }

    /// One, or at least one (R5.11).
    pub fn is_required(&self) -> bool {
        [0x41, 0x4d].contains(&self.cardinality)
    }
}

impl Plan {
    /// The plan of these words, or `None` where it is not well formed (refusal 33). All nodes are
    /// judged, also those that the root does not reach (R4.4).
    pub fn read(words: &[u32]) -> Option<Plan> {
        if words == [2, 0] {
            return Some(Plan::NoType);
        }
        let (&[total, root], _) = words.split_first_chunk()?;
        // R4.4: word 0 is the number of words.
        if usize::try_from(total).ok()? != words.len() {
            return None;
        }
        let tree = Tree::read(words, root)?;
        // R4.4: word 1 is the number of a node.
        tree.get(root)?;
        Some(Plan::Typed(tree))
    }
}

impl Tree {
    /// The nodes, which follow each other from word 2 to the end (R4.4).
    fn read(words: &[u32], root: u32) -> Option<Tree> {
        let nodes = vec![None; words.len()];
        let mut tree = Tree { root, nodes };
        let mut rest = Words(&words[FIRST_NODE..]);
        let mut count = 0;
        while !rest.0.is_empty() {
            let start = words.len() - rest.0.len();
            let node = rest.node()?;
            let height = tree.height(&node)?;
            tree.nodes[start] = Some(Placed { node, height });
            count += 1;
        }
        (count <= MOST_NODES).then_some(tree)
    }

    /// The height of a node that comes after all that are in the tree, or `None` where it passes
    /// 32 or a reference is not permitted.
    fn height(&self, node: &Node) -> Option<u32> {
        let mut highest = 0;
        for reference in node.references() {
            // R4.3: a ref is the number of an earlier node.
            let element = self.get(reference)?;
            if !node.admits(&element.node) {
                return None;
            }
            highest = highest.max(element.height);
        }
        (highest < MOST_HEIGHT).then_some(highest + 1)
    }

    fn get(&self, position: u32) -> Option<&Placed> {
        self.nodes.get(position as usize)?.as_ref()
    }

    pub fn root(&self) -> u32 {
        self.root
    }

    /// The node at the root or at some node's reference.
    pub fn node(&self, position: u32) -> &Node {
        let placed = self.get(position);
        &placed.expect("references of a plan were judged").node
    }
}

impl Node {
    fn references(&self) -> Vec<u32> {
        match self {
            Node::Leaf(_) | Node::Enumeration => Vec::new(),
            Node::Set(element) | Node::SetOfArrays(element) | Node::Range(element) => {
                vec![*element]
            }
            Node::Tuple(elements) => elements.clone(),
            Node::Output(elements) | Node::Input(elements) => {
                elements.iter().map(|element| element.node).collect()
            }
        }
    }

    /// To which kinds a ref may lead (R4.3).
    fn admits(&self, element: &Node) -> bool {
        match self {
            Node::Set(_) => !matches!(element, Node::Set(_) | Node::SetOfArrays(_)),
            Node::SetOfArrays(_) => matches!(element, Node::Set(_)),
            Node::Range(_) => matches!(element, Node::Leaf(_)),
            _ => true,
        }
    }
}

/// Words of a plan that have not been read yet.
struct Words<'a>(&'a [u32]);

impl Words<'_> {
    fn word(&mut self) -> Option<u32> {
        let (&word, rest) = self.0.split_first()?;
        self.0 = rest;
        Some(word)
    }

    /// One node: its words are all there, and its format, count and cardinalities obey.
    fn node(&mut self) -> Option<Node> {
        Some(match self.word()? {
            1 => Node::Leaf(Format::numbered(self.word()?)?),
            2 => Node::Set(self.word()?),
            3 => Node::SetOfArrays(self.word()?),
            4 => Node::Tuple(self.items(Words::word)?),
            5 => Node::Output(self.items(Words::element)?),
            6 => Node::Input(self.items(Words::element)?),
            7 => Node::Range(self.word()?),
            8 => Node::Enumeration,
            _ => return None,
        })
    }

    /// A count and as many items.
    fn items<T>(&mut self, item: impl Fn(&mut Self) -> Option<T>) -> Option<Vec<T>> {
        let count = self.word()?;
        if count > MOST_ELEMENTS {
            return None;
        }
        (0..count).map(|_| item(self)).collect()
    }

    /// Its ref and its cardinality.
    fn element(&mut self) -> Option<Element> {
        let (node, cardinality) = (self.word()?, self.word()?);
        let element = Element { node, cardinality };
        element.is_permitted().then_some(element)
    }
}
