//! Makes a descriptor whose plan is a given one: a block for each node, and others between them.

use super::draft::{BlockDraft, DescriptorDraft, Field, Kind, Role, Wanted};
use super::naming::Naming;
use crate::rng::Rng;
use crate::value::plan::{Node, PlanDraft, Shape};

/// A plan of more nodes or words than these is clothed in short blocks only, so that the descriptor
/// is small enough and has a block for each node and no other.
const PLAIN_NODES: usize = 500;
const PLAIN_WORDS: usize = 3_000;

/// A descriptor that has this plan, if the plan is well formed; else one that passes the same size.
pub fn make(rng: &mut Rng, plan: &PlanDraft) -> DescriptorDraft {
    let rich = plan.nodes.len() < PLAIN_NODES && plan.length() < PLAIN_WORDS;
    let mut clothing = Clothing {
        naming: Naming::new(rng, plan, rich),
        arrays: arrays(rng, plan),
        rng,
        rich,
        blocks: Vec::new(),
        kinds: Vec::new(),
        known: [None; 20],
        indexes: Vec::new(),
    };
    for (number, node) in plan.nodes.iter().enumerate() {
        clothing.between();
        clothing.node(number, node);
    }
    if !plan.nodes.is_empty() {
        clothing.between();
    }
    let root = clothing.indexes.get(plan.root).copied();
    let mut draft = DescriptorDraft {
        blocks: clothing.blocks,
        root: vec![0; 16],
    };
    if let Some(root) = root {
        let block = draft.indexed()[usize::from(root)];
        draft.root = draft.blocks[block].id().into_iter().flatten().collect();
    }
    draft
}

/// Which nodes are arrays: all that a set of arrays has for its element, and others at random.
fn arrays(rng: &mut Rng, plan: &PlanDraft) -> Vec<bool> {
    let mut arrays: Vec<bool> = plan.nodes.iter().map(|_| rng.once_in(2)).collect();
    for node in &plan.nodes {
        if let Shape::SetOfArrays(array) = node.shape {
            arrays[array] = true;
        }
    }
    arrays
}

pub struct Clothing<'a> {
    pub rng: &'a mut Rng,
    naming: Naming,
    pub rich: bool,
    arrays: Vec<bool>,
    blocks: Vec<BlockDraft>,
    /// The kinds of the blocks that have an index, by that index.
    kinds: Vec<Kind>,
    /// The index of the scalar of each known id.
    known: [Option<u16>; 20],
    /// The index of each node's block.
    indexes: Vec<u16>,
}

impl Clothing<'_> {
    fn node(&mut self, number: usize, node: &Node) {
        let index = match &node.shape {
            Shape::Leaf(format) => self.scalar(*format),
            Shape::Enumeration => self.enumeration(),
            Shape::Set(element) if self.arrays[number] => self.array(*element),
            Shape::Set(element) | Shape::SetOfArrays(element) => self.set(*element),
            Shape::Tuple(elements) if self.rng.once_in(2) => self.named_tuple(elements),
            Shape::Tuple(elements) => self.tuple(elements),
            Shape::Output(elements) => self.output(elements),
            Shape::Input(elements) => self.input(elements),
            Shape::Range(bound) => self.range(*bound),
        };
        self.indexes.push(index);
    }

    /// Adds a block and gives the index that it has or would have.
    pub fn add(&mut self, kind: Kind, tag: u32, fields: Vec<Field>) -> u16 {
        let index = self.kinds.len() as u16;
        let mut all = vec![Field::number(Role::Tag, 1, tag)];
        if kind.has_index() {
            self.kinds.push(kind);
        }
        all.extend(fields);
        self.blocks.push(BlockDraft { kind, fields: all });
        index
    }

    /// An id that is of no known scalar, unless no scalar of the plan has it.
    pub fn id(&mut self, scalar: bool) -> Field {
        self.naming.id(self.rng, scalar)
    }

    pub fn text(&mut self) -> Field {
        self.naming.text(self.rng)
    }

    pub fn bool(&mut self) -> Field {
        Field::number(Role::Bool, 1, self.rng.below(2) as u32)
    }

    /// The index of some block that may be referred to so, if there is one.
    pub fn some(&mut self, role: Role) -> Option<u16> {
        let fits = |index: &u16| self.kinds[usize::from(*index)].fits(role);
        let fitting: Vec<u16> = (0..self.kinds.len() as u16).filter(fits).collect();
        match fitting.is_empty() {
            true => None,
            false => Some(self.rng.pick(&fitting)),
        }
    }

    /// Name, whether the schema has it, and some ancestors of any kind before the last of them.
    fn schema(&mut self, last: Option<u16>) -> Vec<Field> {
        let before = match self.kinds.is_empty() || !self.rich {
            true => 0,
            false => self.rng.pick(&[0, 0, 0, 1, 2, 5]),
        };
        let count = before + u32::from(last.is_some());
        let mut fields = vec![self.text(), self.bool(), Field::count(count as usize)];
        for _ in 0..before {
            let index = self.rng.below(self.kinds.len()) as u32;
            fields.push(Field::number(Role::Earlier, 2, index));
        }
        fields.extend(last.map(|index| Field::reference(Role::Parent, index)));
        fields
    }

    /// The first scalar of a format has its known id, others have it for their last ancestor.
    fn scalar(&mut self, format: u32) -> u16 {
        let known = self.known[format as usize];
        let (kind, id) = match known {
            None => (Kind::Known, Naming::known_id(format)),
            Some(_) => (Kind::Derived, self.id(true)),
        };
        let mut fields = vec![id];
        fields.extend(self.schema(known));
        let index = self.add(kind, 3, fields);
        self.known[format as usize].get_or_insert(index);
        index
    }

    fn element(&self, wanted: Wanted, number: usize) -> Field {
        Field::reference(Role::Element(wanted), self.indexes[number])
    }

    fn set(&mut self, element: usize) -> u16 {
        let fields = vec![self.id(false), self.element(Wanted::OfSet, element)];
        self.add(Kind::Set, 0, fields)
    }

    /// One dimension, of which the bound is -1 (R3.6).
    fn array(&mut self, element: usize) -> u16 {
        let mut fields = vec![self.id(false)];
        fields.extend(self.schema(None));
        fields.push(self.element(Wanted::OfArray, element));
        fields.push(Field::number(Role::DimensionCount, 2, 1));
        fields.push(Field::number(Role::Dimension, 4, 0xffff_ffff));
        self.add(Kind::Array, 6, fields)
    }

    fn range(&mut self, bound: usize) -> u16 {
        let mut fields = vec![self.id(false)];
        fields.extend(self.schema(None));
        fields.push(self.element(Wanted::OfRange, bound));
        self.add(Kind::Other, 9, fields)
    }

    fn tuple(&mut self, elements: &[usize]) -> u16 {
        let mut fields = vec![self.id(false)];
        fields.extend(self.schema(None));
        fields.push(Field::count(elements.len()));
        fields.extend(
            elements
                .iter()
                .map(|&number| self.element(Wanted::Any, number)),
        );
        self.add(Kind::Other, 4, fields)
    }

    fn named_tuple(&mut self, elements: &[usize]) -> u16 {
        let mut fields = vec![self.id(false)];
        fields.extend(self.schema(None));
        fields.push(Field::count(elements.len()));
        let names = self.naming.names(self.rng, elements.len());
        for (&number, name) in elements.iter().zip(names) {
            fields.extend([name, self.element(Wanted::Any, number)]);
        }
        self.add(Kind::Other, 5, fields)
    }

    /// Members may be twice.
    fn enumeration(&mut self) -> u16 {
        let mut fields = vec![self.id(false)];
        fields.extend(self.schema(None));
        let members = match self.rich {
            true => self.rng.pick(&[0, 1, 2, 5]),
            false => 0,
        };
        fields.push(Field::count(members));
        fields.extend((0..members).map(|_| self.text()));
        self.add(Kind::Other, 7, fields)
    }

    /// A shape of an object type, or a free one.
    fn output(&mut self, elements: &[(usize, u32)]) -> u16 {
        let mut has_type = self.some(Role::ObjectType).is_some();
        if !has_type && self.rich && self.rng.once_in(2) {
            self.object();
            has_type = true;
        }
        let free = !has_type || self.rng.once_in(4);
        let mut fields = vec![
            self.id(false),
            Field::number(Role::Bool, 1, u32::from(free)),
            self.object_type(free),
            Field::count(elements.len()),
        ];
        for &(number, cardinality) in elements {
            let flags = self.rng.below(8) as u32;
            fields.extend([
                Field::number(Role::Flags, 4, flags),
                Field::number(Role::Cardinality, 1, cardinality),
                self.text(),
                self.element(Wanted::Any, number),
                self.object_type(free),
            ]);
        }
        self.add(Kind::Other, 1, fields)
    }

    /// In a free shape it may hold anything (R3.12).
    fn object_type(&mut self, free: bool) -> Field {
        match self.some(Role::ObjectType) {
            Some(index) if !free => Field::reference(Role::ObjectType, index),
            _ => Field::number(Role::Free, 2, self.rng.word() & self.rng.pick(&[0, 0xffff])),
        }
    }

    fn input(&mut self, elements: &[(usize, u32)]) -> u16 {
        let mut fields = vec![self.id(false), Field::count(elements.len())];
        let names = self.naming.names(self.rng, elements.len());
        for (&(number, cardinality), name) in elements.iter().zip(names) {
            fields.extend([
                Field::number(Role::InputFlags, 4, 0),
                Field::number(Role::Cardinality, 1, cardinality),
                name,
                self.element(Wanted::Any, number),
            ]);
        }
        self.add(Kind::Other, 8, fields)
    }
}
