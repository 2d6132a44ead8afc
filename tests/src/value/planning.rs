//! Makes well-formed plans.

use super::plan::{Node, PlanDraft, Shape, CARDINALITIES};
use super::scalar::FORMATS;
use crate::rng::Rng;

const MOST_HEIGHT: usize = 32;
const MOST_NODES: usize = 1_024;
const MOST_ELEMENTS: usize = 512;

/// A root's smallest value has at most so many bytes, so that there is place for more.
const LEAST: usize = 4_000;

/// A well-formed plan of ordinary size, or now and then of another.
pub fn make(rng: &mut Rng) -> PlanDraft {
    match rng.below(256) {
        0..8 => PlanDraft::default(),
        8..12 => {
            let count = match rng.below(3) {
                0 => MOST_ELEMENTS,
                1 => rng.between(505, MOST_ELEMENTS),
                _ => rng.between(10, MOST_ELEMENTS),
            };
            make_wide(rng, count)
        }
        12..14 => {
            let nodes = rng.between(40, 400);
            make_any(rng, nodes)
        }
        14..54 => {
            let height = rng.pick(&[3, 5, 8, 12, 20, 30, 31, 32, 32]);
            make_deep(rng, height)
        }
        54..64 => make_any(rng, 1),
        64..128 => {
            let nodes = rng.between(2, 4);
            make_any(rng, nodes)
        }
        _ => {
            let nodes = rng.between(4, 14);
            make_any(rng, nodes)
        }
    }
}

/// One whose root is a set of something, mostly of something small.
pub fn make_set(rng: &mut Rng) -> PlanDraft {
    let mut plan = match rng.below(4) {
        0 => make(rng),
        _ => make_any(rng, 1),
    };
    let root = plan.nodes.get(plan.root);
    let fits = root.is_some_and(|node| is_no_set(node) && node.height < MOST_HEIGHT);
    let element = if fits { plan.root } else { plan.add(leaf(rng)) };
    plan.root = plan.add(Shape::Set(element));
    plan
}

/// One of so many nodes, each of any kind.
fn make_any(rng: &mut Rng, nodes: usize) -> PlanDraft {
    let mut plan = PlanDraft::default();
    while plan.nodes.len() < nodes {
        let shape = shape(rng, &plan);
        plan.add(shape);
    }
    choose_root(rng, &mut plan);
    plan
}

/// One whose root is the last node that is small enough, the highest such, or any such.
fn choose_root(rng: &mut Rng, plan: &mut PlanDraft) {
    let small = |number: &usize| plan.nodes[*number].least <= LEAST;
    let numbers: Vec<usize> = (0..plan.nodes.len()).filter(small).collect();
    let highest = numbers
        .iter()
        .copied()
        .max_by_key(|&number| plan.nodes[number].height);
    plan.root = match rng.below(8) {
        0..4 => *numbers.last().expect("the first node has no elements"),
        4..7 => highest.expect("the first node has no elements"),
        _ => rng.pick(&numbers),
    };
}

/// A node of any kind whose elements are earlier ones.
fn shape(rng: &mut Rng, plan: &PlanDraft) -> Shape {
    match rng.below(16) {
        0..3 => set(rng, plan),
        3 | 4 => set_of_arrays(rng, plan),
        5 | 6 => {
            let count = few(rng);
            Shape::Tuple(references(rng, plan, count))
        }
        7 | 8 => {
            let count = few(rng);
            Shape::Output(pairs(rng, plan, count))
        }
        9..12 => {
            let count = few(rng);
            Shape::Input(pairs(rng, plan, count))
        }
        12 => range(rng, plan),
        13 => Shape::Enumeration,
        _ => leaf(rng),
    }
}

fn leaf(rng: &mut Rng) -> Shape {
    Shape::Leaf(rng.below(FORMATS as usize) as u32)
}

fn few(rng: &mut Rng) -> usize {
    rng.pick(&[0, 1, 1, 2, 2, 3, 3, 4, 6, 9])
}

/// A node that is as asked, one of the latest more often than another.
fn earlier(rng: &mut Rng, plan: &PlanDraft, asked: impl Fn(&Node) -> bool) -> Option<usize> {
    let fits =
        |number: &usize| plan.nodes[*number].height < MOST_HEIGHT && asked(&plan.nodes[*number]);
    let fitting: Vec<usize> = (0..plan.nodes.len()).filter(fits).collect();
    let late = fitting.len().saturating_sub(3);
    match fitting.len() {
        0 => None,
        _ if rng.once_in(2) => Some(rng.pick(&fitting[late..])),
        _ => Some(rng.pick(&fitting)),
    }
}

fn set(rng: &mut Rng, plan: &PlanDraft) -> Shape {
    earlier(rng, plan, is_no_set).map_or_else(|| leaf(rng), Shape::Set)
}

fn is_no_set(node: &Node) -> bool {
    !matches!(node.shape, Shape::Set(_) | Shape::SetOfArrays(_))
}

fn set_of_arrays(rng: &mut Rng, plan: &PlanDraft) -> Shape {
    let array = |node: &Node| matches!(node.shape, Shape::Set(_));
    match earlier(rng, plan, array) {
        Some(number) => Shape::SetOfArrays(number),
        None => set(rng, plan),
    }
}

fn range(rng: &mut Rng, plan: &PlanDraft) -> Shape {
    let scalar = |node: &Node| matches!(node.shape, Shape::Leaf(_));
    earlier(rng, plan, scalar).map_or_else(|| leaf(rng), Shape::Range)
}

fn references(rng: &mut Rng, plan: &PlanDraft, count: usize) -> Vec<usize> {
    (0..count)
        .filter_map(|_| earlier(rng, plan, |_| true))
        .collect()
}

fn pairs(rng: &mut Rng, plan: &PlanDraft, count: usize) -> Vec<(usize, u32)> {
    references(rng, plan, count)
        .into_iter()
        .map(|number| (number, rng.pick(&CARDINALITIES)))
        .collect()
}

/// One whose root has so many elements, all of them leaves: over 512 are not well formed.
pub fn make_wide(rng: &mut Rng, count: usize) -> PlanDraft {
    let mut plan = PlanDraft::default();
    for _ in 0..rng.between(1, 6) {
        let leaf = leaf(rng);
        plan.add(leaf);
    }
    let shape = match rng.below(4) {
        0 => Shape::Tuple(references(rng, &plan, count)),
        1 => Shape::Output(pairs(rng, &plan, count)),
        _ => Shape::Input(pairs(rng, &plan, count)),
    };
    plan.root = plan.add(shape);
    plan
}

/// One whose root has this height: 33 makes it one that is not well formed.
pub fn make_deep(rng: &mut Rng, height: usize) -> PlanDraft {
    let mut plan = PlanDraft::default();
    let leaf = leaf(rng);
    plan.add(leaf);
    let mut last = 0;
    while plan.nodes[last].height < height {
        let shape = above(rng, &plan, last);
        last = plan.add(shape);
    }
    plan.root = last;
    plan
}

/// A container with this node among its elements.
fn above(rng: &mut Rng, plan: &PlanDraft, number: usize) -> Shape {
    let cardinality = rng.pick(&[0x41, 0x4d, 0x41, 0x4d, 0x6f]);
    let pairs = vec![(number, cardinality), (0, rng.pick(&CARDINALITIES))];
    match (rng.below(8), &plan.nodes[number].shape) {
        (0..4, Shape::Set(_)) => Shape::SetOfArrays(number),
        (0 | 1, _) => Shape::Output(pairs),
        (2 | 3, _) => Shape::Input(pairs),
        (4, _) | (_, Shape::Set(_) | Shape::SetOfArrays(_)) => Shape::Tuple(vec![0, number]),
        _ => Shape::Set(number),
    }
}

/// One of exactly so many nodes: over 1,024 are not well formed.
pub fn make_many(rng: &mut Rng, nodes: usize) -> PlanDraft {
    let mut plan = PlanDraft::default();
    while plan.nodes.len() < nodes {
        let last = plan.nodes.len().saturating_sub(1);
        let shape = match rng.below(4) {
            0 if last > 0 => Shape::Output(vec![(0, rng.pick(&CARDINALITIES))]),
            1 if last > 0 => Shape::Tuple(vec![0, 0]),
            2 => Shape::Enumeration,
            _ => leaf(rng),
        };
        plan.add(shape);
    }
    plan.root = rng.below(nodes);
    plan
}

/// One of exactly so many words, which are at least 1,000: over 8,192 cannot cross.
pub fn make_long(rng: &mut Rng, words: usize) -> PlanDraft {
    let mut plan = PlanDraft::default();
    plan.add(Shape::Enumeration);
    while plan.length() < words {
        let missing = words - plan.length();
        let shape = match missing {
            1 => Shape::Enumeration,
            _ => Shape::Tuple(vec![0; (missing - 2).min(rng.between(300, MOST_ELEMENTS))]),
        };
        plan.add(shape);
    }
    plan.root = rng.below(plan.nodes.len().min(MOST_NODES));
    plan
}
