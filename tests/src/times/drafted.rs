//! Values with local times made at random: of each kind of container, of all kinds one in another,
//! among other formats of eight bytes, as deep as can be, and of many.

use super::timed::Template;
use crate::rng::Rng;
use crate::value::drafting::{self, Size};
use crate::value::plan::{PlanDraft, Shape, CARDINALITIES};
use crate::value::scalar::{FREE, LOCAL_TIME};

/// So many values of each plan, with as many elements in its first set.
const COUNTS: [usize; 8] = [1, 2, 3, 4, 5, 6, 7, 8];
/// Local times of a long set.
const MANY: usize = 600;
/// The containers about the deepest scalar (R1.4).
const DEEPEST: usize = 31;

pub fn templates() -> Vec<Template> {
    let plans = [flat(), vec![nested(), among_free(), deep()]].concat();
    let mut templates: Vec<Template> = plans
        .iter()
        .flat_map(|plan| COUNTS.map(|count| template(plan, count)))
        .collect();
    templates.push(template(&over_time(&[Shape::Set(0)]), MANY));
    templates
}

/// A value of the plan: of an odd count one with all fields, of an even one with some left out.
fn template(plan: &PlanDraft, count: usize) -> Template {
    let size = Size {
        spare: 1_000 + 12 * count,
        many: Some(count),
        full: count % 2 == 1,
    };
    let laid = drafting::make(&mut Rng::new(count as u64), plan, size).lay();
    Template {
        draft: plan.clone(),
        plan: plan.words(),
        value: laid.bytes,
        words: laid.words,
    }
}

/// A plan of a local_time, which is number 0, and these, of which the last is the root.
pub fn over_time(shapes: &[Shape]) -> PlanDraft {
    let mut plan = PlanDraft::default();
    plan.add(Shape::Leaf(LOCAL_TIME));
    for shape in shapes {
        plan.root = plan.add(shape.clone());
    }
    plan
}

/// The node of this number with each cardinality.
fn fields(number: usize) -> Vec<(usize, u32)> {
    CARDINALITIES
        .map(|cardinality| (number, cardinality))
        .to_vec()
}

/// A container of local times.
fn flat() -> Vec<PlanDraft> {
    [
        &[Shape::Set(0)][..],
        &[Shape::Set(0), Shape::SetOfArrays(1)],
        &[Shape::Tuple(vec![0; 4])],
        &[Shape::Output(fields(0))],
        &[Shape::Input(fields(0))],
        &[Shape::Range(0)],
    ]
    .map(over_time)
    .to_vec()
}

/// All kinds in each other.
fn nested() -> PlanDraft {
    let (array, arrays, range, tuple, object, objects) = (1, 2, 3, 4, 5, 6);
    over_time(&[
        Shape::Set(0),
        Shape::SetOfArrays(array),
        Shape::Range(0),
        Shape::Tuple(vec![0, array, range]),
        Shape::Output([fields(tuple), fields(0)].concat()),
        Shape::Set(object),
        Shape::Input([fields(objects), fields(0), fields(arrays)].concat()),
    ])
}

/// Before, between and behind formats of eight bytes that may hold anything.
fn among_free() -> PlanDraft {
    let mut shapes: Vec<Shape> = FREE.map(Shape::Leaf).to_vec();
    shapes.push(Shape::Tuple(vec![0, 1, 2, 0, 3, 4, 5, 0]));
    over_time(&shapes)
}

/// Under as many containers as there can be.
fn deep() -> PlanDraft {
    let above = |number: usize| match number % 4 {
        0 => Shape::Set(number),
        1 => Shape::Tuple(vec![number]),
        2 => Shape::Output(vec![(number, 0x41)]),
        _ => Shape::Input(vec![(number, 0x4d)]),
    };
    over_time(&(0..DEEPEST).map(above).collect::<Vec<_>>())
}
