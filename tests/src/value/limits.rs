//! Cases at and past each largest size of R1.4.

use super::case::RunCall;
use super::drafting::{self, Size};
use super::fixed::Cases;
use super::plan::{PlanDraft, Shape};
use super::planning;
use super::scalar::{BOOL, BYTES, INT64, STR};
use crate::crossed::list;
use crate::expected::Expected;
use crate::rng::Rng;

pub fn add(cases: &mut Cases) {
    heights(cases);
    nodes(cases);
    counts(cases);
    plan_words(cases);
    plan_bytes(cases);
    value_bytes(cases);
    list_words(cases);
    many_elements(cases);
}

/// The plan with a good value of its root.
fn with_value(cases: &mut Cases, plan: &PlanDraft, good: bool) {
    let mut rng = Rng::new(plan.length() as u64);
    let size = Size {
        spare: 3_000,
        many: None,
        full: true,
    };
    let laid = drafting::make(&mut rng, plan, size).lay();
    if good {
        cases.good(&plan.words(), &laid.bytes, &laid.words);
    } else {
        cases.bad(&plan.words(), &laid.bytes, 33, 0);
    }
}

/// Chains of each kind of container, and plans whose high nodes the root does not reach.
fn heights(cases: &mut Cases) {
    let above: [fn(usize) -> Shape; 3] = [
        |number| Shape::Tuple(vec![number]),
        |number| Shape::Output(vec![(number, 0x41)]),
        |number| Shape::Input(vec![(number, 0x4d), (number, 0x6e)]),
    ];
    for above in above {
        for height in [31, 32, 33] {
            let mut plan = chain(Shape::Leaf(INT64), height, above);
            with_value(cases, &plan, height <= 32);
            plan.root = 0;
            with_value(cases, &plan, height <= 32);
            // A set of height 33 where an empty tuple, not a leaf, is at the bottom.
            let mut plan = chain(Shape::Tuple(Vec::new()), height - 1, above);
            plan.root = plan.add(Shape::Set(height - 2));
            with_value(cases, &plan, height <= 32);
        }
    }
    for height in [32, 33] {
        // A set of arrays on top is two higher than the array's element.
        let mut plan = chain(Shape::Leaf(STR), height - 2, above[0]);
        let array = plan.add(Shape::Set(height - 3));
        plan.root = plan.add(Shape::SetOfArrays(array));
        with_value(cases, &plan, height <= 32);
    }
}

fn chain(bottom: Shape, height: usize, above: fn(usize) -> Shape) -> PlanDraft {
    let mut plan = PlanDraft::default();
    plan.root = plan.add(bottom);
    while plan.nodes.len() < height {
        plan.root = plan.add(above(plan.root));
    }
    plan
}

fn nodes(cases: &mut Cases) {
    for count in [1_023, 1_024, 1_025, 4_000] {
        let mut plan = PlanDraft::default();
        for _ in 0..count {
            plan.add(Shape::Enumeration);
        }
        for root in [0, count - 1] {
            plan.root = root;
            with_value(cases, &plan, count <= 1_024);
        }
        let mut rng = Rng::new(count as u64);
        let plan = planning::make_many(&mut rng, count.min(1_025));
        with_value(cases, &plan, count <= 1_024);
    }
}

fn counts(cases: &mut Cases) {
    for count in [511, 512, 513] {
        let pairs = |cardinality| vec![(0, cardinality); count];
        for shape in [
            Shape::Tuple(vec![0; count]),
            Shape::Output(pairs(0x41)),
            Shape::Output(pairs(0x6f)),
            Shape::Input(pairs(0x4d)),
            Shape::Input(pairs(0x6d)),
        ] {
            let mut plan = PlanDraft::default();
            plan.add(Shape::Leaf(BOOL));
            plan.root = plan.add(shape);
            with_value(cases, &plan, count <= 512);
            plan.root = 0;
            with_value(cases, &plan, count <= 512);
        }
    }
}

fn plan_words(cases: &mut Cases) {
    for words in [8_190, 8_191, 8_192, 8_193, 8_194, 9_000] {
        let mut rng = Rng::new(words as u64);
        let plan = planning::make_long(&mut rng, words);
        assert_eq!(plan.words().len(), words, "a plan of so many words");
        with_value(cases, &plan, words <= 8_192);
    }
}

/// Bytes left over, with few words and with many.
fn plan_bytes(cases: &mut Cases) {
    let mut push = |plan: &[u8], value: &[u8]| {
        let call = RunCall {
            plan: plan.to_vec(),
            value: value.to_vec(),
            room: 400,
        };
        cases.at_edges(call, Expected::Refused(33, 0));
    };
    let enumeration = list(&[3, 2, 8]);
    for length in [1, 2, 3, 5, 7, 11] {
        push(&enumeration[..length], &[]);
    }
    push(&[&enumeration[..], &[0]].concat(), &[]);
    push(&[&enumeration[..], &[0; 3]].concat(), &[0; 65_536]);
    push(&list(&[2, 0])[..7], &[]);
    push(&[0, 0, 0, 2, 0, 0, 0, 0, 0], &[]);
    let long = planning::make_long(&mut Rng::new(1), 8_192);
    let long = list(&long.words());
    push(&long[..32_767], &[]);
    push(&[&long[..], &[0]].concat(), &[]);
    push(&[&long[..], &[0; 4]].concat(), &[]);
    push(&[0; 200_000], &[]);
}

fn value_bytes(cases: &mut Cases) {
    for length in [65_534_u32, 65_535] {
        let value = vec![b'a'; length as usize];
        for format in [STR, BYTES] {
            cases.good(&[4, 2, 1, format], &value, &[2, 0, 0, length, 0]);
        }
        cases.good(&[3, 2, 8], &value, &[2, 0, 0, length, 0]);
        cases.bad(&[4, 2, 1, INT64], &value, 24, 0);
    }
    for length in [65_536, 65_537, 131_072, 200_000] {
        for plan in [&[4, 2, 1, BYTES][..], &[3, 2, 8], &[2, 0], &[4, 2, 2, 0]] {
            let number = if plan == [4, 2, 2, 0] { 33 } else { 28 };
            cases.bad(plan, &vec![b'a'; length], number, 0);
        }
    }
}

/// A set of so many empty texts and its list.
fn texts(count: u32) -> (Vec<u8>, Vec<u32>) {
    let mut value = list(&[1, 0, 0, count, 1]);
    value.resize(20 + 4 * count as usize, 0);
    let mut words = vec![4, 0, 0, value.len() as u32, count];
    words.extend((0..count).flat_map(|index| [2, index, 24 + 4 * index, 0, 0]));
    (value, words)
}

/// 8,190 words are the most that five an entry can have from C.
fn list_words(cases: &mut Cases) {
    let plan = [6, 4, 1, STR, 2, 2];
    let (value, words) = texts(1_637);
    for room in [32_760, 32_763, 32_764, 32_768, 32_769, 32_780, 150_000] {
        cases.known(&plan, &value, room, Expected::Written(words.clone()));
    }
    for room in [0, 20, 32_740, 32_756, 32_759] {
        cases.known(&plan, &value, room, Expected::Refused(31, 0));
    }
    for count in [1_638, 1_639, 3_000, 16_378] {
        let (mut value, words) = texts(count);
        for room in [0, 32_760, 32_768, 32_780, 4 * words.len().min(60_000)] {
            cases.known(&plan, &value, room, Expected::Refused(31, 0));
        }
        // A fault at the very end comes before 31.
        let end = value.len();
        value.extend([0xff; 3]);
        cases.known(&plan, &value, 150_000, Expected::Refused(21, 0));
        value[end - 1] = 3;
        cases.known(&plan, &value, 150_000, Expected::Refused(24, end as u32));
        value[end - 1] = 4;
        cases.known(&plan, &value, 150_000, Expected::Refused(20, 0));
    }
}

/// The last of many elements has the fault, or the count says more than there are.
fn many_elements(cases: &mut Cases) {
    let plan = [6, 4, 1, STR, 2, 2];
    for upper in [16_378, 16_379, 65_536, 0x7fff_fffe, 0x7fff_ffff] {
        let (mut value, _) = texts(16_377);
        value[12..16].copy_from_slice(&u32::to_be_bytes(upper));
        cases.bad(&plan, &value, 20, 0);
    }
    let sparse = list(&[0x7fff_ffff, 0, 0xffff_ffff]);
    let shape = [8, 4, 1, INT64, 6, 1, 2, 0x6f];
    cases.bad(&shape, &sparse, 20, 0);
}
