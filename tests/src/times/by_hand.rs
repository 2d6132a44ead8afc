//! Values with local times in each kind of container, their plans and their lists, worked out by
//! hand. The node of the local times is the one at 2.

use super::drafted::over_time;
use super::timed::Template;
use crate::crossed::hex;
use crate::value::plan::Shape;
use crate::value::scalar::INT64;

/// The last microsecond of a day, and the tenth after midnight.
const LAST: &str = "000000141dd75fff";
const TENTH: &str = "000000000000000a";
/// Ten minutes past noon, as in the protocol's description.
const TEN_PAST: &str = "0000000a32aef600";

/// The head of a set or array of two and of three.
const TWO: &str = "00000001 0000000000000000 00000002 00000001";
const THREE: &str = "00000001 0000000000000000 00000003 00000001";

pub fn templates() -> Vec<Template> {
    let mut templates = vec![alone(), set(), arrays()];
    templates.extend(objects());
    templates.extend(ranges());
    templates.push(nested());
    templates
}

/// Of these nodes over a local_time, whose plan has these words.
fn template(shapes: &[Shape], plan: &[u32], value: &str, list: &[[u32; 5]]) -> Template {
    let draft = over_time(shapes);
    assert_eq!(draft.words(), plan, "the words of the same plan");
    Template {
        draft,
        plan: plan.to_vec(),
        value: hex(value),
        words: list.as_flattened().to_vec(),
    }
}

fn alone() -> Template {
    template(&[], &[4, 2, 1, 13], TEN_PAST, &[[2, 0, 0, 8, 0]])
}

fn set() -> Template {
    let value = format!("{THREE} 00000008 {LAST} 00000008 {TENTH} 00000008 {TEN_PAST}");
    let list = [
        [4, 0, 0, 56, 3],
        [2, 0, 24, 8, 0],
        [2, 1, 36, 8, 0],
        [2, 2, 48, 8, 0],
    ];
    template(&[Shape::Set(0)], &[6, 4, 1, 13, 2, 2], &value, &list)
}

/// A set of an array of three and an array of two: array at 4, set at 6.
fn arrays() -> Template {
    let three = format!("{THREE} 00000008 {TENTH} 00000008 {TEN_PAST} 00000008 {LAST}");
    let two = format!("{TWO} 00000008 {LAST} 00000008 {TENTH}");
    let value = format!(
        "{TWO} 00000044 00000001 00000000 00000038 {three} \
         00000038 00000001 00000000 0000002c {two}"
    );
    let list = [
        [6, 0, 0, 152, 2],
        [4, 0, 36, 56, 3],
        [2, 0, 60, 8, 0],
        [2, 1, 72, 8, 0],
        [2, 2, 84, 8, 0],
        [4, 1, 108, 44, 2],
        [2, 0, 132, 8, 0],
        [2, 1, 144, 8, 0],
    ];
    let shapes = [Shape::Set(0), Shape::SetOfArrays(1)];
    template(&shapes, &[8, 6, 1, 13, 2, 2, 3, 4], &value, &list)
}

/// A tuple, an output object and a sparse object of three: all have the same bytes, as reserved
/// fields may hold anything. And a sparse object in another order.
fn objects() -> Vec<Template> {
    let value = |[first, second, third]: [u32; 3]| {
        format!(
            "00000003 {first:08x} 00000008 {TEN_PAST} {second:08x} 00000008 {LAST} \
             {third:08x} 00000008 {TENTH}"
        )
    };
    let list = |[first, second, third]: [u32; 3]| {
        [
            [4, 0, 0, 52, 3],
            [2, first, 12, 8, 0],
            [2, second, 28, 8, 0],
            [2, third, 44, 8, 0],
        ]
    };
    let made =
        |shape: Shape, plan: &[u32], order| template(&[shape], plan, &value(order), &list(order));
    let tuple = Shape::Tuple(vec![0; 3]);
    let output = Shape::Output(vec![(0, 0x41), (0, 0x6f), (0, 0x6d)]);
    let input = Shape::Input(vec![(0, 0x41), (0, 0x6f), (0, 0x4d)]);
    let of_output = [12, 4, 1, 13, 5, 3, 2, 0x41, 2, 0x6f, 2, 0x6d];
    let of_input = [12, 4, 1, 13, 6, 3, 2, 0x41, 2, 0x6f, 2, 0x4d];
    vec![
        made(tuple, &[9, 4, 1, 13, 4, 3, 2, 2, 2], [0, 1, 2]),
        made(output, &of_output, [0, 1, 2]),
        made(input.clone(), &of_input, [0, 1, 2]),
        made(input, &of_input, [2, 0, 1]),
    ]
}

/// A lower bound, an upper bound, and both.
fn ranges() -> Vec<Template> {
    let (shapes, plan) = ([Shape::Range(0)], [6, 4, 1, 13, 7, 2]);
    let lower = format!("12 00000008 {TEN_PAST}");
    let upper = format!("0c 00000008 {LAST}");
    let both = format!("02 00000008 {TENTH} 00000008 {TEN_PAST}");
    vec![
        template(&shapes, &plan, &lower, &[[4, 0, 0, 13, 1], [2, 0, 5, 8, 0]]),
        template(&shapes, &plan, &upper, &[[4, 0, 0, 13, 1], [2, 1, 5, 8, 0]]),
        template(
            &shapes,
            &plan,
            &both,
            &[[4, 0, 0, 25, 2], [2, 0, 5, 8, 0], [2, 1, 17, 8, 0]],
        ),
    ]
}

/// A sparse object with a set of tuples of an int64, a local_time and a range: int64 at 4, range at
/// 6, tuple at 8, set at 13, object at 15. The int64 are the numbers that a local_time may not have.
fn nested() -> Template {
    let shapes = [
        Shape::Leaf(INT64),
        Shape::Range(0),
        Shape::Tuple(vec![1, 0, 2]),
        Shape::Set(3),
        Shape::Input(vec![(4, 0x41)]),
    ];
    let plan = [
        19, 15, 1, 13, 1, 5, 7, 2, 4, 3, 4, 2, 6, 2, 8, 6, 1, 13, 0x41,
    ];
    let tuple = |integer: &str| {
        format!(
            "00000003 00000000 00000008 {integer} 00000000 00000008 {TEN_PAST} \
             00000000 00000019 02 00000008 {TENTH} 00000008 {LAST}"
        )
    };
    let value = format!(
        "00000001 00000000 000000a6 {TWO} 00000045 {} 00000045 {}",
        tuple("ffffffffffffffff"),
        tuple("000000141dd76000")
    );
    let list = [
        [15, 0, 0, 178, 1],
        [13, 0, 12, 166, 2],
        [8, 0, 36, 69, 3],
        [4, 0, 48, 8, 0],
        [2, 1, 64, 8, 0],
        [6, 2, 80, 25, 2],
        [2, 0, 85, 8, 0],
        [2, 1, 97, 8, 0],
        [8, 1, 109, 69, 3],
        [4, 0, 121, 8, 0],
        [2, 1, 137, 8, 0],
        [6, 2, 153, 25, 2],
        [2, 0, 158, 8, 0],
        [2, 1, 170, 8, 0],
    ];
    template(&shapes, &plan, &value, &list)
}
