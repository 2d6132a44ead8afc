//! Damages a draft of a value. The lengths around the damage stay true, so that it is met.

use super::draft::{Before, Content, Draft, Element, Kind, Length};
use super::scalar;
use crate::rng::Rng;
use crate::text;

/// Lengths and counts that some readers take for others.
const ODD_WORDS: [u32; 9] = [
    0,
    1,
    0xffff_ffff,
    0xffff_fffe,
    0x7fff_ffff,
    0x8000_0000,
    0x8000_0001,
    0x0100_0000,
    0x1_0000,
];

/// Damages one value in the draft in some way. Where there is none of the kind nothing is done.
pub fn draft(rng: &mut Rng, draft: &mut Draft) {
    match rng.below(16) {
        0..3 => with(rng, draft, Draft::is_leaf, leaf),
        3..5 => with(rng, draft, |draft| !draft.is_leaf(), head),
        5..8 => with(rng, draft, has_elements, length),
        8 => with(rng, draft, |draft| !draft.is_leaf(), tail),
        9 => with(rng, draft, has_elements, fewer),
        10 => with(rng, draft, has_elements, more),
        11 => with(rng, draft, has_envelopes, envelope),
        12 | 13 => with(rng, draft, is_sparse, sparse),
        14 => with(rng, draft, has_fields, absent),
        _ => with(rng, draft, has_elements, reorder),
    }
}

/// Damages a sparse object, where there is one, two or three times.
pub fn sparse_again(rng: &mut Rng, draft: &mut Draft) {
    with(rng, draft, is_sparse, |rng, object| {
        for _ in 0..rng.between(2, 3) {
            match rng.below(4) {
                0 if has_elements(object) => length(rng, object),
                1 if has_elements(object) => absent(rng, object),
                _ => sparse(rng, object),
            }
        }
    });
}

fn has_elements(draft: &Draft) -> bool {
    !draft.elements.is_empty()
}

fn has_envelopes(draft: &Draft) -> bool {
    draft.kind == Kind::SetOfArrays && has_elements(draft)
}

fn has_fields(draft: &Draft) -> bool {
    matches!(draft.kind, Kind::Output | Kind::Input(_)) && has_elements(draft)
}

fn is_sparse(draft: &Draft) -> bool {
    matches!(draft.kind, Kind::Input(_))
}

/// Does the damage to one of the values that are as asked.
fn with(
    rng: &mut Rng,
    draft: &mut Draft,
    asked: impl Fn(&Draft) -> bool,
    damage: impl Fn(&mut Rng, &mut Draft),
) {
    let count = draft.count(&asked);
    if count > 0 {
        let before = rng.below(count);
        if let Some(found) = draft.get(&asked, before) {
            damage(rng, found);
        }
    }
}

fn pick<'a>(rng: &mut Rng, draft: &'a mut Draft) -> &'a mut Element {
    let index = rng.below(draft.elements.len());
    &mut draft.elements[index]
}

/// A scalar or enumeration to what it may not hold, or only nearly.
fn leaf(rng: &mut Rng, leaf: &mut Draft) {
    let format = match leaf.kind {
        Kind::Leaf(format) => format,
        _ => scalar::STR,
    };
    match rng.below(8) {
        0 => text::brush(rng, &mut leaf.head),
        1 if !leaf.head.is_empty() => {
            let at = rng.below(leaf.head.len());
            leaf.head[at] ^= 1 << rng.below(8);
        }
        2 => leaf.head.clear(),
        _ => scalar::spoil(rng, format, &mut leaf.head),
    }
}

/// A number of a container's head, or a range's flags, to another.
fn head(rng: &mut Rng, container: &mut Draft) {
    if container.kind == Kind::Range {
        container.head[0] = match rng.below(3) {
            0 => container.head[0] ^ 1 << rng.below(8),
            1 => rng.below(0x20) as u8,
            _ => rng.byte(),
        };
        return;
    }
    let at = match container.head.len() {
        20 => rng.pick(&[0, 12, 12, 16]),
        _ => 0,
    };
    let word = &mut container.head[at..at + 4];
    let number = u32::from_be_bytes([word[0], word[1], word[2], word[3]]);
    word.copy_from_slice(&other(rng, number).to_be_bytes());
    // Nothing after the number, or not all: that a field is first whole decides between 20 and 22.
    if rng.once_in(8) {
        let cut = rng.between(at + 4, container.head.len());
        container.head.truncate(cut);
        container.elements.clear();
    }
}

/// Another number, mostly a near one.
fn other(rng: &mut Rng, number: u32) -> u32 {
    match rng.below(8) {
        0 | 1 => number.wrapping_add(1),
        2 | 3 => number.wrapping_sub(1),
        4 => number ^ 1 << rng.below(32),
        5 => rng.word(),
        _ => rng.pick(&ODD_WORDS),
    }
}

/// An element's length to another.
fn length(rng: &mut Rng, container: &mut Draft) {
    let element = pick(rng, container);
    let true_length = match &element.content {
        Content::Present(draft) => draft.lay().bytes.len() as u32,
        Content::Absent(_) => 0xffff_ffff,
    };
    let length = match rng.below(4) {
        0 => rng.pick(&[0xffff_ffff, 0xffff_fffe, 0x8000_0000, 0x7fff_ffff]),
        _ => other(rng, true_length),
    };
    element.length = Length::Other(length);
    if let Before::Envelope { length: outer, .. } = &mut element.before {
        if rng.below(4) > 0 {
            *outer = Length::Other(length.wrapping_add(12));
        }
    }
}

/// Bytes left over.
fn tail(rng: &mut Rng, container: &mut Draft) {
    let count = rng.pick(&[1, 1, 2, 4, 8, 12]);
    container.tail = if rng.once_in(2) {
        vec![0; count]
    } else {
        rng.bytes(count)
    };
}

/// An element taken out, or all after it too, and the count as it was or made true.
fn fewer(rng: &mut Rng, container: &mut Draft) {
    let index = rng.below(container.elements.len());
    if rng.once_in(3) {
        container.elements.truncate(index);
    } else {
        container.elements.remove(index);
    }
    if rng.below(4) > 0 {
        recount(container);
    }
}

/// An element twice, and the count as it was or made true.
fn more(rng: &mut Rng, container: &mut Draft) {
    let again = pick(rng, container).clone();
    let at = rng.below(container.elements.len() + 1);
    container.elements.insert(at, again);
    if rng.below(3) > 0 {
        recount(container);
    }
}

/// Makes the count in a head that has one true.
fn recount(container: &mut Draft) {
    let count = (container.elements.len() as u32).to_be_bytes();
    match (container.kind, container.head.len()) {
        (Kind::Range, _) => {}
        (Kind::Set | Kind::SetOfArrays, 20..) => container.head[12..16].copy_from_slice(&count),
        (Kind::Tuple | Kind::Output | Kind::Input(_), 4..) => {
            container.head[..4].copy_from_slice(&count);
        }
        _ => {}
    }
}

/// An envelope's length or count, and at times the inner sign too: 22, 23 and 22 come in turn.
fn envelope(rng: &mut Rng, set: &mut Draft) {
    let element = pick(rng, set);
    let Before::Envelope { length, count, .. } = &mut element.before else {
        return;
    };
    let true_length = match &element.content {
        Content::Present(draft) => 12 + draft.lay().bytes.len() as u32,
        Content::Absent(_) => 12,
    };
    match rng.below(6) {
        0 | 1 => *count = rng.pick(&[0, 2, 0xffff_ffff, 0x0100_0000, 0x8000_0001]),
        2 => *length = Length::Other(true_length - 12),
        3 => *length = Length::Other(rng.pick(&ODD_WORDS)),
        _ => *length = Length::Other(other(rng, true_length)),
    }
    if rng.once_in(6) {
        element.length = Length::Other(rng.pick(&[0xffff_ffff, 0xffff_fffe, 0x8000_0000]));
    }
}

/// An index outside the shape or that of another element, at times with a bad length too. An object
/// without elements gets one that is absent.
fn sparse(rng: &mut Rng, object: &mut Draft) {
    let Kind::Input(shape) = object.kind else {
        return;
    };
    if object.elements.is_empty() || rng.once_in(6) {
        object.elements.push(stray(rng, object.node));
        recount(object);
    }
    let indexes: Vec<u32> = object
        .elements
        .iter()
        .map(|element| element.index)
        .collect();
    let index = match rng.below(6) {
        0 => shape,
        1 => rng.pick(&[0xffff_ffff, 0x8000_0000, 0x7fff_ffff, 0x200, 0x1_0000]),
        2 => shape.wrapping_add(rng.below(9) as u32),
        3 => rng.below(shape as usize + 1) as u32,
        _ => rng.pick(&indexes),
    };
    let element = pick(rng, object);
    element.before = Before::Word(index);
    if rng.once_in(3) {
        element.length = Length::Other(rng.pick(&[0xffff_ffff, 0xffff_fffe, 0, 0x7fff_ffff]));
    }
}

/// An absent element.
fn stray(rng: &mut Rng, node: u32) -> Element {
    let index = rng.below(4) as u32;
    Element {
        before: Before::Word(index),
        length: Length::True,
        content: Content::Absent(node),
        index,
    }
}

/// A field that is not there, required or not.
fn absent(rng: &mut Rng, object: &mut Draft) {
    let node = object.node;
    pick(rng, object).content = Content::Absent(node);
}

/// Elements that change places; a sparse object may have them in any order.
fn reorder(rng: &mut Rng, container: &mut Draft) {
    let count = container.elements.len();
    container.elements.swap(rng.below(count), rng.below(count));
}
