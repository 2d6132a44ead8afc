//! Damages a supply. What comes out may still be the supply of some value, mostly of another.

use super::having::Kinds;
use super::making::Supply;
use super::order_damage;
use crate::rng::Rng;
use second::entry::{Entry, ABSENT};

/// Words that some readers take for others.
const ODD_WORDS: [u32; 8] = [
    0,
    1,
    0xffff_ffff,
    0xffff_fffe,
    0x7fff_ffff,
    0x8000_0000,
    0x0100_0000,
    0x1_0000,
];

/// Damages the supply in some way. Where there is nothing of the kind nothing is done.
pub fn supply(rng: &mut Rng, kinds: &Kinds, supply: &mut Supply) {
    match rng.below(20) {
        0..6 => with(rng, supply, |_| true, word),
        6..8 => with(rng, supply, |_| true, absence),
        8..11 => with(rng, supply, |entry| kinds.is_leaf(entry), leaf),
        11 => with(rng, supply, |entry| kinds.is_range(entry), range),
        12..14 => content(rng, kinds, supply),
        14 => cut_source(rng, supply),
        15..19 => order_damage::entries(rng, supply),
        _ => beyond(rng, kinds, supply),
    }
}

/// Does the damage to one of the entries that are as asked.
fn with(
    rng: &mut Rng,
    supply: &mut Supply,
    asked: impl Fn(&Entry) -> bool,
    damage: impl Fn(&mut Rng, &mut Entry, &[u8]),
) {
    let Supply { entries, src } = supply;
    let fitting: Vec<&mut Entry> = entries.iter_mut().filter(|entry| asked(entry)).collect();
    let count = fitting.len();
    if count > 0 {
        let at = rng.below(count);
        if let Some(entry) = fitting.into_iter().nth(at) {
            damage(rng, entry, src);
        }
    }
}

fn near(rng: &mut Rng, word: u32) -> u32 {
    match rng.below(8) {
        0 | 1 => word.wrapping_add(1),
        2 | 3 => word.wrapping_sub(1),
        4 => word ^ 1 << rng.below(32),
        5 => rng.below(12) as u32,
        6 => rng.word(),
        _ => rng.pick(&ODD_WORDS),
    }
}

/// Node, index or count to another.
fn word(rng: &mut Rng, entry: &mut Entry, _: &[u8]) {
    let word = match rng.below(3) {
        0 => &mut entry.node,
        1 => &mut entry.index,
        _ => &mut entry.below,
    };
    *word = near(rng, *word);
}

/// Present to absent, with nothing below it or as it was, and absent to present.
fn absence(rng: &mut Rng, entry: &mut Entry, src: &[u8]) {
    if entry.is_absent() {
        entry.length = rng.pick(&[0, 1, 2, 8, ABSENT - 1]);
        entry.start = place(rng, entry.start, src.len());
    } else {
        entry.length = ABSENT;
        if rng.once_in(2) {
            entry.below = 0;
        }
    }
}

/// A leaf moved, so that it lies over others, longer or shorter.
fn leaf(rng: &mut Rng, leaf: &mut Entry, src: &[u8]) {
    match rng.below(4) {
        0 | 1 => leaf.start = place(rng, leaf.start, src.len()),
        2 => leaf.length = place(rng, leaf.length, src.len()),
        _ => {
            leaf.start = place(rng, leaf.start, src.len());
            leaf.length = place(rng, leaf.length, src.len());
        }
    }
}

/// The flags of a range somewhere else.
fn range(rng: &mut Rng, range: &mut Entry, src: &[u8]) {
    range.start = place(rng, range.start, src.len());
}

/// A place in the source, just past its end, or far outside.
fn place(rng: &mut Rng, word: u32, length: usize) -> u32 {
    match rng.below(8) {
        0 => word.wrapping_add(1),
        1 => word.wrapping_sub(1),
        2 => length as u32,
        3 => length as u32 + 1,
        4..7 => rng.below(length + 1) as u32,
        _ => rng.pick(&ODD_WORDS),
    }
}

/// A byte of what counts in the source: of a leaf, or the flags of a range.
fn content(rng: &mut Rng, kinds: &Kinds, supply: &mut Supply) {
    let Supply { entries, src } = supply;
    let counts =
        |entry: &&Entry| !entry.is_absent() && (kinds.is_leaf(entry) || kinds.is_range(entry));
    let places: Vec<(usize, usize)> = entries
        .iter()
        .filter(counts)
        .map(|entry| (entry.start as usize, entry.length as usize))
        .filter(|(start, _)| *start < src.len())
        .collect();
    if !places.is_empty() {
        let (start, length) = rng.pick(&places);
        let at = (start + rng.below(length.clamp(1, 64))).min(src.len() - 1);
        src[at] = match rng.below(3) {
            0 => rng.byte(),
            1 => rng.below(0x20) as u8,
            _ => src[at] ^ 1 << rng.below(8),
        };
    }
}

fn cut_source(rng: &mut Rng, supply: &mut Supply) {
    let length = supply.src.len();
    let cut = match rng.below(4) {
        0 => length,
        1 => rng.below(length + 1),
        _ => 1.min(length),
    };
    supply.src.truncate(length - cut);
}

/// An empty leaf just past the source, or at its very end (R8.7); or leaves that all claim as much
/// as there is, or more than a value can have.
fn beyond(rng: &mut Rng, kinds: &Kinds, supply: &mut Supply) {
    if rng.below(8) > 0 {
        with(
            rng,
            supply,
            |entry| kinds.is_leaf(entry),
            |rng, leaf, src| {
                leaf.length = 0;
                leaf.start = src.len() as u32 + rng.pick(&[0, 1, 2, 0x8000_0000]);
            },
        );
        return;
    }
    let most = rng.pick(&[300, 30_000, 65_535, 70_000]);
    supply.src.resize(most, b'a');
    for entry in supply
        .entries
        .iter_mut()
        .filter(|entry| kinds.is_leaf(entry))
    {
        if rng.once_in(2) {
            entry.start = rng.below(9) as u32;
            entry.length = most as u32 - entry.start - rng.below(9) as u32;
        }
    }
}
