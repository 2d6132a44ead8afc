//! Changes a supply in ways that leave it the supply of the same value: the starts and lengths that
//! do not count, and where in the source leaves and flags lie.

use super::having::Kinds;
use super::making::Supply;
use crate::rng::Rng;
use second::entry::{Entry, ABSENT};

/// Does some of it, or nothing.
pub fn change(rng: &mut Rng, kinds: &Kinds, supply: &mut Supply) {
    if rng.once_in(2) {
        scatter(rng, kinds, supply);
    }
    match rng.below(4) {
        0 => move_parts(rng, kinds, supply),
        1 => share_parts(rng, kinds, supply),
        _ => {}
    }
    if rng.once_in(8) {
        let count = rng.between(1, 9);
        supply.src.extend(rng.bytes(count));
    }
}

/// Starts and lengths that do not count may be anything (R8.2).
fn scatter(rng: &mut Rng, kinds: &Kinds, supply: &mut Supply) {
    for entry in &mut supply.entries {
        if entry.is_absent() {
            entry.start = anything(rng, entry.start);
        } else if !kinds.is_leaf(entry) {
            entry.length = anything(rng, entry.length).min(ABSENT - 1);
            if !kinds.is_range(entry) {
                entry.start = anything(rng, entry.start);
            }
        }
    }
}

fn anything(rng: &mut Rng, word: u32) -> u32 {
    match rng.below(6) {
        0 => rng.word(),
        1 => rng.pick(&[0, 1, 0xffff_ffff, 0xffff_fffe, 0x8000_0000, 0x1_0000]),
        2 => rng.below(300) as u32,
        _ => word,
    }
}

/// A new source, in which the parts that count lie one by one in another order, with bytes between
/// them.
fn move_parts(rng: &mut Rng, kinds: &Kinds, supply: &mut Supply) {
    let Supply { entries, src } = supply;
    let mut moved = Vec::new();
    let mut order: Vec<&mut Entry> = entries.iter_mut().collect();
    for last in (1..order.len()).rev() {
        order.swap(last, rng.below(last + 1));
    }
    for entry in order {
        if let Some(part) = kinds.part(entry, src) {
            if rng.once_in(4) {
                let count = rng.between(1, 5);
                moved.extend(rng.bytes(count));
            }
            entry.start = moved.len() as u32;
            moved.extend(part);
        }
    }
    *src = moved;
}

/// A part that already lies somewhere else in the source is taken from there: leaves and flags may
/// overlap, and lie inside each other and in heads.
fn share_parts(rng: &mut Rng, kinds: &Kinds, supply: &mut Supply) {
    let Supply { entries, src } = supply;
    // To look through a large source for each of many parts would take long.
    let most = src.len().min(2_000);
    for entry in entries {
        let Some(part) = kinds.part(entry, src) else {
            continue;
        };
        let place = match part {
            [] => Some(rng.below(src.len() + 1)),
            _ => src[..most]
                .windows(part.len())
                .position(|window| window == part),
        };
        if let Some(place) = place {
            entry.start = place as u32;
        }
    }
}
