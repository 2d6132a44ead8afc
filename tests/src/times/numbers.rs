//! Microseconds within a day and outside of it.

use crate::rng::Rng;

/// The last microsecond of a day (R5.15).
pub const LAST_OF_DAY: i64 = 86_399_999_999;

/// The numbers at the edges, which every place is tried with most closely, and their names.
pub const EDGES: [(i64, &str); 6] = [
    (-1, "-1"),
    (0, "0"),
    (LAST_OF_DAY, "86,399,999,999"),
    (LAST_OF_DAY + 1, "86,400,000,000"),
    (i64::MIN, "the lowest of 64 bits"),
    (i64::MAX, "the highest of 64 bits"),
];

/// Some more about the edges, and such as are about the last microsecond in one half alone.
const NEAR: [i64; 12] = [
    LAST_OF_DAY + 2,
    LAST_OF_DAY / 2,
    -2,
    -LAST_OF_DAY,
    -LAST_OF_DAY - 1,
    i64::MIN + 1,
    i64::MAX - 1,
    0x13_ffff_ffff,
    0x14_0000_0000,
    0x14_ffff_ffff,
    0x15_0000_0000,
    0x1dd7_5fff,
];

/// So many random ones within the day, and as many outside of it.
const RANDOM: usize = 8;
const MORE_RANDOM: usize = 32;

pub fn is_edge(microseconds: i64) -> bool {
    EDGES.iter().any(|(edge, _)| *edge == microseconds)
}

pub fn is_within_day(microseconds: i64) -> bool {
    (0..=LAST_OF_DAY).contains(&microseconds)
}

/// A number within the day, often its first or last one.
pub fn within(rng: &mut Rng) -> i64 {
    match rng.below(8) {
        0 | 1 => 0,
        2 | 3 => LAST_OF_DAY,
        4 => rng.pick(&[1, LAST_OF_DAY - 1]),
        _ => any_within(rng),
    }
}

fn any_within(rng: &mut Rng) -> i64 {
    (rng.draw() % (LAST_OF_DAY as u64 + 1)) as i64
}

/// A number outside of the day, often just outside or as far as can be.
pub fn outside(rng: &mut Rng) -> i64 {
    match rng.below(4) {
        0 | 1 => rng.pick(&[-1, LAST_OF_DAY + 1]),
        2 => rng.pick(&[i64::MIN, i64::MAX]),
        _ => any_outside(rng),
    }
}

/// Of either sign, as often near to the day as far from it, and not just outside.
fn any_outside(rng: &mut Rng) -> i64 {
    let far = (rng.draw() >> rng.between(1, 63)) as i64;
    match rng.below(2) {
        0 => (-2_i64).saturating_sub(far),
        _ => far.saturating_add(LAST_OF_DAY + 2),
    }
}

/// The edges, others about them, and random ones.
pub fn some(rng: &mut Rng) -> Vec<i64> {
    let edges = EDGES.iter().map(|(edge, _)| *edge);
    let mut numbers: Vec<i64> = edges.chain(NEAR).collect();
    numbers.extend(random(rng, RANDOM));
    numbers
}

/// The same, and each power of two, the last microsecond with each of its bits changed, and more
/// random ones.
pub fn many(rng: &mut Rng) -> Vec<i64> {
    let mut numbers = some(rng);
    // The highest bit alone is an edge.
    numbers.extend((0..63).map(|bit| 1 << bit));
    numbers.extend((0..64).map(|bit| LAST_OF_DAY ^ 1 << bit));
    numbers.extend(random(rng, MORE_RANDOM));
    numbers
}

fn random(rng: &mut Rng, count: usize) -> Vec<i64> {
    let both = |_| [any_within(rng), any_outside(rng)];
    (0..count).flat_map(both).collect()
}
