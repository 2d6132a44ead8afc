//! Records that cut messages anywhere, and sides that end inside a message.

use super::again::{Record, CLIENT_SIDE, SERVER_SIDE, UNKNOWN_SIDES};
use super::table::{data, message};
use crate::rng::Rng;
use std::collections::BTreeMap;

/// So long a record is cut into single bytes at times.
const MOST_SINGLE: usize = 2_000;
/// Pieces of the longer ones.
const MOST_PIECES: usize = 12;

/// The records cut into several of the same side each, with empty ones among them, and at times with
/// those of the sides in another order, which stays that of each side.
pub fn cut(rng: &mut Rng, records: Vec<Record>) -> Vec<Record> {
    let size = rng.pick(&[1, 3, 7, 0, 0]);
    let mut pieces = Vec::new();
    for (side, bytes) in records {
        let size = if bytes.len() > MOST_SINGLE { 0 } else { size };
        let cut = in_pieces(rng, &bytes, size).into_iter();
        pieces.extend(cut.map(|piece| (side, piece)));
    }
    match rng.once_in(3) {
        true => mixed(rng, pieces),
        false => pieces,
    }
}

/// Pieces of so many bytes, or a few of any if that is 0.
fn in_pieces(rng: &mut Rng, bytes: &[u8], size: usize) -> Vec<Vec<u8>> {
    if size > 0 {
        return bytes.chunks(size).map(<[u8]>::to_vec).collect();
    }
    let mut places: Vec<usize> = (0..rng.below(MOST_PIECES))
        .map(|_| match rng.once_in(3) {
            true => rng.below(bytes.len().min(7) + 1), // about the first head
            false => rng.below(bytes.len() + 1),
        })
        .collect();
    places.extend([0, bytes.len()]);
    places.sort();
    let between = places.windows(2);
    between
        .map(|pair| bytes[pair[0]..pair[1]].to_vec())
        .collect()
}

/// The same records of each side in any order of the sides.
fn mixed(rng: &mut Rng, records: Vec<Record>) -> Vec<Record> {
    let mut of_side: BTreeMap<u8, Vec<Record>> = BTreeMap::new();
    let mut turns: Vec<u8> = records.iter().map(|(side, _)| *side).collect();
    for record in records.into_iter().rev() {
        of_side.entry(record.0).or_default().push(record);
    }
    for at in (1..turns.len()).rev() {
        turns.swap(at, rng.below(at + 1));
    }
    let next = |side| of_side.get_mut(&side).and_then(Vec::pop);
    turns.into_iter().filter_map(next).collect()
}

/// The first bytes of a message of some sides, in any order: of its head, or of more.
pub fn ends(rng: &mut Rng) -> Vec<Record> {
    let unknown_side = rng.pick(&UNKNOWN_SIDES);
    let mut sides = vec![CLIENT_SIDE, SERVER_SIDE, unknown_side];
    for _ in 0..rng.below(3) {
        sides.remove(rng.below(sides.len()));
    }
    if rng.once_in(2) {
        sides.reverse();
    }
    let end = |side| {
        let value = rng.bytes(20);
        let mut bytes = rng.pick(&[&message(b'S', &value), &data(&value)]).to_vec();
        bytes.truncate(match rng.once_in(2) {
            true => rng.between(1, 4),
            false => rng.between(5, bytes.len() - 1),
        });
        (side, bytes)
    };
    sides.into_iter().map(end).collect()
}
