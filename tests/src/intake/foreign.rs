//! States of random numbers, and rooms that others have written to (R10.10).

use super::case::Step;
use crate::message::draft::Draft;
use crate::message::received;
use crate::rng::Rng;
use second::intake::Intake;

/// Lets others write the state, and the room too in half of the cases, at some time before the last
/// call.
pub fn meddle(rng: &mut Rng, side: u32, room: usize, steps: &mut Vec<Step>) {
    let at = rng.below(steps.len() + 1);
    let bytes = match rng.below(4) {
        0 => Draft::make(rng).message(),
        1 => received(rng).1,
        _ => Vec::new(),
    };
    let state = state(rng, side, room, bytes.len());
    let written = [Step::WriteRoom(bytes), Step::WriteState(state)];
    steps.splice(at..at, written);
    steps.push(Step::Deliver(0));
}

/// Random numbers, of which each is now and then one that a start or call could have given.
fn state(rng: &mut Rng, side: u32, room: usize, written: usize) -> Intake {
    let kind = |rng: &mut Rng| rng.pick(&[0, 1, 2, 3, 6, 31, 32, 0x100, u32::MAX]);
    Intake {
        room: match rng.below(8) {
            0 => other_length(rng, room as u64),
            _ => room as u64,
        },
        side: match rng.below(8) {
            0 => rng.word(),
            1 => rng.below(3) as u32,
            _ => side,
        },
        held: held(rng, room as u32, written as u32),
        number: match rng.below(16) {
            0 => rng.word(),
            1 | 2 => kind(rng),
            _ => 0,
        },
        place: match rng.below(4) {
            0 => rng.word(),
            1 => kind(rng),
            _ => 0,
        },
    }
}

/// Near the room's length, or far from it, but alike in the lower 32 bits.
fn other_length(rng: &mut Rng, room: u64) -> u64 {
    match rng.below(5) {
        0 => room + 1,
        1 => room.wrapping_sub(1),
        2 => room + (1 << 32),
        3 => 0,
        _ => rng.draw(),
    }
}

/// All that was written and about as much, a part of the room, all of it, more, and far more.
fn held(rng: &mut Rng, room: u32, written: u32) -> u32 {
    match rng.below(8) {
        0 => 0,
        1 => rng.below(8) as u32,
        2 => written,
        3 => written.wrapping_add(rng.pick(&[1, u32::MAX])),
        4 => rng.below(room as usize + 1) as u32,
        5 => room + rng.below(3) as u32,
        6 => rng.pick(&[u32::MAX, 0x8000_0000, 65_536, 65_535]),
        _ => rng.word(),
    }
}
