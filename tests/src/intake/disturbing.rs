//! What a host may do between deliveries besides: resets anywhere, calls with another room, and calls
//! without bytes at the end, where an intake may have refused.

use super::case::Step;
use crate::rng::Rng;

pub fn disturb(rng: &mut Rng, room: usize, steps: &mut Vec<Step>) {
    if rng.once_in(12) {
        insert(rng, steps, Step::Reset);
    }
    if rng.once_in(6) {
        for _ in 0..rng.between(1, 2) {
            let other = other_room(rng, room);
            insert(rng, steps, Step::OtherRoom(other));
        }
    }
    if rng.once_in(6) {
        steps.extend([Step::Deliver(0), Step::Deliver(0)]);
    }
}

/// Puts a step before some other, or at the end.
pub fn insert(rng: &mut Rng, steps: &mut Vec<Step>, step: Step) {
    let at = rng.below(steps.len() + 1);
    steps.insert(at, step);
}

/// Bytes of a room that is not of this length.
fn other_room(rng: &mut Rng, room: usize) -> usize {
    let other = match rng.below(5) {
        0 => 0,
        1 => room.saturating_sub(1),
        2 => 2 * room,
        3 => rng.below(100),
        _ => room + 1,
    };
    if other == room {
        room + 1
    } else {
        other
    }
}
