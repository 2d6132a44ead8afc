//! Conversations at random.

use super::case::{Case, Step};
use super::{cutting, disturbing, foreign};
use crate::lending::Lending;
use crate::message::draft::{Draft, SIDES};
use crate::message::received;
use crate::rng::Rng;
use second::message::HEAD;

pub fn make(rng: &mut Rng) -> Case {
    let (side, last) = received(rng);
    let mut sent = Sent::of(rng, side, last);
    let mut steps = sent.cut(rng);
    // After a reset the other end starts anew too.
    for _ in 0..rng.pick(&[0, 0, 0, 0, 0, 1, 1, 2]) {
        let last = received(rng).1;
        let next = Sent::of(rng, side, last);
        steps.push(Step::Reset);
        steps.extend(next.cut(rng));
        sent.add(next);
    }
    let room = room(rng, sent.largest());
    disturbing::disturb(rng, room, &mut steps);
    if rng.once_in(8) {
        foreign::meddle(rng, side, room, &mut steps);
    }
    Case {
        side,
        room,
        stream: sent.bytes,
        steps,
        lending: Lending::random(rng),
        expected: None,
    }
}

/// What a side sends, and where its messages were put.
struct Sent {
    bytes: Vec<u8>,
    starts: Vec<usize>,
}

impl Sent {
    /// Some good messages of the side, if it has any; then this, and now and then one more.
    fn of(rng: &mut Rng, side: u32, last: Vec<u8>) -> Sent {
        let mut sent = Sent {
            bytes: Vec::new(),
            starts: Vec::new(),
        };
        let known = SIDES.contains(&side);
        for _ in 0..rng.pick(&[0, 0, 1, 1, 2, 4]) * usize::from(known) {
            sent.put(&Draft::make_of(rng, side).message());
        }
        sent.put(&last);
        if known && rng.once_in(4) {
            sent.put(&Draft::make_of(rng, side).message());
        }
        sent
    }

    fn put(&mut self, bytes: &[u8]) {
        self.starts.push(self.bytes.len());
        self.bytes.extend(bytes);
    }

    fn add(&mut self, next: Sent) {
        let before = self.bytes.len();
        let starts = next.starts.iter().map(|start| before + start);
        self.starts.extend(starts);
        self.bytes.extend(next.bytes);
    }

    fn cut(&self, rng: &mut Rng) -> Vec<Step> {
        cutting::anyhow(rng, &self.starts, self.bytes.len())
    }

    /// The most bytes that the head of a message says it has, as far as there is room for it.
    fn largest(&self) -> usize {
        let heads = self.starts.iter();
        heads
            .filter_map(|start| self.bytes[*start..].first_chunk())
            .map(|&[_, a, b, c, d]| 1 + u32::from_be_bytes([a, b, c, d]) as usize)
            .filter(|length| *length <= MOST_ROOM)
            .max()
            .unwrap_or(HEAD)
    }
}

/// Bytes of room that are more than any message needs.
const MOST_ROOM: usize = 100_000;

/// Bytes of room: just enough for the largest message, one too few, under a head or about it, or more.
fn room(rng: &mut Rng, largest: usize) -> usize {
    match rng.below(64) {
        0..28 => largest,
        28..34 => largest - 1,
        34..38 => largest + 1,
        38..43 => rng.below(HEAD + 2),
        43..46 => rng.below(largest + 1),
        46..63 => largest + rng.below(200),
        _ => rng.pick(&[65_535, 65_536, 65_537, MOST_ROOM]),
    }
}
