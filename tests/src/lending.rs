//! How the memory of a case is lent.

use crate::fence::Edge;
use crate::rng::Rng;

#[derive(Clone, Copy, Debug)]
pub struct Lending {
    /// Which end of each run is fenced.
    pub edge: Edge,
    /// Which part of the judge's pattern the room holds before the call, under [`FILLS`].
    pub fill: usize,
}

/// So many ways of filling a room: were there but one, a byte that is never written could happen to
/// hold the right value each time.
pub const FILLS: usize = 4_096;

impl Lending {
    pub fn random(rng: &mut Rng) -> Lending {
        Lending {
            edge: rng.pick(&[Edge::Front, Edge::Back, Edge::Back]),
            fill: rng.below(FILLS),
        }
    }
}
