//! Cutting bytes into deliveries.

use super::case::Step;
use crate::rng::Rng;

/// More cuts than these would only take longer.
const MOST_CUTS: usize = 48;

/// So many bytes, cut at these places, which are in order. At a place that stands twice nothing comes.
pub fn at(places: &[usize], length: usize) -> Vec<Step> {
    let starts = [0].into_iter().chain(places.iter().copied());
    let ends = places.iter().copied().chain([length]);
    starts
        .zip(ends)
        .map(|(start, end)| Step::Deliver(end - start))
        .collect()
}

/// So many bytes with messages that start at these places, cut in some way.
pub fn anyhow(rng: &mut Rng, starts: &[usize], length: usize) -> Vec<Step> {
    let mut places = match rng.below(8) {
        0 | 1 => Vec::new(),
        2 => every(1, length),
        3 => every(rng.between(2, 20), length),
        4 | 5 => anywhere(rng, length),
        _ => near(rng, starts, length),
    };
    if rng.once_in(4) {
        twice(rng, &mut places, length);
    }
    places.sort_unstable();
    at(&places, length)
}

/// Deliveries of this size, and the rest.
fn every(size: usize, length: usize) -> Vec<usize> {
    (size..length).step_by(size).take(MOST_CUTS).collect()
}

fn anywhere(rng: &mut Rng, length: usize) -> Vec<usize> {
    let count = rng.pick(&[1, 1, 2, 3, 8]);
    (0..count).map(|_| rng.below(length + 1)).collect()
}

/// At some starts of messages and just before them, in the head and just behind it.
fn near(rng: &mut Rng, starts: &[usize], length: usize) -> Vec<usize> {
    let mut place = || {
        let start = rng.pick(starts);
        (start + rng.below(9)).saturating_sub(2).min(length)
    };
    starts.iter().flat_map(|_| [place(), place()]).collect()
}

/// Empty deliveries: first, last, or between others.
fn twice(rng: &mut Rng, places: &mut Vec<usize>, length: usize) {
    for _ in 0..rng.between(1, 3) {
        let ends = [0, length];
        let place = match rng.below(2) {
            0 if !places.is_empty() => rng.pick(places),
            _ => rng.pick(&ends),
        };
        places.push(place);
    }
}
