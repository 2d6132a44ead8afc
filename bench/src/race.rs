//! Times several programs in turn, so that all of them meet the same disturbances.

use std::time::{Duration, Instant};

pub const ROUNDS: usize = 40;

/// A round repeats each call for about so long.
const ROUND: Duration = Duration::from_millis(4);

/// The best time of each call, in microseconds.
pub fn race<const N: usize>(mut calls: [&mut dyn FnMut(); N]) -> [f64; N] {
    let repeats = calls.each_mut().map(|call| repeats(*call));
    let mut best = [f64::INFINITY; N];
    for _ in 0..ROUNDS {
        for (index, call) in calls.iter_mut().enumerate() {
            let time = time(*call, repeats[index]).as_secs_f64() / f64::from(repeats[index]);
            best[index] = best[index].min(1e6 * time);
        }
    }
    best
}

fn time(call: &mut dyn FnMut(), repeats: u32) -> Duration {
    let began = Instant::now();
    for _ in 0..repeats {
        call();
    }
    began.elapsed()
}

/// How many calls fill a round.
fn repeats(call: &mut dyn FnMut()) -> u32 {
    let mut repeats = 1;
    while time(call, repeats) < ROUND {
        repeats *= 2;
    }
    repeats
}
