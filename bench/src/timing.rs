//! Timing of one call: the best of several rounds, of which each adds up many calls.
use std::time::Instant;

const ROUNDS: usize = 25;
const CALLS: usize = 12;

/// Seconds a call in one round. `before` is done before each call and not timed.
fn round<T>(state: &mut T, before: &impl Fn(&mut T), call: &impl Fn(&mut T)) -> f64 {
    let mut sum = 0.0;
    for _ in 0..CALLS {
        before(state);
        let start = Instant::now();
        call(state);
        sum += start.elapsed().as_secs_f64();
    }
    sum / CALLS as f64
}

/// Seconds a call, the best round.
pub fn seconds<T>(state: &mut T, call: impl Fn(&mut T)) -> f64 {
    let rounds = (0..ROUNDS).map(|_| round(state, &|_| {}, &call));
    rounds.fold(f64::INFINITY, f64::min)
}

/// Seconds a call of two that are compared: their rounds take turns, so that a slow moment of the machine meets both.
pub fn beside<T>(state: &mut T, before: impl Fn(&mut T), one: impl Fn(&mut T), two: impl Fn(&mut T)) -> [f64; 2] {
    let mut best = [f64::INFINITY; 2];
    for _ in 0..ROUNDS {
        best[0] = best[0].min(round(state, &before, &one));
        best[1] = best[1].min(round(state, &before, &two));
    }
    best
}

/// MB/s where a call stands for so many bytes.
pub fn rate(bytes: usize, seconds: f64) -> f64 {
    bytes as f64 / 1e6 / seconds
}
