//! What the drivers here share, not all of it in each: inputs from a fixed seed, and the ratio of two functions' times over the same list.
//!
//! Each round times both functions once over the list, the reference right before the port; the line gives the median of
//! the rounds' ratios.

use std::time::Instant;

#[allow(dead_code)]
pub const INPUTS: usize = 4096;
const ROUNDS: usize = 41;

/// Uniform numbers in [low, high), from a fixed linear congruence.
#[allow(dead_code)]
pub fn inputs(seed: u32, low: f32, high: f32) -> Vec<f32> {
    let mut state = seed;
    let mut next = || {
        state = state.wrapping_mul(1_664_525).wrapping_add(1_013_904_223);
        low + (high - low) * ((state >> 8) as f32 / 16_777_216.0)
    };
    (0..INPUTS).map(|_| next()).collect()
}

/// Seconds for all passes over the list. A call hands its answer on unused, by a black box, so that none is left out or
/// merged.
fn time<T>(list: &[T], passes: usize, call: &mut impl FnMut(&T)) -> f64 {
    let start = Instant::now();
    for _ in 0..passes {
        list.iter().for_each(&mut *call);
    }
    start.elapsed().as_secs_f64()
}

/// Prints the ratio of the port's time to the reference's, for a list of calls.
#[allow(dead_code)]
pub fn compare<T>(name: &str, list: &[T], passes: usize, port: impl FnMut(&T), reference: impl FnMut(&T)) {
    compare_each(name, list, passes, 1, port, reference);
}

/// The same where each item of the list stands for so many calls.
pub fn compare_each<T>(
    name: &str,
    list: &[T],
    passes: usize,
    calls_each: usize,
    mut port: impl FnMut(&T),
    mut reference: impl FnMut(&T),
) {
    let mut rounds: Vec<(f64, f64)> = (0..ROUNDS)
        .map(|_| {
            let theirs = time(list, passes, &mut reference);
            let ours = time(list, passes, &mut port);
            (ours / theirs, theirs)
        })
        .collect();
    rounds.sort_by(|a, b| a.0.total_cmp(&b.0));
    let ratio = rounds[ROUNDS / 2].0;
    let calls = (passes * list.len() * calls_each) as f64;
    let least = rounds.iter().map(|r| r.1).fold(f64::INFINITY, f64::min);
    println!("{name:34} {ratio:5.2}   (reference {:.1} ns a call)", least / calls * 1e9);
}
