//! The best of many times.
use std::time::{Duration, Instant};

/// Two calls are timed in turns, so many of them, lest one falls into a moment when the machine is slow.
const TURNS: usize = 5;

/// In a turn a call is repeated until so long has passed, but at least twice.
const BUDGET: Duration = Duration::from_millis(50);

/// Calls shorter than this are timed several at once, since the clock itself takes tens of nanoseconds.
const SHORT: Duration = Duration::from_micros(2);

fn once(f: &mut impl FnMut(), times: u32) -> Duration {
    let start = Instant::now();
    for _ in 0..times {
        f();
    }
    start.elapsed()
}

/// The least time that one call took in one turn, in nanoseconds.
fn turn(f: &mut impl FnMut()) -> f64 {
    f();
    let times = if once(f, 1) < SHORT { 100 } else { 1 };
    let start = Instant::now();
    let mut least = Duration::MAX;
    let mut runs = 0;
    while runs < 2 || start.elapsed() < BUDGET {
        least = least.min(once(f, times));
        runs += 1;
    }
    least.as_nanos() as f64 / f64::from(times)
}

/// The least times that two calls took, in nanoseconds.
pub fn best(mut one: impl FnMut(), mut other: impl FnMut()) -> (f64, f64) {
    (0..TURNS).fold((f64::MAX, f64::MAX), |(a, b), _| {
        (a.min(turn(&mut one)), b.min(turn(&mut other)))
    })
}

/// The least times that several calls took, in nanoseconds.
pub fn best_of<F: FnMut(), const N: usize>(mut calls: [F; N]) -> [f64; N] {
    let mut least = [f64::MAX; N];
    for _ in 0..TURNS {
        for (least, call) in least.iter_mut().zip(&mut calls) {
            *least = least.min(turn(call));
        }
    }
    least
}

/// A time in microseconds, with three digits that count.
pub fn micros(nanoseconds: f64) -> String {
    let us = nanoseconds / 1e3;
    let places = [100.0, 10.0, 1.0, 0.1]
        .iter()
        .filter(|&&least| us < least)
        .count();
    format!("{us:.places$}")
}
