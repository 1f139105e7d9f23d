//! Timing: medians over many short rounds, both sides in turn within each, so that a busy moment or a change of the clock meets both.
pub mod answers;
pub mod lines;
pub mod messages;
pub mod steps;
pub mod stores;
pub mod tables;
pub mod tapes;

use std::time::Instant;

const ROUNDS: usize = 201;
const LEAST_SECONDS: f64 = 0.0003;

/// As many calls as take at least `LEAST_SECONDS`.
fn batch(f: &mut dyn FnMut()) -> u32 {
    let mut calls = 1;
    while calls as f64 * once(f, calls) < LEAST_SECONDS {
        calls *= 2;
    }
    calls
}

/// Seconds for one call, over so many.
fn once(f: &mut dyn FnMut(), calls: u32) -> f64 {
    let start = Instant::now();
    for _ in 0..calls {
        f();
    }
    start.elapsed().as_secs_f64() / f64::from(calls)
}

fn median(mut values: Vec<f64>) -> f64 {
    values.sort_by(f64::total_cmp);
    values[values.len() / 2]
}

/// Medians of the proved side's seconds, of the other's, and of the rounds' ratios: within a round both sides meet the same clock.
fn medians(proved: &mut dyn FnMut(), other: &mut dyn FnMut()) -> [f64; 3] {
    let (ours, theirs) = (batch(proved), batch(other));
    let rounds: Vec<_> = (0..ROUNDS).map(|_| (once(proved, ours), once(other, theirs))).collect();
    let middle = |of: fn(&(f64, f64)) -> f64| median(rounds.iter().map(of).collect());
    [middle(|r| r.0), middle(|r| r.1), middle(|r| r.0 / r.1)]
}

/// Prints the proved side's time, the other's, and their ratio.
pub fn compare(name: &str, proved: &mut dyn FnMut(), other: &mut dyn FnMut()) {
    let [ours, theirs, ratio] = medians(proved, other);
    println!("{name:<40} {:>10.3} {:>10.3} {ratio:>7.2}", ours * 1e6, theirs * 1e6);
}

pub fn heading(proved: &str, other: &str) {
    println!("{:<40} {proved:>10} {other:>10} {:>7}", "microseconds a call, median", "ratio");
}

/// The same for calls that take so many messages, or make so many lines, as millions in a second. The ratio is still that of
/// the times.
pub fn compare_rates(name: &str, count: usize, proved: &mut dyn FnMut(), other: &mut dyn FnMut()) {
    let [ours, theirs, ratio] = medians(proved, other);
    let millions = |seconds: f64| count as f64 / seconds / 1e6;
    println!("{name:<40} {:>10.2} {:>10.2} {ratio:>7.2}", millions(ours), millions(theirs));
}

pub fn heading_rates(counted: &str, proved: &str, other: &str) {
    println!("{:<40} {proved:>10} {other:>10} {:>7}", format!("million {counted} a second, median"), "ratio");
}
