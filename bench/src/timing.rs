//! Sides timed in turn over a row's calls.

use crate::clock::thread_nanoseconds;
use std::hint::black_box;

/// What is timed: calls that a side runs over a state of its own.
pub trait Measured {
    type Side: Copy;
    type State: Clone;

    fn calls(&self) -> usize;
    fn start(&self) -> Self::State;

    /// All calls on one side; gives the sum of the answers.
    fn run(&self, side: Self::Side, state: &mut Self::State) -> u64;
}

/// Runs one side alone, for a counter of instructions.
pub fn alone<R: Measured>(side: R::Side, row: &R, times: u64) -> u64 {
    let mut state = row.start();
    (0..times).fold(0, |sum, _| sum ^ row.run(side, &mut state))
}

/// Nanoseconds a call: for each round, of each side.
pub struct Times(Vec<Vec<f64>>);

impl Times {
    /// Of one side: median, least, greatest.
    pub fn of(&self, side: usize) -> [f64; 3] {
        spread(self.0.iter().map(|round| round[side]).collect())
    }

    /// One side's rate over another's, within a round: median, least, greatest.
    pub fn rate(&self, side: usize, other: usize) -> [f64; 3] {
        let over = |round: &Vec<f64>| round[other] / round[side];
        spread(self.0.iter().map(over).collect())
    }

    /// The first side's cost over its cost in another row, within a round.
    pub fn growth(&self, from: &Times) -> [f64; 3] {
        let rounds = self.0.iter().zip(&from.0);
        spread(rounds.map(|(here, there)| here[0] / there[0]).collect())
    }
}

/// A row under measurement: a state for each side, and how often a round runs its calls.
struct Bench<'a, R: Measured> {
    row: &'a R,
    sides: &'a [R::Side],
    states: Vec<R::State>,
    times: u64,
}

impl<R: Measured> Bench<'_, R> {
    /// Nanoseconds a call on one side.
    fn once(&mut self, side: usize) -> f64 {
        let state = &mut self.states[side];
        let begin = thread_nanoseconds();
        let mut sum = 0;
        for _ in 0..self.times {
            sum ^= self.row.run(self.sides[side], state);
        }
        black_box(sum);
        let spent = thread_nanoseconds() - begin;
        spent as f64 / (self.times as f64 * self.row.calls() as f64)
    }

    /// All sides; each round begins with another.
    fn all(&mut self, round: usize) -> Vec<f64> {
        let count = self.sides.len();
        let mut times = vec![0.0; count];
        for turn in 0..count {
            let side = (round + turn) % count;
            times[side] = self.once(side);
        }
        times
    }
}

/// Times rows together: each round runs every row on all sides, so that the machine's own drift
/// falls on all of them alike.
pub fn time<R: Measured>(
    rows: &[R],
    sides: &[R::Side],
    rounds: usize,
    nanoseconds: f64,
) -> Vec<Times> {
    let warmed = rows.iter().map(|row| warm(row, sides, nanoseconds));
    let mut benches: Vec<Bench<R>> = warmed.collect();
    let mut seen: Vec<Vec<Vec<f64>>> = vec![Vec::new(); rows.len()];
    for round in 0..rounds {
        for (bench, seen) in benches.iter_mut().zip(&mut seen) {
            seen.push(bench.all(round));
        }
    }
    seen.into_iter().map(Times).collect()
}

/// Runs a row on all sides, and finds how often a round is to run it.
fn warm<'a, R: Measured>(row: &'a R, sides: &'a [R::Side], nanoseconds: f64) -> Bench<'a, R> {
    let mut bench = Bench {
        row,
        sides,
        states: vec![row.start(); sides.len()],
        times: 2,
    };
    let slowest = bench.all(0).into_iter().fold(0.0, f64::max);
    let once = slowest * row.calls() as f64;
    bench.times = (nanoseconds / once).ceil() as u64;
    bench.all(1);
    bench
}

/// Median, least and greatest.
fn spread(mut sorted: Vec<f64>) -> [f64; 3] {
    sorted.sort_by(f64::total_cmp);
    let last = sorted.len() - 1;
    [sorted[last / 2], sorted[0], sorted[last]]
}
