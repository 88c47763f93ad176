//! Two pieces of work timed in turn, so that what slows the machine down for a while slows both.

use std::time::Instant;

/// How often each side has its turn.
pub const ROUNDS: usize = 25;

/// How long a turn takes, about.
const TURN_NANOS: f64 = 2e6;

/// Nanoseconds a call on each side, the least of all rounds; and of the rounds' own ratios the middle
/// one, the lowest and the highest.
#[derive(Clone, Copy, Debug)]
pub struct Figures {
    pub first: f64,
    pub second: f64,
    pub middle: f64,
    pub low: f64,
    pub high: f64,
}

/// Times both sides in turn.
pub fn in_turn(mut first: impl FnMut(), mut second: impl FnMut()) -> Figures {
    let counts = (calls_in_a_turn(&mut first), calls_in_a_turn(&mut second));
    let turns: Vec<(f64, f64)> = (0..ROUNDS)
        .map(|_| (nanos(&mut first, counts.0), nanos(&mut second, counts.1)))
        .collect();
    let mut ratios: Vec<f64> = turns.iter().map(|(a, b)| a / b).collect();
    ratios.sort_by(f64::total_cmp);
    Figures {
        first: turns
            .iter()
            .map(|turn| turn.0)
            .fold(f64::INFINITY, f64::min),
        second: turns
            .iter()
            .map(|turn| turn.1)
            .fold(f64::INFINITY, f64::min),
        middle: ratios[ROUNDS / 2],
        low: ratios[0],
        high: ratios[ROUNDS - 1],
    }
}

/// Several sides on the same input, timed in turn: of each the nanoseconds a call, round by round.
pub fn all_in_turn<T>(input: &mut T, sides: &[fn(&mut T)]) -> Vec<Vec<f64>> {
    let counts: Vec<u32> = sides
        .iter()
        .map(|side| calls_in_a_turn(&mut || side(input)))
        .collect();
    let mut times = vec![Vec::new(); sides.len()];
    for _ in 0..ROUNDS {
        for ((side, &count), times) in sides.iter().zip(&counts).zip(&mut times) {
            times.push(nanos(&mut || side(input), count));
        }
    }
    times
}

/// The least of a side's times.
pub fn least(times: &[f64]) -> f64 {
    times.iter().copied().fold(f64::INFINITY, f64::min)
}

/// Of the ratios of two sides' times, round by round, the middle one.
pub fn middle_ratio(first: &[f64], second: &[f64]) -> f64 {
    let mut ratios: Vec<f64> = first.iter().zip(second).map(|(a, b)| a / b).collect();
    ratios.sort_by(f64::total_cmp);
    ratios[ratios.len() / 2]
}

/// Nanoseconds a call, over so many calls.
fn nanos(work: &mut impl FnMut(), calls: u32) -> f64 {
    let began = Instant::now();
    for _ in 0..calls {
        work();
    }
    began.elapsed().as_nanos() as f64 / f64::from(calls)
}

/// How many calls fill a turn. The calls that find it out also warm the machine up.
fn calls_in_a_turn(work: &mut impl FnMut()) -> u32 {
    let mut calls = 1;
    loop {
        let taken = nanos(work, calls) * f64::from(calls);
        if taken >= TURN_NANOS / 2.0 || calls >= 1 << 24 {
            return ((f64::from(calls) * TURN_NANOS / taken) as u32).max(1);
        }
        calls *= 2;
    }
}
