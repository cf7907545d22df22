//! The time of a call, the best of many.

use super::row::{Row, Side, SIDES};
use crate::rng::Rng;
use std::time::{Duration, Instant};

/// The rows are gone through that often, so that each is measured at times that are far apart.
pub const PASSES: usize = 100;
/// How often in a pass the two sides of a row take turns.
pub const ROUNDS: usize = 30;

/// A call below this is too short for the clock.
const SHORT: Duration = Duration::from_micros(2);
/// As many short calls are timed at once as take this long.
const LONG: Duration = Duration::from_micros(20);

/// The best time of one call of each row on each side, in microseconds. `begin` hears of each pass, by
/// number from 1.
pub fn time(rows: &mut [Box<dyn Row + '_>], mut begin: impl FnMut(usize)) -> Vec<[f64; 2]> {
    let mut rng = Rng::new(1);
    let batches: Vec<[usize; 2]> = rows
        .iter_mut()
        .map(|row| {
            row.renew(&mut rng);
            SIDES.map(|side| batch(row.as_mut(), side))
        })
        .collect();
    let mut best = vec![[f64::INFINITY; 2]; rows.len()];
    for pass in 1..=PASSES {
        begin(pass);
        for ((row, batches), best) in rows.iter_mut().zip(&batches).zip(&mut best) {
            for _ in 0..ROUNDS {
                round(row.as_mut(), &mut rng, batches, best);
            }
        }
    }
    best
}

/// One turn of each side on a new input.
fn round(row: &mut dyn Row, rng: &mut Rng, batches: &[usize; 2], best: &mut [f64; 2]) {
    row.renew(rng);
    for ((side, times), best) in SIDES.into_iter().zip(batches).zip(best) {
        let took = clock(row, side, *times).as_secs_f64() * 1e6 / *times as f64;
        *best = best.min(took);
    }
    row.compare();
}

/// How many calls are timed at once.
fn batch(row: &mut dyn Row, side: Side) -> usize {
    let tries = 5;
    let shortest = (0..tries).map(|_| clock(row, side, 1)).min();
    if shortest >= Some(SHORT) {
        return 1;
    }
    let mut times = 2;
    while clock(row, side, times) < LONG {
        times *= 2;
    }
    times
}

fn clock(row: &mut dyn Row, side: Side, times: usize) -> Duration {
    let start = Instant::now();
    row.call(side, times);
    start.elapsed()
}
