//! The least time of several rounds, in nanoseconds for one call; the two sides take turns, so that neither has the better hours.

use std::time::Instant;

const ROUNDS: usize = 25;

pub struct Row {
    pub call: &'static str,
    pub proved: f64,
    pub twin: f64,
}

fn round(calls: u32, work: &mut impl FnMut()) -> f64 {
    let began = Instant::now();
    for _ in 0..calls {
        work();
    }
    began.elapsed().as_nanos() as f64 / f64::from(calls)
}

/// The best round of each side, with so many calls a round.
pub fn race(
    call: &'static str,
    calls: u32,
    mut proved: impl FnMut(),
    mut twin: impl FnMut(),
) -> Row {
    let mut row = Row {
        call,
        proved: f64::INFINITY,
        twin: f64::INFINITY,
    };
    for _ in 0..ROUNDS {
        row.proved = row.proved.min(round(calls, &mut proved));
        row.twin = row.twin.min(round(calls, &mut twin));
    }
    row
}
