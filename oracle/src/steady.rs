//! Random inversions by the steady method alone, until enough of them went through rounds.

use crate::compare;
use crate::inputs::{self, Rng, LIMITS, PRECISIONS, SEGMENTS};
use crate::model::{Ends, Options, STEP};
use crate::tally::Tally;
use crate::worker::Worker;

/// Inversions of a whole run whose answer took rounds; those that end at once come on top.
pub const WANTED: u64 = 10_000_000;

/// One worker's part.
pub fn share(worker: Worker) -> Tally {
    let mut t = Tally::default();
    let mut r = worker.generator();
    while t.by_rounds() < WANTED.div_ceil(worker.of as u64) {
        let b = r.below(STEP.len());
        let k = r.one_of(&SEGMENTS).min((4096 - 4) / STEP[b] + 1);
        curve(&mut t, &mut r, b, k);
    }
    t
}

/// A curve of `k` segments, and its segments alone.
fn curve(t: &mut Tally, r: &mut Rng, b: usize, k: usize) {
    let mut knots = Vec::new();
    inputs::fill(r, 4 + (k - 1) * STEP[b], &mut knots);
    for _ in 0..40_000 / (knots.len() + 100) {
        let o = options(r);
        let y = inputs::target(r, b, &knots);
        compare::spline_inverse(t, b, y, &knots, &o);
        let s = r.below(k) * STEP[b];
        let cv = &knots[s..s + 4];
        let y = inputs::target(r, b, cv);
        compare::spline_inverse_segment(t, b, y, cv, &o);
    }
}

/// The steady method's own defaults half of the time; else any limit and any precision that are not refused.
fn options(r: &mut Rng) -> Options {
    let o = Options {
        check: r.below(4) == 0,
        ends: r.one_of(&[Ends::Knots, Ends::Curve]),
        ..Options::STEADY
    };
    match r.below(2) {
        0 => o,
        _ => Options { limit: r.one_of(&LIMITS[..14]), precision: r.one_of(&PRECISIONS[..14]), ..o },
    }
}
