//! Segments of seven kinds and targets on them, on which methods of inversion are counted and timed.

use crate::inputs::Rng;
use crate::model::{self, Method, Options};

pub const METHODS: [Method; 3] = [Method::AsCrate, Method::Taught, Method::Steady];
const TARGETS: usize = 20_000;

const BEZIER: usize = 1;
const CATMULL_ROM: usize = 2;
const POWER: usize = 5;

/// A kind of curve: its name, and one segment of it with the share of it in which targets lie.
pub type Set = (&'static str, fn(&mut Rng) -> (usize, [f64; 4], [f64; 2]));

const WHOLE: [f64; 2] = [0.0, 1.0];

pub const SETS: [Set; 7] = [
    // level at both ends, steep between
    ("S-shaped", |r| (BEZIER, [0.0, 0.1 * r.unit(), 1.0 - 0.1 * r.unit(), 1.0], WHOLE)),
    // rising knots, half of them a rest
    ("plateaus", |r| (CATMULL_ROM, climb(r, |r| if r.below(2) == 0 { 0.0 } else { r.unit() }), WHOLE)),
    // rests, and jumps by 1
    ("steps", |r| (CATMULL_ROM, climb(r, |r| r.below(2) as f64), WHOLE)),
    ("random monotone", |r| (CATMULL_ROM, climb(r, |r| r.unit()), WHOLE)),
    ("unordered", |r| (CATMULL_ROM, std::array::from_fn(|_| r.unit()), WHOLE)),
    // hardly rising at first, where the targets lie
    ("nearly flat", |r| (BEZIER, [0.0, 1e-4 * r.unit(), 1e-4 * r.unit(), 1.0], [0.0, 0.2])),
    // a cubic about its own inflection, where it stands still
    ("inflection", |r| {
        let a = 0.3 + 0.4 * r.unit();
        (POWER, [1.0, -3.0 * a, 3.0 * a * a, -a * a * a], [a - 0.05, a + 0.05])
    }),
];

fn climb(r: &mut Rng, step: fn(&mut Rng) -> f64) -> [f64; 4] {
    let mut at = r.unit();
    std::array::from_fn(|_| {
        at += step(r);
        at
    })
}

pub fn options(method: Method) -> Options {
    let limit = if method == Method::Steady { 40 } else { 32 };
    Options { limit, method, ..Options::DEFAULT }
}

/// A segment and a target on it.
pub struct Case {
    pub b: usize,
    pub cv: [f64; 4],
    pub y: f64,
}

/// Cases that every method enters, so that all are told of the same.
pub fn cases(r: &mut Rng, set: &Set) -> Vec<Case> {
    let mut cases = Vec::new();
    while cases.len() < TARGETS {
        let (b, cv, [low, high]) = (set.1)(r);
        let y = model::value(b, low + (high - low) * r.unit(), &cv);
        // a flat segment is left at its edge, by every method, after two evaluations
        let rounds = |m: &Method| model::spline_inverse_segment(b, y, &cv, &options(*m)).rounds > 0;
        if METHODS.iter().all(rounds) {
            cases.push(Case { b, cv, y });
        }
    }
    cases
}
