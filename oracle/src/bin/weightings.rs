//! `weightings` counts and times two weightings under the pace of the steady rule on the same segments: half the distance, as
//! the library has it, and Anderson and Björck's, which is not in the library. Written out here alone, so that both have the
//! same shape; the counts of the first are held to the model's.

use std::hint::black_box;
use std::time::{Duration, Instant};

use judge::inputs::Rng;
use judge::model::{self, Method};
use judge::sets::{self, options, Case};

const PRECISION: f64 = 1e-10;
const SPENT: usize = 64;

/// How many evaluations are made in the segment with these row sums; above `SPENT` where no round had an answer.
#[inline(always)]
fn evaluations<const BJORCK: bool>(w: &[f64; 4], y: f64) -> usize {
    let (mut lower, mut upper) = (0.0, 1.0);
    let (mut v0, mut v1) = (model::cubic(w, 0.0), model::cubic(w, 1.0));
    let rising = v0 < v1;
    // the end that moved last, how often it did so again, and its value before
    let (mut side, mut repeats, mut before) = (None, 0, 0.0);
    let mut allowed = 16.0;
    for round in 0..SPENT {
        let width = upper - lower;
        if width < PRECISION {
            return round + 2;
        }
        let middle = lower + width * 0.5;
        let mut x = middle;
        if width <= allowed {
            if repeats > 0 {
                let moved = if side == Some(true) { v0 } else { v1 };
                let share = 1.0 - (moved - y) / (before - y);
                let share = if BJORCK && share > 0.0 { share } else { 0.5 };
                let stayed = if side == Some(true) { &mut v1 } else { &mut v0 };
                *stayed = y + (*stayed - y) * share;
            }
            let chord = lower + width * ((y - v0) / (v1 - v0));
            if lower < chord && chord < upper {
                x = chord;
            }
        }
        allowed *= 0.5;
        let v = model::cubic(w, x);
        let is_lower = (v < y) == rising;
        repeats = if side == Some(is_lower) { repeats + 1 } else { 0 };
        side = Some(is_lower);
        if is_lower {
            (before, lower, v0) = (v0, x, v);
        } else {
            (before, upper, v1) = (v1, x, v);
        }
        if (v - y).abs() < PRECISION {
            return round + 3;
        }
    }
    SPENT + 3
}

#[inline(never)]
fn half(w: &[f64; 4], y: f64) -> usize {
    evaluations::<false>(w, y)
}

#[inline(never)]
fn bjorck(w: &[f64; 4], y: f64) -> usize {
    evaluations::<true>(w, y)
}

const BOTH: [fn(&[f64; 4], f64) -> usize; 2] = [half, bjorck];

/// Mean, 99th percentile and most.
fn counted(cases: &[([f64; 4], f64)], by: fn(&[f64; 4], f64) -> usize) -> String {
    let mut counts: Vec<usize> = cases.iter().map(|(w, y)| by(w, *y)).collect();
    counts.sort_unstable();
    assert!(counts[counts.len() - 1] <= 41, "the bound");
    let mean = counts.iter().sum::<usize>() as f64 / counts.len() as f64;
    format!("{mean:.2} / {} / {}", counts[counts.len() * 99 / 100], counts[counts.len() - 1])
}

/// The time of the second over the first: each in its turn, and the least of many turns counts.
fn timed(cases: &[([f64; 4], f64)]) -> f64 {
    let mut sums = [0.0; 2];
    for few in cases.chunks(200).step_by(4) {
        let mut least = [Duration::MAX; 2];
        for _ in 0..60 {
            for (by, least) in BOTH.iter().zip(&mut least) {
                let begun = Instant::now();
                few.iter().for_each(|(w, y)| {
                    black_box(by(black_box(w), *y));
                });
                *least = (*least).min(begun.elapsed());
            }
        }
        (0..2).for_each(|i| sums[i] += least[i].as_secs_f64());
    }
    sums[1] / sums[0]
}

fn row(name: &str, cases: &[([f64; 4], f64)]) {
    let [half, bjorck] = BOTH.map(|by| counted(cases, by));
    println!("| {name} | {half} | {bjorck} | {:.2} |", timed(cases));
}

fn main() {
    let mut r = Rng(41);
    println!("Evaluations under the pace: mean / 99th percentile / most.\n");
    println!("| set | half the distance | Anderson-Björck | its time |\n|---|---|---|---:|");
    let mut all = Vec::new();
    for set in &sets::SETS {
        let asked = |c: Case| {
            let w = model::sums(c.b, &c.cv);
            let told = model::spline_inverse_segment(c.b, c.y, &c.cv, &options(Method::Steady));
            assert_eq!(told.count, half(&w, c.y), "the model");
            (w, c.y)
        };
        let cases: Vec<_> = sets::cases(&mut r, set).into_iter().map(asked).collect();
        row(set.0, &cases);
        all.extend(cases);
    }
    row("all", &all);
}
