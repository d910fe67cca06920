//! `evaluations` counts the evaluations of one segment's inversion by each of the three methods, on the same curves
//! and targets, and prints the tables of docs/SPEED.md; `evaluations time` times the three as well.
//!
//! Precision 1e-10; 32 rounds for the crate's rule and the taught weighting, 40 for the steady rule, which is then
//! never spent. A miss is an answer by `spent`.

use std::env;
use std::hint::black_box;
use std::time::{Duration, Instant};

use judge::inputs::Rng;
use judge::model::{self, Ends, Method, Options, STEP};
use judge::port;
use judge::sets::{self, options, Case, METHODS};

const CATMULL_ROM: usize = 2;
const SPENT: usize = 4;
const END: usize = 0;

/// Mean, 99th percentile and most evaluations, and misses in a hundred.
fn counted(cases: &[Case], method: Method) -> String {
    let o = options(method);
    let mut counts = Vec::new();
    let mut misses = 0;
    for c in cases {
        let told = port::spline_inverse_segment_by(c.b as u8, c.y, &c.cv, &o);
        assert_eq!(told.reply, 0);
        counts.push(told.whole[2]);
        misses += (told.whole[0] == SPENT) as usize;
    }
    counts.sort_unstable();
    let mean = counts.iter().sum::<usize>() as f64 / counts.len() as f64;
    let (most, nearly) = (counts[counts.len() - 1], counts[counts.len() * 99 / 100]);
    format!("{mean:.1} / {nearly} / {most}, {:.1} %", 100.0 * misses as f64 / cases.len() as f64)
}

/// The times of the taught weighting and of the steady rule over the crate's rule. Few cases at a time, each method in
/// its turn, and the least of many turns counts.
fn timed(cases: &[Case]) -> [f64; 2] {
    let mut sums = [0.0; 3];
    for few in cases.chunks(200).step_by(4) {
        let mut least = [Duration::MAX; 3];
        for _ in 0..30 {
            for (method, least) in METHODS.into_iter().zip(&mut least) {
                let o = options(method);
                let begun = Instant::now();
                for c in few {
                    black_box(port::spline_inverse_segment_by(c.b as u8, c.y, &c.cv, &o));
                }
                *least = (*least).min(begun.elapsed());
            }
        }
        (0..3).for_each(|i| sums[i] += least[i].as_secs_f64());
    }
    [1, 2].map(|i| sums[i] / sums[0])
}

/// A rising curve's inversions, end rule apart: the mean of evaluations by each method, the search's among them.
fn of_curve(r: &mut Rng, k: usize, ends: Ends) -> [f64; 3] {
    let knots: Vec<f64> = (0..4 + (k - 1) * STEP[CATMULL_ROM]).map(|i| (i as f64 + 0.5 * r.unit()) * 0.01).collect();
    let mut sums = [0; 3];
    let mut asked = 0;
    while asked < 2_000 {
        let s = r.below(k);
        let y = model::value(CATMULL_ROM, 0.02 + 0.96 * r.unit(), &knots[s..s + 4]);
        let told = METHODS.map(|m| port::spline_inverse_by(CATMULL_ROM as u8, y, &knots, &Options { ends, ..options(m) }));
        if told.iter().all(|t| t.reply == 0 && t.whole[0] != END) {
            asked += 1;
            (0..3).for_each(|i| sums[i] += told[i].whole[2]);
        }
    }
    sums.map(|sum| sum as f64 / asked as f64)
}

fn row(name: &str, cases: &[Case], time: bool) {
    let [crates, taught, steady] = METHODS.map(|m| counted(cases, m));
    print!("| {name} | {crates} | {taught} | {steady} |");
    if time {
        let [taught, steady] = timed(cases);
        print!(" {taught:.2} | {steady:.2} |");
    }
    println!();
}

fn main() {
    let time = env::args().nth(1).is_some_and(|word| word == "time");
    let mut r = Rng(41);
    println!("Evaluations in the entered segment: mean / 99th percentile / most, misses.\n");
    println!("| set | the crate's rule | taught | steady |{}", if time { " time: taught | steady |" } else { "" });
    println!("|---|---|---|---|{}", if time { "---:|---:|" } else { "" });
    let mut all = Vec::new();
    for set in &sets::SETS {
        let cases = sets::cases(&mut r, set);
        row(set.0, &cases, time);
        all.extend(cases);
    }
    row("all", &all, time);
    println!("\nEvaluations of a whole inversion of a rising CatmullRom curve of k segments: mean.\n");
    println!("| k | ends by | the crate's rule | taught | steady |\n|---:|---|---:|---:|---:|");
    for k in [1, 12, 13, 100, 1000] {
        for (ends, name) in [(Ends::Knots, "knots"), (Ends::Curve, "curve")] {
            let [crates, taught, steady] = of_curve(&mut Rng(k as u64), k, ends);
            println!("| {k} | {name} | {crates:.1} | {taught:.1} | {steady:.1} |");
        }
    }
}
