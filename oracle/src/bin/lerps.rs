//! How much hangs on the interpolation: random curves inverted by the model, once with each of the two usual formulas.

use judge::inputs::{self, Rng, SEGMENTS};
use judge::model::{self, Ground, Lerp, Options, STEP};

const ROUNDS: usize = 40;
const GROUNDS: [Ground; 3] = [Ground::Value, Ground::Width, Ground::Spent];

/// Answers, those with other bits of the parameter, and those with another ground or count.
#[derive(Clone, Copy, Default)]
struct Row([u64; 3]);

fn compare(rows: &mut [Row; 3], b: usize, y: f64, knots: &[f64], o: &Options) {
    let port = model::spline_inverse_by(Lerp::FromLower, b, y, knots, o);
    let other = model::spline_inverse_by(Lerp::OfBoth, b, y, knots, o);
    let Ok(p) = port.answer else { return };
    let Some(at) = GROUNDS.iter().position(|&g| g == p.ground) else { return };
    let same_way = other.answer.is_ok_and(|q| q.ground == p.ground) && other.count == port.count;
    let same_bits = other.answer.is_ok_and(|q| q.parameter.to_bits() == p.parameter.to_bits());
    rows[at].0[0] += 1;
    rows[at].0[1] += u64::from(!same_bits);
    rows[at].0[2] += u64::from(!same_way);
}

fn main() {
    let mut rows = [Row::default(); 3];
    let mut r = Rng(1);
    let mut knots = Vec::new();
    for _ in 0..ROUNDS {
        for k in SEGMENTS {
            for b in 0..6 {
                let n = 4 + (k - 1) * STEP[b];
                inputs::fill(&mut r, n, &mut knots);
                for _ in 0..(40_000 / (n + 100)).max(16) {
                    let y = inputs::target(&mut r, b, &knots);
                    compare(&mut rows, b, y, &knots, &Options::DEFAULT);
                    compare(&mut rows, b, y, &knots, &Options { check: false, ..inputs::options(&mut r) });
                }
            }
        }
    }
    println!("| ground | answers | other bits of the parameter | another ground or count |");
    println!("|---|---:|---:|---:|");
    let mut all = Row::default();
    for (ground, row) in ["value", "width", "spent"].iter().zip(rows) {
        println!("| `{ground}` | {} | {} | {} |", row.0[0], row.0[1], row.0[2]);
        (0..3).for_each(|i| all.0[i] += row.0[i]);
    }
    println!("| all | {} | {} | {} |", all.0[0], all.0[1], all.0[2]);
}
