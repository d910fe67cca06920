//! The valves: the model is de Boor's recursion over uniform places, in whole numbers and without a matrix or a table of weights; and the
//! crate's own B-spline, in doubles, to which a sum divided by the whole has to come near.

use simmerstoat::valve::{mix, Refusal, WHOLE};

use crate::compare::{hold, Input};
use crate::crates;
use crate::inputs::Rng;
use crate::part::Part;
use crate::tally::{of_reply, Call, Tally, PLAIN};

pub const PART: Part = Part { once, knots };

const BSPLINE: usize = 0;

/// Knots at and around the bounds, and the ends of their type.
const KNOTS: [i64; 11] = [0, 1, -1, 999_999, -999_999, 1_000_000, -1_000_000, 1_000_001, -1_000_001, i64::MIN, i64::MAX];

/// The mean of two numbers that lie `width` steps apart, at `at` steps from the first: times `width`.
fn between(p: i128, q: i128, at: i128, width: i128) -> i128 {
    (width - at) * p + at * q
}

/// De Boor's recursion at j/256 of a segment: three means, then two, then one. The three widths multiply to 6 · 256³.
fn de_boor(j: i128, p: [i128; 4]) -> i128 {
    let first = [0, 1, 2].map(|i| between(p[i], p[i + 1], j + 256 * (2 - i as i128), 768));
    let second = [0, 1].map(|i| between(first[i], first[i + 1], j + 256 * (1 - i as i128), 512));
    between(second[0], second[1], j, 256)
}

/// Refusals in their order: 1 2 16 4.
fn model(step: u16, knots: &[i64]) -> Result<i64, u32> {
    let four: [i64; 4] = knots.try_into().map_err(|_| if knots.len() < 4 { 1_u32 } else { 2 })?;
    if step > 256 {
        return Err(16);
    }
    if let Some(place) = four.iter().position(|k| k.unsigned_abs() > 1_000_000) {
        return Err(4 + 256 * place as u32);
    }
    Ok(de_boor(step.into(), four.map(i128::from)).try_into().expect("a sum fits 64 bits"))
}

fn reply(refusal: Refusal) -> u32 {
    match refusal {
        Refusal::BadKnot(place) => 4 + 256 * u32::from(place),
        other => u32::from(other.number()),
    }
}

fn compare(t: &mut Tally, step: u16, knots: &[i64]) {
    let input = Input { call: Call::Valve, bases: &[BSPLINE], at: step.into(), knots: &[], more: &knots };
    let ours = mix(step, knots).map_err(reply);
    hold("the model", &input, model(step, knots), ours);
    if let Ok(sum) = ours {
        let cv: Vec<f64> = knots.iter().map(|k| *k as f64).collect();
        let theirs = crates::spline_segment(BSPLINE, f64::from(step) / 256.0, &cv);
        hold("the crate", &input, true, (theirs - sum as f64 / WHOLE as f64).abs() < 1e-8);
    }
    t.add(Call::Valve, ours.map_or_else(of_reply, |_| PLAIN), ours.is_ok());
}

fn once(t: &mut Tally) {
    for n in (0..=9).filter(|n| *n != 4) {
        for knot in KNOTS {
            for step in [0, 256, 257, u16::MAX] {
                compare(t, step, &[knot; 9][..n]);
            }
        }
    }
    for a in KNOTS {
        for b in KNOTS {
            for (c, d) in KNOTS.iter().flat_map(|c| KNOTS.map(|d| (*c, d))) {
                for step in [0, 1, 128, 255, 256, 257, u16::MAX] {
                    compare(t, step, &[a, b, c, d]);
                }
            }
        }
    }
    let mut r = Rng(2026);
    for step in 0..=256 {
        for _ in 0..1_000 {
            let four = [(); 4].map(|()| r.below(2_000_001) as i64 - 1_000_000);
            compare(t, step, &four);
        }
    }
}

/// A curve of doubles is nothing to a valve: four knots of its own, some at the bounds, and any step.
fn knots(t: &mut Tally, r: &mut Rng, _: usize, _: &[f64]) {
    let four = [(); 4].map(|()| if r.below(16) == 0 { r.one_of(&KNOTS) } else { r.below(2_000_001) as i64 - 1_000_000 });
    let step = r.below(258) as u16;
    compare(t, step, &four);
}
