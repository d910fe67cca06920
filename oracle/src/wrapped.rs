//! The crate in the shape of the exports, for the speed table: bare, and behind the refusals of the port.
//!
//! The scans fold a flag and have no early exit, which is the quickest that we know of in Rust; the knot at fault is looked
//! for only where there is one. A reply is the refusal's number, and 256 times that knot's place.

use crate::crates;
use crate::model::STEP;

const LARGEST: f64 = 1_099_511_627_776.0;

fn in_range(knots: &[f64]) -> bool {
    knots.iter().fold(true, |good, k| good & (k.abs() <= LARGEST))
}

fn in_order(knots: &[f64]) -> bool {
    let inner = &knots[1..];
    let pairs = inner.iter().zip(&inner[1..]);
    if knots[1] < knots[knots.len() - 2] {
        pairs.fold(true, |good, (a, b)| good & (a <= b))
    } else {
        pairs.fold(true, |good, (a, b)| good & (a >= b))
    }
}

/// The reply where some knot is out of range.
#[cold]
fn bad_knot(knots: &[f64]) -> u32 {
    4 + 256 * knots.iter().position(|k| !in_range(&[*k])).unwrap_or(0) as u32
}

/// The reply where the knots turn back.
#[cold]
fn turns_back(knots: &[f64]) -> u32 {
    let rising = knots[1] < knots[knots.len() - 2];
    let against = |i: &usize| if rising { knots[*i] > knots[*i + 1] } else { knots[*i] < knots[*i + 1] };
    10 + 256 * (1..knots.len() - 1).find(against).unwrap_or(0) as u32
}

fn length(b: u8, n: usize) -> u32 {
    let Some(&step) = STEP.get(b as usize) else { return 255 };
    if n < 4 {
        return 1;
    }
    // constant divisors
    let rest = match step {
        1 => 0,
        2 => (n - 4) % 2,
        3 => (n - 4) % 3,
        _ => (n - 4) % 4,
    };
    if rest != 0 {
        2
    } else if n > 4096 {
        3
    } else {
        0
    }
}

#[inline(never)]
pub fn bare_segment(b: u8, x: f64, cv: &[f64], value: &mut f64) -> u32 {
    *value = crates::spline_segment(b as usize, x, cv);
    0
}

#[inline(never)]
pub fn segment(b: u8, x: f64, cv: &[f64], value: &mut f64) -> u32 {
    if b > 5 {
        return 255;
    }
    if cv.len() != 4 {
        return if cv.len() < 4 { 1 } else { 2 };
    }
    if !(0.0..=1.0).contains(&x) {
        return 5;
    }
    if !in_range(cv) {
        return bad_knot(cv);
    }
    *value = crates::spline_segment(b as usize, x, cv);
    0
}

#[inline(never)]
pub fn bare_spline(b: u8, x: f64, knots: &[f64], value: &mut f64) -> u32 {
    match crates::spline(b as usize, x, knots) {
        Ok(v) => {
            *value = v;
            0
        }
        Err(no) => no as u32,
    }
}

#[inline(never)]
pub fn spline(b: u8, x: f64, knots: &[f64], value: &mut f64) -> u32 {
    let no = length(b, knots.len());
    if no != 0 {
        return no;
    }
    if x.is_nan() {
        return 5;
    }
    if !in_range(knots) {
        return bad_knot(knots);
    }
    bare_inlined(b, x, knots, value)
}

#[inline(always)]
fn bare_inlined(b: u8, x: f64, knots: &[f64], value: &mut f64) -> u32 {
    match crates::spline(b as usize, x, knots) {
        Ok(v) => {
            *value = v;
            0
        }
        Err(no) => no as u32,
    }
}

fn told(answer: Option<f64>, parameter: &mut f64) -> u32 {
    match answer {
        Some(x) => {
            *parameter = x;
            0
        }
        None => 11,
    }
}

#[inline(never)]
pub fn bare_inverse_segment(b: u8, y: f64, cv: &[f64], parameter: &mut f64) -> u32 {
    told(crates::spline_inverse_segment_default(b as usize, y, cv), parameter)
}

#[inline(never)]
pub fn inverse_segment(b: u8, y: f64, cv: &[f64], parameter: &mut f64) -> u32 {
    if b > 5 {
        return 255;
    }
    if cv.len() != 4 {
        return if cv.len() < 4 { 1 } else { 2 };
    }
    if y.is_nan() {
        return 5;
    }
    if !in_range(cv) {
        return bad_knot(cv);
    }
    told(crates::spline_inverse_segment_default(b as usize, y, cv), parameter)
}

#[inline(never)]
pub fn bare_inverse(b: u8, y: f64, knots: &[f64], check: bool, parameter: &mut f64) -> u32 {
    told(crates::spline_inverse_default(b as usize, y, knots, check), parameter)
}

/// 4 or 10, or 0. With the order check one pass is enough where nothing is wrong: knots in order lie between
/// the second and the last.
fn knots_refusal(knots: &[f64], check: bool) -> u32 {
    if !check {
        return if in_range(knots) { 0 } else { bad_knot(knots) };
    }
    let n = knots.len();
    if in_order(knots) && in_range(&[knots[0], knots[1], knots[n - 1]]) {
        return 0;
    }
    if in_range(knots) {
        turns_back(knots)
    } else {
        bad_knot(knots)
    }
}

/// Its own order check, folded; then the crate without one.
#[inline(never)]
pub fn inverse(b: u8, y: f64, knots: &[f64], check: bool, parameter: &mut f64) -> u32 {
    let no = length(b, knots.len());
    if no != 0 {
        return no;
    }
    if y.is_nan() {
        return 5;
    }
    let no = knots_refusal(knots, check);
    if no != 0 {
        return no;
    }
    told(crates::spline_inverse_default(b as usize, y, knots, false), parameter)
}

#[inline(never)]
pub fn bare_convert_segment(from: u8, to: u8, cv: &[f64], out: &mut [f64; 4]) -> u32 {
    *out = crates::convert_segment(from as usize, to as usize, cv.try_into().unwrap());
    0
}

#[inline(never)]
pub fn convert_segment(from: u8, to: u8, cv: &[f64], out: &mut [f64]) -> u32 {
    if from > 5 || to > 5 {
        return 255;
    }
    if cv.len() != 4 {
        return if cv.len() < 4 { 1 } else { 2 };
    }
    if to == 4 {
        return 8;
    }
    if out.len() < 4 {
        return 9;
    }
    if !in_range(cv) {
        return bad_knot(cv);
    }
    out[..4].copy_from_slice(&crates::convert_segment(from as usize, to as usize, cv.try_into().unwrap()));
    0
}

#[inline(never)]
pub fn convert(from: u8, to: u8, knots: &[f64], out: &mut [f64]) -> u32 {
    let no = length(from, knots.len());
    if no != 0 {
        return no;
    }
    if to > 5 {
        return 255;
    }
    if to == 4 {
        return 8;
    }
    if out.len() < 4 + (knots.len() - 4) / STEP[from as usize] * STEP[to as usize] {
        return 9;
    }
    if !in_range(knots) {
        return bad_knot(knots);
    }
    let made = crates::convert_spline(from as usize, to as usize, knots);
    out[..made.len()].copy_from_slice(&made);
    0
}
