//! Strict conversion: the model compares, for each later segment, every double that would be dropped with the one that
//! stands at its place of the whole output. Where it refuses nothing, the crate's conversion is asked too.

use simmerstoat::raw;

use crate::compare::{self, hold, Input};
use crate::crates;
use crate::inputs::{Rng, AWKWARD};
use crate::model::{self, RefusalNumber, STEP};
use crate::part::Part;
use crate::port::{ConversionReply, UNTOUCHED, UNTOUCHED_WHOLE};
use crate::tally::{of_reply, Call, Tally};

pub const PART: Part = Part { once, knots };

const LINEAR: usize = 4;

/// Refusals in the table's order: 1 2 3 8 17 9 4 15.
pub fn model(from: usize, to: usize, knots: &[f64], allowance: f64, room: usize) -> Result<Vec<f64>, RefusalNumber> {
    let k = model::curve_length(from, knots.len())?;
    if to == LINEAR {
        return Err(8.into());
    }
    if !allowance.is_finite() || allowance < 0.0 {
        return Err(17.into());
    }
    let out = model::convert_spline(from, to, knots, room)?;
    for s in 1..k {
        let window = model::convert_segment(from, to, &knots[s * STEP[from]..][..4], 4)?;
        let dropped = &window[..4 - STEP[to]];
        if dropped.iter().zip(&out[s * STEP[to]..]).any(|(a, b)| (a - b).abs() > allowance) {
            return Err(RefusalNumber { no: 15, place: s });
        }
    }
    Ok(out)
}

/// A buffer of `room` places, and four behind it that no call may touch.
fn port(from: u8, to: u8, knots: &[f64], allowance: f64, room: usize) -> ConversionReply {
    let mut buffer: Vec<f64> = (0..room as u64 + 4).map(|i| f64::from_bits(UNTOUCHED + i)).collect();
    let mut written = UNTOUCHED_WHOLE as u64;
    // SAFETY: the pointers and lengths are of slices, and `written` is a local.
    let reply = unsafe {
        raw::simmerstoat_convert_spline_strict(
            from,
            to,
            knots.as_ptr(),
            knots.len() as u64,
            allowance,
            buffer.as_mut_ptr(),
            room as u64,
            &mut written,
        )
    };
    ConversionReply { reply, written: written as usize, buffer: buffer.iter().map(|d| d.to_bits()).collect() }
}

fn compare(t: &mut Tally, from: usize, to: usize, knots: &[f64], allowance: f64, room: usize) -> ConversionReply {
    let input = Input { call: Call::ConvertSplineStrict, bases: &[from, to], at: allowance, knots, more: &room };
    let ours = port(from as u8, to as u8, knots, allowance, room);
    let expected = model(from, to, knots, allowance, room);
    hold("the model", &input, compare::converted(expected.as_deref().map_err(|why| *why), room, true), ours.clone());
    let sent = ours.reply == 0;
    if sent {
        let theirs = crates::convert_spline(from, to, knots);
        hold("the crate", &input, compare::converted(Ok(&theirs), room, true), ours.clone());
    }
    t.add(Call::ConvertSplineStrict, of_reply(ours.reply), sent);
    ours
}

/// A line through k segments; with `bend`, its slope doubles at the middle seam.
fn line(b: usize, k: usize, bend: bool) -> Vec<f64> {
    let height = |x: f64| if bend && x > (k / 2) as f64 { 2.0 * x - (k / 2) as f64 } else { x };
    let slope = |s: usize| if bend && s >= k / 2 { 2.0 } else { 1.0 };
    match b {
        1 => (0..3 * k + 1).map(|i| height(i as f64 / 3.0)).collect(),
        3 => (0..=k).flat_map(|s| [height(s as f64), slope(s)]).collect(),
        5 => (0..k).flat_map(|s| [0.0, 0.0, slope(s), height(s as f64)]).collect(),
        _ => (0..k + 3).map(|i| height(i as f64)).collect(),
    }
}

pub const ALLOWANCES: [f64; 14] = [
    0.0,
    -0.0,
    1e-300,
    1e-13,
    1e-9,
    0.5,
    3.0,
    1e12,
    f64::MAX,
    f64::NAN,
    f64::INFINITY,
    f64::NEG_INFINITY,
    -1e-300,
    -3.0,
];

fn once(t: &mut Tally) {
    // every pair of bases, on a smooth table and on a broken one
    for from in 0..6 {
        for to in 0..6 {
            for k in [1, 2, 3, 12, 13, 40] {
                for bend in [false, true] {
                    let knots = line(from, k, bend);
                    let room = 4 + (k - 1) * STEP[to];
                    for allowance in ALLOWANCES {
                        for room in [room, room - 1, room + 3] {
                            compare(t, from, to, &knots, allowance, room);
                        }
                    }
                }
            }
        }
    }
    // slope 3 is lost at the seam, and may be with an allowance of 3
    let broken = [0.0, 0.0, 0.0, 0.0, 1.0, 1.0, 1.0];
    assert_eq!(compare(t, 1, 3, &broken, 0.0, 6).reply, 15 + 256);
    assert_eq!(compare(t, 1, 3, &broken, 3.0, 6).reply, 0);
    // numbers that are no basis come before all refusals
    for (from, to) in [(6, 3), (1, 255), (9, 9)] {
        let ours = port(from, to, &[], f64::NAN, 0);
        assert_eq!((ours.reply, ours.written), (255, UNTOUCHED_WHOLE));
        t.add(Call::ConvertSplineStrict, of_reply(255), false);
    }
}

fn knots(t: &mut Tally, r: &mut Rng, from: usize, knots: &[f64]) {
    let to = r.below(6);
    let needed = model::curve_length(from, knots.len()).map_or(8, |k| 4 + (k - 1) * STEP[to]);
    let room = match r.below(8) {
        0 => needed - 1,
        1 => needed + 1,
        _ => needed,
    };
    let allowance = match r.below(4) {
        0 => r.one_of(&AWKWARD).abs(),
        1 => r.unit() * 1e-12,
        _ => r.one_of(&ALLOWANCES),
    };
    compare(t, from, to, knots, allowance, room);
}
