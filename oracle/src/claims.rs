//! Claims of places: the model is the rows in their order, then one value and one comparison. The port's own answers are
//! claimed as well; those by value or edge must hold.

use simmerstoat::raw;

use crate::compare::{hold, Input};
use crate::inputs::{self, Rng, AWKWARD, PRECISIONS};
use crate::model::{self, Options, RefusalNumber, STEP};
use crate::part::Part;
use crate::port::{self, InversionReply};
use crate::tally::{Call, Tally, DIFFERS, HOLDS, NO_NUMBER};

pub const PART: Part = Part { once, knots };

/// That a segment is at a target in a local place, to a precision.
#[derive(Clone, Copy, Debug)]
pub struct Claim {
    pub y: f64,
    pub segment: usize,
    pub local: f64,
    pub precision: f64,
}

pub fn model(b: usize, c: &Claim, knots: &[f64]) -> Result<bool, RefusalNumber> {
    let k = model::curve_length(b, knots.len())?;
    if c.y.is_nan() || c.local.is_nan() {
        return Err(5.into());
    }
    if !(c.precision > 0.0 && c.precision < f64::INFINITY) {
        return Err(6.into());
    }
    if c.segment >= k {
        return Err(19.into());
    }
    model::knots_in_range(knots)?;
    if !(0.0..=1.0).contains(&c.local) {
        return Ok(false);
    }
    Ok((model::value(b, c.local, &knots[c.segment * STEP[b]..]) - c.y).abs() < 2.0 * c.precision)
}

/// The reply, and what stands behind the pointer, where `old` stood.
pub fn port(b: u8, c: &Claim, knots: &[f64], old: bool) -> (u32, bool) {
    let mut holds = old;
    // SAFETY: the pointer and length are a slice's, and `holds` is a local.
    let reply = unsafe {
        let (segment, n) = (c.segment as u64, knots.len() as u64);
        raw::simmerstoat_check_claim(b, c.y, segment, c.local, c.precision, knots.as_ptr(), n, &mut holds)
    };
    (reply, holds)
}

pub fn compare(t: &mut Tally, b: usize, c: &Claim, knots: &[f64]) -> Result<bool, RefusalNumber> {
    let input = Input { call: Call::CheckClaim, bases: &[b], at: c.y, knots, more: c };
    let expected = model(b, c, knots);
    for old in [false, true] {
        let told = expected.map_or_else(|why| (why.reply(), old), |holds| (0, holds));
        hold("the model", &input, told, port(b as u8, c, knots, old));
    }
    let answer = match expected {
        Ok(true) => HOLDS,
        Ok(false) => DIFFERS,
        Err(why) => why.no as usize,
    };
    t.add(Call::CheckClaim, answer, false);
    expected
}

/// An answer of ours, claimed for its own segment, local place and precision.
fn own(t: &mut Tally, b: usize, y: f64, knots: &[f64], o: &Options, i: &InversionReply) {
    if i.reply != 0 {
        return;
    }
    let c = Claim { y, segment: i.whole[1], local: f64::from_bits(i.place[1]), precision: o.precision };
    let holds = compare(t, b, &c, knots) == Ok(true);
    if matches!(i.whole[0], 1 | 2) {
        let input = Input { call: Call::CheckClaim, bases: &[b], at: y, knots, more: o };
        hold("an own answer by value or edge", &input, true, holds);
    }
}

fn once(t: &mut Tally) {
    let bad = [0.0, 1.0, f64::NAN, 3.0, f64::INFINITY];
    let (steep, away, many) = ([0.0, 8.0, 12.0, 16.0], [0.0, 0.0, 6.0, 12.0], vec![0.0; 4097]);
    let claim = |y, segment, local, precision| Claim { y, segment, local, precision };
    // an answer by width, and one by end
    assert_eq!(compare(t, 1, &claim(4.0, 0, 0.125, 0.5), &steep), Ok(false));
    assert_eq!(compare(t, 0, &claim(0.0, 0, 0.0, 1e-10), &away), Ok(false));
    assert_eq!(compare(t, 0, &claim(1.0, 0, 0.0, 1e-10), &away), Ok(true));
    // each refusal, alone and together
    for knots in [&bad[..3], &bad, &steep, &away, &many] {
        for b in 0..6 {
            for y in [0.0, 4.0, f64::INFINITY, f64::NAN] {
                for segment in [0, 1, 2, usize::MAX] {
                    for local in [0.0, -0.0, 0.125, 1.0, -f64::MIN_POSITIVE, 1.0 + f64::EPSILON, f64::INFINITY, f64::NAN] {
                        for precision in [1e-10, 0.5, 0.0, -1.0, f64::INFINITY, f64::NAN] {
                            _ = compare(t, b, &claim(y, segment, local, precision), knots);
                        }
                    }
                }
            }
        }
    }
    for b in [6, 7, 255] {
        assert_eq!(port(b, &claim(f64::NAN, 9, f64::NAN, 0.0), &bad, true), (255, true));
        t.add(Call::CheckClaim, NO_NUMBER, false);
    }
}

/// Any claim on these knots.
pub fn any(r: &mut Rng, b: usize, knots: &[f64]) -> Claim {
    let k = model::curve_length(b, knots.len()).unwrap_or(1);
    let local = match r.below(8) {
        0 => r.one_of(&AWKWARD),
        1 => r.one_of(&[0.0, -0.0, 1.0]),
        _ => r.unit(),
    };
    let segment = if r.below(16) == 0 { k } else { r.below(k) };
    let y = match knots.get(segment * STEP[b]..) {
        Some(cv) if cv.len() >= 4 && r.below(2) == 0 => model::value(b, local, cv),
        _ => inputs::target(r, b, knots),
    };
    Claim { y, segment, local, precision: r.one_of(&PRECISIONS) }
}

/// Any claim on these knots; then our own answers on them, and on a segment of them.
fn knots(t: &mut Tally, r: &mut Rng, b: usize, knots: &[f64]) {
    _ = compare(t, b, &any(r, b, knots), knots);
    let o = inputs::options(r);
    let y = inputs::target(r, b, knots);
    own(t, b, y, knots, &o, &port::spline_inverse_by(b as u8, y, knots, &o));
    if knots.len() >= 4 {
        let from = r.below(knots.len() - 3);
        let cv = &knots[from..from + 4];
        let y = inputs::target(r, b, cv);
        own(t, b, y, cv, &o, &port::spline_inverse_segment_by(b as u8, y, cv, &o));
    }
}
