//! The crate's calls, by a basis's number: `plain` is built without its order check, `ordered` with it.

use std::num::NonZeroU16;

use crate::model::Options;

/// `$go!(Type)` for the basis of number `$b`.
macro_rules! by_number {
    ($b:expr, $krate:ident, $B:ident => $e:expr) => {
        match $b {
            0 => { type $B = $krate::basis::Bspline; $e }
            1 => { type $B = $krate::basis::Bezier; $e }
            2 => { type $B = $krate::basis::CatmullRom; $e }
            3 => { type $B = $krate::basis::Hermite; $e }
            4 => { type $B = $krate::basis::Linear; $e }
            5 => { type $B = $krate::basis::Power; $e }
            _ => unreachable!(),
        }
    };
}

pub fn is_len_ok(b: usize, n: usize) -> bool {
    by_number!(b, plain, B => <B as plain::Basis<f64>>::is_len_ok(n))
}

/// The value, or 1 or 2 for the crate's two errors.
pub fn spline(b: usize, x: f64, knots: &[f64]) -> Result<f64, u8> {
    let answer = by_number!(b, plain, B => plain::spline::<B, f64, f64>(x, knots));
    answer.map_err(|e| match e {
        plain::SplineError::InvalidKnotLength { .. } => 1,
        plain::SplineError::InvalidKnotPattern { .. } => 2,
    })
}

pub fn spline_segment(b: usize, x: f64, cv: &[f64]) -> f64 {
    by_number!(b, plain, B => plain::spline_segment::<B, f64, f64>(x, cv))
}

pub fn spline_inverse(b: usize, y: f64, knots: &[f64], o: &Options) -> Option<f64> {
    if o.check {
        let with = ordered::SplineInverseOptions {
            max_iterations: NonZeroU16::new(o.limit),
            precision: Some(o.precision),
        };
        by_number!(b, ordered, B => ordered::spline_inverse_with::<B, f64>(y, knots, &with))
    } else {
        let with =
            plain::SplineInverseOptions { max_iterations: NonZeroU16::new(o.limit), precision: Some(o.precision) };
        by_number!(b, plain, B => plain::spline_inverse_with::<B, f64>(y, knots, &with))
    }
}

/// The crate's own defaults.
pub fn spline_inverse_default(b: usize, y: f64, knots: &[f64], check: bool) -> Option<f64> {
    if check {
        by_number!(b, ordered, B => ordered::spline_inverse::<B, f64>(y, knots))
    } else {
        by_number!(b, plain, B => plain::spline_inverse::<B, f64>(y, knots))
    }
}

pub fn spline_inverse_segment(b: usize, y: f64, cv: &[f64], limit: u16, precision: f64) -> Option<f64> {
    let with = plain::SplineInverseOptions { max_iterations: NonZeroU16::new(limit), precision: Some(precision) };
    by_number!(b, plain, B => plain::spline_inverse_segment_with::<B, f64>(y, cv, &with))
}

pub fn spline_inverse_segment_default(b: usize, y: f64, cv: &[f64]) -> Option<f64> {
    by_number!(b, plain, B => plain::spline_inverse_segment::<B, f64>(y, cv))
}

pub fn convert_segment(from: usize, to: usize, cv: &[f64; 4]) -> [f64; 4] {
    by_number!(from, plain, In => by_number!(to, plain, Out => plain::convert::convert_segment::<In, Out, f64>(cv)))
}

pub fn convert_spline(from: usize, to: usize, knots: &[f64]) -> Vec<f64> {
    by_number!(from, plain, In => by_number!(to, plain, Out => plain::convert::convert_spline::<In, Out, f64>(knots)))
}
