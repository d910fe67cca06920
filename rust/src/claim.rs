//! A place on a curve that somebody else claims, checked.

use crate::{done, raw, Basis, Refusal};

/// Whether the claim holds that `segment` of the curve, from 0, is at `y` in the local place `x`: that its value there
/// differs from `y`, in doubles, by less than twice the precision. A place outside 0 to 1 makes it false.
///
/// An answer of an inversion by `Ground::Value` or `Ground::Edge` holds for its own segment, local place and precision; one
/// by `Width` or `Spent` may not, where the curve is steep, and one by `End` may not, since the target may lie beyond the end.
///
/// Refusals: `TooFew`, `BadPattern`, `TooMany`, `NotANumber`, `BadPrecision`, `NoSegment`, `BadKnot`.
///
/// ```
/// use simmerstoat::{claim::check_claim, prelude::*};
///
/// let knots = [-0.4, 0.0, 0.4, 0.5, 0.9, 1.0, 1.9];
/// let found = spline_inverse::<CatmullRom, _>(0.45, &knots)?;
/// assert_eq!(found.ground, Ground::Value);
/// assert!(check_claim::<CatmullRom>(0.45, found.segment, found.local, 1e-10, &knots)?);
/// assert!(!check_claim::<CatmullRom>(0.46, found.segment, found.local, 1e-10, &knots)?);
/// assert_eq!(check_claim::<CatmullRom>(0.45, 4, 0.0, 1e-10, &knots), Err(Refusal::NoSegment));
/// # Ok::<(), Refusal>(())
/// ```
pub fn check_claim<B: Basis>(y: f64, segment: usize, x: f64, precision: f64, knots: &[f64]) -> Result<bool, Refusal> {
    let mut holds = false;
    // SAFETY: the pointer and length are a slice's, and `holds` is a local.
    let reply = unsafe {
        raw::simmerstoat_check_claim(B::NUMBER, y, segment as u64, x, precision, knots.as_ptr(), knots.len() as u64, &mut holds)
    };
    done(reply, holds)
}
