//! Conversion that is refused where a seam would be lost.

use crate::{done, raw, Basis, Refusal};

/// The knots in `Out` of a curve whose knots in `In` are `cv`, into a lent buffer; answers the length written.
///
/// Where windows overlap, each later segment drops the first of its converted knots. If one of these differs from the
/// knot that stands at its place by more than `allowance`, this refuses with the lowest such segment. Where it does not,
/// it is [`convert_spline_into`](crate::convert::convert_spline_into). On a refusal the buffer keeps all.
///
/// Refusals: `TooFew`, `BadPattern`, `TooMany`, `LinearOutput`, `BadAllowance`, `ShortBuffer`, `BadKnot`, `LostSeam`.
///
/// ```
/// use simmerstoat::{basis::{Bezier, Hermite}, strict::convert_spline_strict_into, Refusal};
///
/// let bend = [0.0, 0.0, 0.0, 0.0, 1.0, 1.0, 1.0];
/// let mut out = [7.0; 7];
/// assert_eq!(convert_spline_strict_into::<Bezier, Hermite>(&bend, 0.0, &mut out), Err(Refusal::LostSeam(1)));
/// assert_eq!(out, [7.0; 7]);
/// assert_eq!(convert_spline_strict_into::<Bezier, Hermite>(&bend, 3.0, &mut out), Ok(6));
/// assert_eq!(out, [0.0, 0.0, 0.0, 0.0, 1.0, 0.0, 7.0]);
/// ```
pub fn convert_spline_strict_into<In: Basis, Out: Basis>(
    cv: &[f64],
    allowance: f64,
    out: &mut [f64],
) -> Result<usize, Refusal> {
    let mut written = 0;
    // SAFETY: each pointer and length are a slice's, and `written` is a local.
    let reply = unsafe {
        raw::simmerstoat_convert_spline_strict(
            In::NUMBER,
            Out::NUMBER,
            cv.as_ptr(),
            cv.len() as u64,
            allowance,
            out.as_mut_ptr(),
            out.len() as u64,
            &mut written,
        )
    };
    done(reply, written as usize)
}
