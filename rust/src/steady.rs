//! Inversion by the steady method with its defaults: 64 rounds, precision 1e-10. It never ends by `Ground::Spent`, whatever the
//! curve.

use crate::{found, raw, Basis, Double, Place, Refusal};

/// The place where the curve is at `y`, by the steady method, with the order check: at most 63 evaluations on up to 12
/// segments, and 43 + 2b above, b being the bits of the segment count.
///
/// Refusals: those of [`crate::spline_inverse`].
///
/// ```
/// use simmerstoat::prelude::*;
///
/// let knots = [0.0, 0.0, 0.0, 1.0, 1.0, 1.0];
/// let found = spline_inverse_steady::<CatmullRom, _>(1e-7, &knots)?;
/// assert!(found.ground != Ground::Spent && found.count <= 63);
/// # Ok::<(), Refusal>(())
/// ```
pub fn spline_inverse_steady<B: Basis, T: Double>(y: T, knots: &[T]) -> Result<Place, Refusal> {
    let knots = T::doubles(knots);
    let (mut place, mut whole) = ([0.0; 4], [0; 3]);
    // SAFETY: the pointer and length are a slice's, and both records are locals.
    let reply = unsafe {
        raw::simmerstoat_spline_inverse_steady(B::NUMBER, y.double(), knots.as_ptr(), knots.len() as u64, true, &mut place, &mut whole)
    };
    found(reply, place, whole)
}

/// The place in one segment of four knots where it is at `y`, by the steady method: at most 41 evaluations.
///
/// Refusals: those of [`crate::spline_inverse_segment`].
///
/// ```
/// use simmerstoat::prelude::*;
///
/// let cv = [0.0, 0.25, 0.75, 1.0];
/// assert_eq!(spline_inverse_segment_steady::<Linear, _>(0.5, &cv)?.local, 0.5);
/// # Ok::<(), Refusal>(())
/// ```
pub fn spline_inverse_segment_steady<B: Basis, T: Double>(y: T, cv: &[T]) -> Result<Place, Refusal> {
    let cv = T::doubles(cv);
    let (mut place, mut whole) = ([0.0; 4], [0; 3]);
    // SAFETY: as in `spline_inverse_steady`.
    let reply = unsafe {
        raw::simmerstoat_spline_inverse_segment_steady(B::NUMBER, y.double(), cv.as_ptr(), cv.len() as u64, &mut place, &mut whole)
    };
    found(reply, place, whole)
}
