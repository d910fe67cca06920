//! Conversion of knots from one basis to another.

use crate::{done, raw, Basis, Double, Refusal};

/// The four knots in `Out` whose segment is the cubic that `cv` give in `In`, up to rounding.
///
/// Refusals: `LinearOutput`, `BadKnot`.
///
/// ```
/// use simmerstoat::{basis::{Bezier, CatmullRom, Linear}, convert::convert_segment, spline_segment, Refusal};
///
/// let cv = [0.0, 1.0, 2.0, 1.5];
/// let bezier = convert_segment::<CatmullRom, Bezier, _>(&cv)?;
/// let there = spline_segment::<Bezier, _, _>(0.37, &bezier)?;
/// let here = spline_segment::<CatmullRom, _, _>(0.37, &cv)?;
/// assert!((there - here).abs() < 1e-12);
///
/// assert_eq!(convert_segment::<CatmullRom, Linear, _>(&cv), Err(Refusal::LinearOutput));
/// # Ok::<(), Refusal>(())
/// ```
pub fn convert_segment<In: Basis, Out: Basis, T: Double>(cv: &[T; 4]) -> Result<[T; 4], Refusal> {
    let cv = T::doubles(cv);
    let mut out = [0.0; 4];
    // SAFETY: both pointers are to four doubles.
    let reply = unsafe {
        raw::simmerstoat_convert_segment(In::NUMBER, Out::NUMBER, cv.as_ptr(), 4, out.as_mut_ptr(), out.len() as u64)
    };
    done(reply, out.map(T::of))
}

/// The knots in `Out` of a curve whose knots in `In` are `cv`.
///
/// Refusals: `TooFew`, `BadPattern`, `TooMany`, `LinearOutput`, `BadKnot`.
///
/// ```
/// use simmerstoat::{convert::convert_spline, Basis, Bezier, CatmullRom, Refusal};
///
/// let out = convert_spline::<CatmullRom, Bezier, _>(&[0.0, 1.0, 2.0, 1.5, 0.5, 0.0])?;
/// assert_eq!(out.len(), 10);
/// assert!(Bezier::is_len_ok(out.len()));
/// # Ok::<(), Refusal>(())
/// ```
#[cfg(feature = "alloc")]
pub fn convert_spline<In: Basis, Out: Basis, T: Double>(cv: &[T]) -> Result<alloc::vec::Vec<T>, Refusal> {
    let mut out = alloc::vec![T::of(0.0); room::<In, Out>(cv.len())];
    convert_spline_into::<In, Out, T>(cv, &mut out)?;
    Ok(out)
}

/// The same into a lent buffer of at least [`room`] places, whose further places keep what they hold; answers the length
/// written. On a refusal, `ShortBuffer` among them, the buffer keeps all.
///
/// ```
/// use simmerstoat::{basis::{Bezier, CatmullRom}, convert::convert_spline_into, Refusal};
///
/// let mut out = [7.0; 11];
/// let cv = [0.0, 1.0, 2.0, 1.5, 0.5, 0.0];
/// assert_eq!(convert_spline_into::<CatmullRom, Bezier, _>(&cv, &mut out[..9]), Err(Refusal::ShortBuffer));
/// assert_eq!(out, [7.0; 11]);
/// assert_eq!(convert_spline_into::<CatmullRom, Bezier, _>(&cv, &mut out), Ok(10));
/// assert_eq!(out[10], 7.0);
/// ```
pub fn convert_spline_into<In: Basis, Out: Basis, T: Double>(cv: &[T], out: &mut [T]) -> Result<usize, Refusal> {
    let (cv, out) = (T::doubles(cv), T::doubles_mut(out));
    let mut written = 0;
    // SAFETY: each pointer and length are a slice's, and `written` is a local.
    let reply = unsafe {
        raw::simmerstoat_convert_spline(
            In::NUMBER,
            Out::NUMBER,
            cv.as_ptr(),
            cv.len() as u64,
            out.as_mut_ptr(),
            out.len() as u64,
            &mut written,
        )
    };
    done(reply, written as usize)
}

/// How many knots in `Out` a curve of `n` knots in `In` has, 16,372 at most; 0 where no curve has `n`.
pub fn room<In: Basis, Out: Basis>(n: usize) -> usize {
    if n > crate::MOST_KNOTS || !In::is_len_ok(n) {
        return 0;
    }
    4 + (n - 4) / In::STEP * Out::STEP
}
