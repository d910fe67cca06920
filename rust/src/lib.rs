//! Uniform cubic splines over doubles, proved.
//!
//! This package calls `libsimmerstoat.a`, which `bin/archives simmerstoat` writes. Its functions have the names of the crate
//! uniform-cubic-splines 0.5.2, and where the crate answers and none of the [refusals](Refusal) comes first they answer the
//! same bits. What they add are the refusals, which keep every input from a panic or an endless loop, and the record of an
//! inversion ([`Place`]). [`moving`] says what to change in a program that calls the crate.
//!
//! An inversion and an evaluation together make a spline over uneven places. It is the steady method's inversion: it never
//! stops for want of rounds ([`Ground::Spent`]), as the crate's does on curves like a night's, so that a program on a box has
//! no such place to answer for.
//!
//! ```
//! use simmerstoat::prelude::*;
//!
//! let places = [0.0, 0.0, 0.1, 0.3, 1.0, 1.0];
//! let depths = [0.0, 0.0, 1.3, 4.2, 3.2, 3.2];
//!
//! let found = spline_inverse_steady::<CatmullRom, _>(0.3, &places)?;
//! let depth = spline::<CatmullRom, _, _>(found.parameter, &depths)?;
//! assert!((depth - 4.2).abs() < 1e-6);
//! # Ok::<(), Refusal>(())
//! ```
//!
//! A refusal says which knot:
//!
//! ```
//! use simmerstoat::prelude::*;
//!
//! let mistyped = [0.0, 0.0, 0.4, 0.3, 1.0, 1.0];
//! let refused = spline_inverse::<CatmullRom, _>(0.3, &mistyped).unwrap_err();
//! assert_eq!(refused, Refusal::TurnsBack(2));
//! assert_eq!(refused.to_string(), "knot 2 goes against the direction");
//! ```
//!
//! How far a job had come that stopped at a depth is asked with [`table::Table::stopped`]; its answer is a [`job::Job`], and no
//! refusal is among its cases.
//!
//! # What a caller owes
//!
//! The floating-point state that Rust programs start with, and that Rust itself presumes: round to nearest, no flush to
//! zero, no denormals taken as zero. Every value, bound and place is proved for that state alone; foreign code that
//! changes it, such as a library built with `-ffast-math`, breaks the premise: with another rounding mode a parameter above 1
//! has come out.
//!
//! # What it needs
//!
//! The archive of its target: x86-64 Linux, or one of those that `bin/box` builds; and no standard library. The feature `alloc`, on by
//! default, adds [`convert::convert_spline`], which answers a `Vec`; [`convert::convert_spline_into`] needs none. The feature `valve` adds
//! the module of that name, and asks for `libvalve.a` besides; so does `whole` for `libsimmerstoat_whole.a`. The archives have no state
//! and no heap, so every function may be called from any thread.
#![no_std]

#[cfg(feature = "alloc")]
extern crate alloc;
#[cfg(test)]
extern crate std;

mod answer;
pub mod basis;
pub mod claim;
pub mod convert;
mod double;
pub mod job;
mod options;
pub mod raw;
mod steady;
pub mod uneven;
pub mod strict;
pub mod table;
#[cfg(feature = "valve")]
pub mod valve;
#[cfg(feature = "whole")]
pub mod whole;

pub use answer::{Ground, Place, Refusal};
pub(crate) use answer::{done, found};
pub use basis::*;
pub use double::Double;
pub use options::{Ends, Method, SplineInverseOptions};
pub use steady::{spline_inverse_segment_steady, spline_inverse_steady};

pub mod prelude {
    //! All names but the raw exports.
    pub use crate::basis::*;
    pub use crate::convert::*;
    pub use crate::strict::*;
    pub use crate::*;
}

#[doc = include_str!("../MOVING.md")]
pub mod moving {}

/// The knots of a curve at most.
pub const MOST_KNOTS: usize = 4096;

/// The version of the archive that is linked, which is this package's: major, minor, patch.
pub fn version() -> [u8; 3] {
    // SAFETY: no pointer is passed.
    let [_, major, minor, patch] = unsafe { raw::simmerstoat_version() }.to_be_bytes();
    [major, minor, patch]
}

/// The value of the curve at `x`, which is clamped to 0 to 1.
///
/// Refusals: `TooFew`, `BadPattern`, `TooMany`, `NotANumber`, `BadKnot`.
///
/// ```
/// use simmerstoat::{basis::CatmullRom, spline, Refusal};
///
/// let knots = [-0.4, 0.0, 0.4, 0.5, 0.9, 1.0, 1.9];
/// assert_eq!(spline::<CatmullRom, _, _>(0.25, &knots), Ok(0.4));
/// assert_eq!(spline::<CatmullRom, _, _>(f64::NAN, &knots), Err(Refusal::NotANumber));
/// ```
pub fn spline<B: Basis, T: Double, U: Double>(x: T, knots: &[U]) -> Result<U, Refusal> {
    let knots = U::doubles(knots);
    let mut value = 0.0;
    // SAFETY: the pointer and length are a slice's, and `value` is a local.
    let reply = unsafe { raw::simmerstoat_spline(B::NUMBER, x.double(), knots.as_ptr(), knots.len() as u64, &mut value) };
    done(reply, U::of(value))
}

/// The value of one segment of four knots at `x`, from 0 to 1.
///
/// Refusals: `TooFew`, `BadPattern`, `NotANumber`, `BadKnot`.
///
/// ```
/// use simmerstoat::{basis::Linear, spline_segment, Refusal};
///
/// assert_eq!(spline_segment::<Linear, _, _>(0.5, &[9.0, 1.0, 3.0, 9.0]), Ok(2.0));
/// assert_eq!(spline_segment::<Linear, _, _>(1.5, &[9.0, 1.0, 3.0, 9.0]), Err(Refusal::NotANumber));
/// ```
pub fn spline_segment<B: Basis, T: Double, U: Double>(x: T, cv: &[U]) -> Result<U, Refusal> {
    let cv = U::doubles(cv);
    let mut value = 0.0;
    // SAFETY: as in `spline`.
    let reply = unsafe { raw::simmerstoat_spline_segment(B::NUMBER, x.double(), cv.as_ptr(), cv.len() as u64, &mut value) };
    done(reply, U::of(value))
}

/// The place where the curve is at `y`, with the defaults and the order check.
///
/// Refusals: `TooFew`, `BadPattern`, `TooMany`, `NotANumber`, `BadKnot`, `TurnsBack`, `OffCurve`.
///
/// ```
/// use simmerstoat::prelude::*;
///
/// let found = spline_inverse::<Linear, _>(0.25, &[0.0, 0.0, 0.5, 0.5])?;
/// assert_eq!((found.parameter, found.ground, found.count), (0.5, Ground::Value, 3));
///
/// let turning = [0.0, 0.0, 3.0, 2.0, 5.0, 5.0];
/// assert_eq!(spline_inverse::<CatmullRom, _>(1.0, &turning), Err(Refusal::TurnsBack(2)));
/// # Ok::<(), Refusal>(())
/// ```
pub fn spline_inverse<B: Basis, T: Double>(y: T, knots: &[T]) -> Result<Place, Refusal> {
    let knots = T::doubles(knots);
    let (mut place, mut whole) = ([0.0; 4], [0; 3]);
    // SAFETY: the pointer and length are a slice's, and both records are locals.
    let reply = unsafe {
        raw::simmerstoat_spline_inverse(B::NUMBER, y.double(), knots.as_ptr(), knots.len() as u64, true, &mut place, &mut whole)
    };
    found(reply, place, whole)
}

/// The place where the curve is at `y`, as the options say.
///
/// Refusals: those of [`spline_inverse`], `BadPrecision`.
///
/// ```
/// use core::num::NonZeroU16;
/// use simmerstoat::prelude::*;
///
/// let knots = [0.0, 0.0, 0.5, 0.5];
/// let sixteen = SplineInverseOptions { max_iterations: NonZeroU16::new(16), ..Default::default() };
/// assert_eq!(spline_inverse_with::<Linear, _>(0.25, &knots, &sixteen)?.parameter, 0.5);
///
/// let steady = SplineInverseOptions { precision: Some(1e-8), method: Method::Steady, ..Default::default() };
/// assert_eq!(spline_inverse_with::<Linear, _>(0.25, &knots, &steady)?.parameter, 0.5);
///
/// let nought = SplineInverseOptions { precision: Some(0.0), ..Default::default() };
/// assert_eq!(spline_inverse_with::<Linear, _>(0.25, &knots, &nought), Err(Refusal::BadPrecision));
/// # Ok::<(), Refusal>(())
/// ```
pub fn spline_inverse_with<B: Basis, T: Double>(
    y: T,
    knots: &[T],
    options: &SplineInverseOptions<T>,
) -> Result<Place, Refusal> {
    let knots = T::doubles(knots);
    let (mut place, mut whole) = ([0.0; 4], [0; 3]);
    // SAFETY: as in `spline_inverse`.
    let reply = unsafe {
        raw::simmerstoat_spline_inverse_by(
            B::NUMBER,
            y.double(),
            knots.as_ptr(),
            knots.len() as u64,
            options.order_check,
            options.limit(),
            options.precision(),
            options.ends.number(),
            options.method.number(),
            &mut place,
            &mut whole,
        )
    };
    found(reply, place, whole)
}

/// The most evaluations that [`spline_inverse_with`] makes of `n` knots by these options, whatever the knots, the target and the
/// precision are: its count is never greater, with a place or with `OffCurve`. So a task can set its time aside before the call.
///
/// ```
/// use simmerstoat::prelude::*;
///
/// let knots = [0.0, 0.0, 0.5, 0.5];
/// let most = most_evaluations::<Linear, f64>(knots.len(), &SplineInverseOptions::default());
/// assert_eq!(most, 32 + 24);
/// assert!(u64::from(spline_inverse::<Linear, _>(0.25, &knots)?.count) <= most);
/// # Ok::<(), Refusal>(())
/// ```
pub fn most_evaluations<B: Basis, T: Double>(n: usize, options: &SplineInverseOptions<T>) -> u64 {
    let mut most = 0;
    // SAFETY: the number is a local.
    let reply = unsafe {
        raw::simmerstoat_most_evaluations(
            B::NUMBER,
            n as u64,
            options.limit(),
            options.ends.number(),
            options.method.number(),
            &mut most,
        )
    };
    debug_assert_eq!(reply, 0, "every basis, rule and method of this package has a number");
    most
}

/// The place in one segment of four knots where it is at `y`, with the defaults.
///
/// Refusals: `TooFew`, `BadPattern`, `NotANumber`, `BadKnot`, `OffCurve`.
///
/// ```
/// use simmerstoat::{basis::Linear, spline_inverse_segment, Refusal};
///
/// let cv = [0.0, 0.25, 0.75, 1.0];
/// assert_eq!(spline_inverse_segment::<Linear, _>(0.5, &cv)?.local, 0.5);
/// assert_eq!(spline_inverse_segment::<Linear, _>(0.9, &cv), Err(Refusal::OffCurve(2)));
/// # Ok::<(), Refusal>(())
/// ```
pub fn spline_inverse_segment<B: Basis, T: Double>(y: T, cv: &[T]) -> Result<Place, Refusal> {
    let cv = T::doubles(cv);
    let (mut place, mut whole) = ([0.0; 4], [0; 3]);
    // SAFETY: as in `spline_inverse`.
    let reply = unsafe {
        raw::simmerstoat_spline_inverse_segment(B::NUMBER, y.double(), cv.as_ptr(), cv.len() as u64, &mut place, &mut whole)
    };
    found(reply, place, whole)
}

/// The place in one segment of four knots where it is at `y`, as the options say.
///
/// Refusals: those of [`spline_inverse_segment`], `BadPrecision`.
///
/// ```
/// use simmerstoat::{basis::Linear, spline_inverse_segment_with, SplineInverseOptions};
///
/// let cv = [0.0, 0.25, 0.75, 1.0];
/// let found = spline_inverse_segment_with::<Linear, _>(0.5, &cv, &SplineInverseOptions::default());
/// assert!(found.is_ok());
/// ```
pub fn spline_inverse_segment_with<B: Basis, T: Double>(
    y: T,
    cv: &[T],
    options: &SplineInverseOptions<T>,
) -> Result<Place, Refusal> {
    let cv = T::doubles(cv);
    let (mut place, mut whole) = ([0.0; 4], [0; 3]);
    // SAFETY: as in `spline_inverse`.
    let reply = unsafe {
        raw::simmerstoat_spline_inverse_segment_by(
            B::NUMBER,
            y.double(),
            cv.as_ptr(),
            cv.len() as u64,
            options.limit(),
            options.precision(),
            options.method.number(),
            &mut place,
            &mut whole,
        )
    };
    found(reply, place, whole)
}
