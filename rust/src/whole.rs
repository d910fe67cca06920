//! Curves over whole numbers: whether one turns back, decided exactly, and a table whose curve cannot.
//!
//! This module, which the feature `whole` turns on, calls `libsimmerstoat_whole.a`, which `bin/link` writes, for a box's processor
//! `bin/box`, and which holds no floating-point arithmetic. Depths are whole numbers, of thousandths for a sheet's.
//!
//! ```
//! use simmerstoat::basis::{Bspline, CatmullRom, Hermite};
//! use simmerstoat::whole::{monotone, turns_back, Turning};
//!
//! // depths in order, and still the curve through them dips before the burst
//! let depths = [0, 0, 100, 5000, 5050, 5100, 5150, 5200];
//! assert_eq!(turns_back::<CatmullRom>(&depths), Ok(Turning::At(0)));
//! assert_eq!(turns_back::<Bspline>(&depths), Ok(Turning::Never));
//!
//! // a table through every depth whose curve does not
//! let mut table = [0; 16];
//! assert_eq!(monotone(&depths, &mut table), Ok(16));
//! assert_eq!(table[..8], [0, 0, 0, 0, 100, 300, 5000, 150]);
//! assert_eq!(turns_back::<Hermite>(&table), Ok(Turning::Never));
//! ```

use crate::answer::done;
use crate::Basis;
pub use crate::Refusal;

/// The magnitude of a knot at most.
pub const MOST: i64 = 1_000_000_000_000;

/// The magnitude of a row of [`monotone`] at most: half of a knot's, so that every slope is a knot too.
pub const MOST_ROW: i64 = 500_000_000_000;

/// The rows of [`monotone`] at most.
pub const MOST_ROWS: usize = 2048;

extern "C" {
    fn simmerstoat_turns_back(basis: u8, knots: *const i64, n: u64, turning: *mut [u64; 2]) -> u32;
    fn simmerstoat_turns_back_by(basis: u8, up: bool, knots: *const i64, n: u64, turning: *mut [u64; 2]) -> u32;
    fn simmerstoat_monotone(rows: *const i64, n: u64, out: *mut i64, room: u64, written: *mut u64) -> u32;
}

/// Whether a curve turns back.
#[derive(Clone, Copy, Debug, PartialEq, Eq)]
pub enum Turning {
    /// No place of the curve lies on the wrong side of an earlier one.
    Never,
    /// This segment, from 0, goes against the direction, or starts on the wrong side of the end of the one before; in the
    /// segments before it nothing does.
    At(u16),
    /// The curve ends at the depth at which it starts: there is no direction.
    Flat,
}

fn told(reply: u32, turning: [u64; 2]) -> Result<Turning, Refusal> {
    let turning = match turning {
        [0, _] => Turning::Never,
        [1, segment] => Turning::At(segment as u16),
        _ => Turning::Flat,
    };
    done(reply, turning)
}

/// Whether the curve over whole knots goes against the direction from its own start to its own end.
///
/// Refusals: `TooFew`, `BadPattern`, `TooMany`, `BadKnot` (above [`MOST`] in magnitude).
pub fn turns_back<B: Basis>(knots: &[i64]) -> Result<Turning, Refusal> {
    let mut turning = [0; 2];
    // SAFETY: the pointer and length are a slice's, and `turning` is a local.
    let reply = unsafe { simmerstoat_turns_back(B::NUMBER, knots.as_ptr(), knots.len() as u64, &mut turning) };
    told(reply, turning)
}

/// Whether the curve falls anywhere, where `up` is said; else whether it rises anywhere. Never `Turning::Flat`.
///
/// Refusals: those of [`turns_back`].
pub fn turns_back_by<B: Basis>(up: bool, knots: &[i64]) -> Result<Turning, Refusal> {
    let mut turning = [0; 2];
    // SAFETY: as in `turns_back`.
    let reply = unsafe { simmerstoat_turns_back_by(B::NUMBER, up, knots.as_ptr(), knots.len() as u64, &mut turning) };
    told(reply, turning)
}

/// Writes depth, slope, depth, slope, … for rows of depths: the knots of a Hermite curve through every row, which never
/// turns back where the rows keep a direction. Answers how many were written, two for each row; on a refusal `out` keeps
/// all.
///
/// For the functions over doubles divide each number once: `n as f64 / 1000.0` is the double nearest to that decimal.
/// Invert such a table by the curve's own ends and without the order check, which would read slopes as depths.
///
/// Refusals: `TooFew` (below two rows), `TooMany` (above [`MOST_ROWS`]), `ShortBuffer`, `BadKnot` (a row above [`MOST_ROW`] in magnitude).
pub fn monotone(rows: &[i64], out: &mut [i64]) -> Result<usize, Refusal> {
    let mut written = 0;
    // SAFETY: each pointer and length are a slice's, and `written` is a local.
    let reply = unsafe {
        simmerstoat_monotone(rows.as_ptr(), rows.len() as u64, out.as_mut_ptr(), out.len() as u64, &mut written)
    };
    done(reply, written as usize)
}
