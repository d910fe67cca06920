//! Valves that count in whole steps: four whole knots mixed at one of 257 places, in whole numbers alone.
//!
//! This module, which the feature `valve` turns on, calls `libvalve.a`, which `bin/link` writes, for a box's processor `bin/box`, and which
//! holds no floating-point arithmetic.
//!
//! ```
//! use simmerstoat::valve::{mix, Refusal, WHOLE};
//!
//! assert_eq!(mix(128, &[5, 5, 5, 5]), Ok(5 * WHOLE));
//! assert_eq!(mix(0, &[6, 0, 0, 0]), Ok(WHOLE));
//! assert_eq!(mix(257, &[5, 5, 5, 5]), Err(Refusal::BadStep));
//! assert_eq!(mix(0, &[5, 5, 1_000_001, 5]), Err(Refusal::BadKnot(2)));
//! ```

use crate::answer::done;
pub use crate::Refusal;

/// What the four weights of every step come to: 6 · 256³. A sum divided by it is the B-spline at step/256.
pub const WHOLE: i64 = 100_663_296;

/// The last step.
pub const LAST_STEP: u16 = 256;

/// The magnitude of a knot at most.
pub const MOST: i64 = 1_000_000;

extern "C" {
    fn simmerstoat_valve(step: u16, knots: *const i64, n: u64, sum: *mut i64) -> u32;
}

/// The weighted sum of four knots at a step from 0 to 256, undivided.
///
/// Refusals: `TooFew`, `BadPattern`, `BadStep`, `BadKnot` (above [`MOST`] in magnitude).
pub fn mix(step: u16, knots: &[i64]) -> Result<i64, Refusal> {
    let mut sum = 0;
    // SAFETY: the pointer and length are a slice's, and `sum` is a local.
    let reply = unsafe { simmerstoat_valve(step, knots.as_ptr(), knots.len() as u64, &mut sum) };
    done(reply, sum)
}
