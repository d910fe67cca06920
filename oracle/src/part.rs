//! A part of what is compared beside the calls of the base: a file of its own, with its model, its calls of the port and
//! its comparison. `parts.rs` lists the parts, and `tally.rs` their calls.

use crate::inputs::Rng;
use crate::tally::Tally;

#[derive(Clone, Copy)]
pub struct Part {
    /// What needs no curve, once a run: numbers that stand for nothing, readings.
    pub once: fn(&mut Tally),
    /// Compares calls on these knots, some of which the basis of this number takes: every short list of awkward
    /// doubles, and each random curve, whole or damaged. The generator is the part's own; a part that is not about
    /// doubles draws what it asks from it.
    pub knots: fn(&mut Tally, &mut Rng, usize, &[f64]),
}
