//! What is compared beside the calls of the base, part by part.

use crate::part::Part;
use crate::{claims, modes, stopped, strict, table, turning, uneven, valve};

pub const PARTS: &[Part] = &[
    modes::PART,
    strict::PART,
    uneven::PART,
    table::PART,
    claims::PART,
    stopped::PART,
    valve::PART,
    turning::PART,
];
