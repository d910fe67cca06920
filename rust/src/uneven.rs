//! A curve over uneven hours: a table of times, and one of depths.

use crate::{found, raw, Basis, Place, Refusal};

/// The table that a refusal is of.
#[derive(Clone, Copy, Debug, PartialEq, Eq)]
pub enum WhichTable {
    Times,
    Depths,
}

/// Why no depth is told: a refusal and its table. `UnequalSegments` is of the depths, `OffCurve` of the times.
#[derive(Clone, Copy, Debug, PartialEq, Eq)]
pub struct TableRefusal {
    pub table: WhichTable,
    pub refusal: Refusal,
}

/// The depth at a time.
#[derive(Clone, Copy, Debug, PartialEq)]
pub struct Depth {
    pub depth: f64,
    /// Where the time was found in its table.
    pub place: Place,
    /// The evaluations of both tables: those of the place, and one.
    pub count: u32,
}

/// The depth at `y` of the times, with 32 rounds and precision 1e-10. The times must not turn back, and the two tables must
/// have as many segments, each in its own basis.
///
/// Refusals, each with its table: of the times those of an inversion but `OffCurve`; of the depths `TooFew`, `BadPattern`,
/// `TooMany`, `BadKnot`, `UnequalSegments`; then `OffCurve`.
///
/// ```
/// use simmerstoat::{basis::CatmullRom, uneven::depth_at};
///
/// let times = [0.0, 0.0, 0.1, 0.3, 1.0, 1.0];
/// let depths = [0.0, 0.0, 1.3, 4.2, 3.2, 3.2];
/// let there = depth_at::<CatmullRom, CatmullRom>(0.3, &times, &depths).unwrap();
/// assert!((there.depth - 4.2).abs() < 1e-6);
/// assert_eq!(there.count, there.place.count + 1);
/// ```
pub fn depth_at<T: Basis, D: Basis>(y: f64, times: &[f64], depths: &[f64]) -> Result<Depth, TableRefusal> {
    depth_at_with::<T, D>(y, times, depths, 32, 1e-10)
}

/// The same with a limit of rounds and a precision; the times may then be refused with `BadPrecision` and `NoRounds` too.
pub fn depth_at_with<T: Basis, D: Basis>(
    y: f64,
    times: &[f64],
    depths: &[f64],
    limit: u16,
    precision: f64,
) -> Result<Depth, TableRefusal> {
    let (mut depth, mut place, mut whole) = (0.0, [0.0; 4], [0; 4]);
    // SAFETY: each pointer and length are a slice's, and the rest are locals.
    let reply = unsafe {
        raw::simmerstoat_depth_at(
            T::NUMBER,
            times.as_ptr(),
            times.len() as u64,
            D::NUMBER,
            depths.as_ptr(),
            depths.len() as u64,
            y,
            limit,
            precision,
            &mut depth,
            &mut place,
            &mut whole,
        )
    };
    let table = if reply & raw::OF_DEPTHS == 0 { WhichTable::Times } else { WhichTable::Depths };
    match found(reply & !raw::OF_DEPTHS, place, [whole[0], whole[1], whole[2]]) {
        Ok(place) => Ok(Depth { depth, place, count: whole[3] as u32 }),
        Err(refusal) => Err(TableRefusal { table, refusal }),
    }
}
