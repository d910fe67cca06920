//! How far a job had come that stopped at a depth.

use crate::table::Table;
use crate::{raw, Basis, Place, Refusal};

/// What the depth at which a job stopped says of the job, by the curve's own start and end as evaluated. A refusal is none of
/// these: it is the error beside them, so that it cannot be taken for a beginning.
#[derive(Clone, Copy, Debug, PartialEq)]
pub enum Job {
    /// Start and end are equal: no depth says how far the job had come.
    Flat,
    /// The depth lies before the start.
    Before,
    /// The depth is the start.
    NotBegun,
    /// The depth lies strictly between start and end; the second is the largest whole number not above parameter × span.
    UnderWay { second: u32, place: Place },
    /// The depth is the end.
    Done,
    /// The depth lies beyond the end.
    Beyond,
}

impl<B: Basis> Table<B> {
    /// How far a job had come that stopped at the depth `y`: by the curve's own ends, and between them by the steady method
    /// with its defaults. With `order_check` knots that turn back are refused; leave it off for `Hermite`, whose knots are
    /// depths and slopes by turns.
    ///
    /// Refusals: those of [`crate::spline_inverse`], and `BadSpan` after the lengths.
    ///
    /// ```
    /// use simmerstoat::{basis::Linear, job::Job, table::Table, Refusal};
    ///
    /// let (night, knots) = (Table::<Linear>::new(12_600), [1.0, 1.0, 1.1, 1.4, 1.4]);
    /// let told = match night.stopped(1.2, &knots, true)? {
    ///     Job::Before | Job::NotBegun => "start".into(),
    ///     Job::UnderWay { second, .. } => format!("go on from second {second}"),
    ///     Job::Done => "stop".into(),
    ///     Job::Beyond | Job::Flat => String::from("stop and call somebody"),
    /// };
    /// assert_eq!(told, "go on from second 8399");
    /// assert_eq!(Table::<Linear>::new(0).stopped(1.0, &knots, true), Err(Refusal::BadSpan));
    /// # Ok::<(), Refusal>(())
    /// ```
    pub fn stopped(self, y: f64, knots: &[f64], order_check: bool) -> Result<Job, Refusal> {
        let (mut job, mut place, mut whole) = (0, [0.0; 4], [0; 4]);
        // SAFETY: the pointer and length are a slice's, and the three records are locals.
        let reply = unsafe {
            let (at, n) = (knots.as_ptr(), knots.len() as u64);
            raw::simmerstoat_stopped(B::NUMBER, self.span, y, at, n, order_check, &mut job, &mut place, &mut whole)
        };
        if reply != 0 {
            return Err(Refusal::of(reply, whole[2]));
        }
        let [ground, segment, count, second] = whole;
        Ok(match job {
            1 => Job::Flat,
            2 => Job::Before,
            3 => Job::NotBegun,
            4 => Job::UnderWay { second: second as u32, place: Place::of(place, [ground, segment, count]) },
            5 => Job::Done,
            6 => Job::Beyond,
            n => unreachable!("there is no job {n}"),
        })
    }
}
