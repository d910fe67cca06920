//! How far a stopped job had come: each answer, and that no refusal is one.

use simmerstoat::job::Job;
use simmerstoat::prelude::*;
use simmerstoat::table::Table;

const RISING: [f64; 6] = [1.0, 1.0, 1.25, 1.5, 2.0, 2.0];
const FALLING: [f64; 6] = [2.0, 2.0, 1.5, 1.25, 1.0, 1.0];

fn said(knots: &[f64], y: f64) -> Result<Job, Refusal> {
    Table::<Linear>::new(3_000).stopped(y, knots, true)
}

#[test]
fn each_answer() {
    for (knots, sign) in [(RISING, 1.0), (FALLING, -1.0)] {
        let (start, end) = (knots[1], knots[4]);
        assert_eq!(said(&knots, start - sign * 2.0 * f64::EPSILON), Ok(Job::Before));
        assert_eq!(said(&knots, start), Ok(Job::NotBegun));
        assert_eq!(said(&knots, end), Ok(Job::Done));
        assert_eq!(said(&knots, end + sign * 2.0 * f64::EPSILON), Ok(Job::Beyond));
        assert!(matches!(said(&knots, start + sign * 2.0 * f64::EPSILON), Ok(Job::UnderWay { second: 0, .. })));
    }
    // a whole second: 1.5 is where the second of three segments ends
    let Ok(Job::UnderWay { second, place }) = said(&RISING, 1.5) else { panic!("1.5 lies between") };
    assert_eq!((second, place.segment, place.local, place.ground), (2_000, 1, 1.0, Ground::Edge));
    let o = SplineInverseOptions { ends: Ends::Curve, method: Method::Steady, ..Default::default() };
    let o = SplineInverseOptions { max_iterations: core::num::NonZeroU16::new(64), ..o };
    assert_eq!(Table::<Linear>::new(3_000).spline_inverse_with(1.5, &RISING, &o).map(|p| p.place), Ok(place));
}

/// The night of a pivot that is off: whatever the depth, it tells nothing.
#[test]
fn equal_ends() {
    for y in [-1.0, -0.0, 0.0, 5.0, f64::INFINITY, f64::NEG_INFINITY] {
        assert_eq!(said(&[0.0, 0.0, -0.0, 0.0], y), Ok(Job::Flat));
    }
    // they are equal though the curve between them is not
    assert_eq!(Table::<Linear>::new(60).stopped(1.5, &[1.0, 1.0, 2.0, 1.0, 1.0], false), Ok(Job::Flat));
}

/// The ends are the curve's own: a B-spline of 0, 0, 6, 12 goes from 1 to 6, and a Hermite table's last number is a slope.
#[test]
fn own_ends() {
    let heights = [0.0, 0.0, 6.0, 12.0];
    let said = |y| Table::<Bspline>::new(60).stopped(y, &heights, true);
    assert_eq!([said(0.5), said(1.0), said(6.0), said(6.5)], [Job::Before, Job::NotBegun, Job::Done, Job::Beyond].map(Ok));
    let said = |y| Table::<Hermite>::new(60).stopped(y, &[0.0, 1.0, 2.0, 3.0], false);
    assert_eq!([said(2.0), said(2.5)], [Job::Done, Job::Beyond].map(Ok));
}

#[test]
fn refusals() {
    let night = Table::<Linear>::new(60);
    assert_eq!(Table::<Linear>::new(0).stopped(f64::NAN, &RISING[..3], true), Err(Refusal::TooFew));
    assert_eq!(Table::<Linear>::new(0).stopped(f64::NAN, &RISING, true), Err(Refusal::BadSpan));
    assert_eq!(Table::<Linear>::new(86_401).stopped(1.0, &RISING, true), Err(Refusal::BadSpan));
    assert_eq!(night.stopped(f64::NAN, &RISING, true), Err(Refusal::NotANumber));
    assert_eq!(night.stopped(1.0, &[1.0, 1.0, f64::NAN, 2.0], true), Err(Refusal::BadKnot(2)));
    assert_eq!(night.stopped(1.0, &[1.0, 1.0, 3.0, 2.0, 4.0, 4.0], true), Err(Refusal::TurnsBack(2)));
    // two Power segments with a jump from 1 to 2 between them
    let jump = [0.0, 0.0, 1.0, 0.0, 0.0, 0.0, 1.0, 2.0];
    assert_eq!(Table::<Power>::new(60).stopped(1.5, &jump, false), Err(Refusal::OffCurve(6)));
    assert!(matches!(Table::<Power>::new(60).stopped(0.5, &jump, false), Ok(Job::UnderWay { second: 15, .. })));
}
