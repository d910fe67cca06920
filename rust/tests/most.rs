//! The most evaluations of an inversion: by the options, and never exceeded.

use core::num::NonZeroU16;
use simmerstoat::prelude::*;

fn options(limit: u16, ends: Ends, method: Method) -> SplineInverseOptions {
    SplineInverseOptions { max_iterations: NonZeroU16::new(limit), precision: Some(1e-300), ends, method, order_check: false }
}

#[test]
fn by_the_options() {
    let by = |n, limit, ends| most_evaluations::<CatmullRom, f64>(n, &options(limit, ends, Method::Taught));
    assert_eq!(by(15, 32, Ends::Knots), 32 + 24);
    assert_eq!(by(15, 32, Ends::Curve), 2 + 32 + 24);
    assert_eq!(by(16, 7, Ends::Knots), 7 + 2 * 4 + 4);
    assert_eq!(most_evaluations::<Bezier, f64>(16, &options(7, Ends::Knots, Method::Steady)), 7 + 24);
    assert_eq!(by(0, 1, Ends::Knots), 1 + 24);
}

#[test]
fn never_exceeded() {
    let knots: Vec<f64> = (0..40).map(|i| f64::from(i) + (f64::from(i * 7 % 16) / 16.0).powi(9)).collect();
    let mut reached = false;
    for n in 4..=knots.len() {
        for ends in [Ends::Knots, Ends::Curve] {
            for method in [Method::AsCrate, Method::Taught, Method::Steady] {
                let o = options(8, ends, method);
                let most = most_evaluations::<CatmullRom, f64>(n, &o);
                for y in (0..90).map(|i| f64::from(i) / 2.0 - 1.0) {
                    let count = match spline_inverse_with::<CatmullRom, _>(y, &knots[..n], &o) {
                        Ok(place) => place.count as u64,
                        Err(Refusal::OffCurve(count)) => count as u64,
                        Err(other) => panic!("{other:?}"),
                    };
                    assert!(count <= most, "{n} knots, {o:?}: {count} above {most}");
                    reached |= count == most;
                }
            }
        }
    }
    assert!(reached, "no inversion takes as many as it may");
}
