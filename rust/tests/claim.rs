//! Claims of places: our own answers, in every mode and by every method; what differs; the refusals.

use simmerstoat::claim::check_claim;
use simmerstoat::prelude::*;

const NIGHT: [f64; 10] = [-1.2, 0.0, 1.25, 2.5, 3.75, 4.5, 5.0, 5.5, 7.0, 7.5];
/// Two segments of coefficients, from 0 to 2.5 and on to 5.
const POWERS: [f64; 8] = [0.5, 0.0, 2.0, 0.0, 0.5, 0.0, 2.0, 2.5];

/// How many answers by value or edge there were; each of them holds.
fn own<B: Basis>(knots: &[f64], ends: Ends, method: Method) -> usize {
    let mut made = 0;
    for i in 0..=400 {
        let y = -1.2 + 8.7 * f64::from(i) / 400.0;
        let options = SplineInverseOptions { order_check: false, ends, method, ..Default::default() };
        let Ok(found) = spline_inverse_with::<B, _>(y, knots, &options) else { continue };
        if matches!(found.ground, Ground::Value | Ground::Edge) {
            made += 1;
            assert_eq!(check_claim::<B>(y, found.segment, found.local, 1e-10, knots), Ok(true), "{y} {found:?}");
        }
        let Ok(found) = spline_inverse_segment_with::<B, _>(y, &knots[..4], &options) else { continue };
        if matches!(found.ground, Ground::Value | Ground::Edge) {
            made += 1;
            assert_eq!(check_claim::<B>(y, found.segment, found.local, 1e-10, &knots[..4]), Ok(true), "{y} {found:?}");
        }
    }
    made
}

#[test]
fn our_own_answers() {
    for ends in [Ends::Knots, Ends::Curve] {
        for method in [Method::AsCrate, Method::Taught, Method::Steady] {
            let made = [
                own::<Bspline>(&NIGHT, ends, method),
                own::<Bezier>(&NIGHT, ends, method),
                own::<CatmullRom>(&NIGHT, ends, method),
                own::<Hermite>(&NIGHT, ends, method),
                own::<Linear>(&NIGHT, ends, method),
                own::<Power>(&POWERS, ends, method),
            ];
            assert!(made.iter().all(|&n| n > 20), "{made:?}");
        }
    }
}

#[test]
fn what_differs() {
    let (steep, away) = ([0.0, 8.0, 12.0, 16.0], [0.0, 0.0, 6.0, 12.0]);
    let half = SplineInverseOptions { precision: Some(0.5), ..Default::default() };
    let found = spline_inverse_with::<Bezier, _>(4.0, &steep, &half).unwrap();
    assert_eq!((found.ground, found.local), (Ground::Width, 0.125));
    assert_eq!(check_claim::<Bezier>(4.0, 0, 0.125, 0.5, &steep), Ok(false));
    let found = spline_inverse::<Bspline, _>(0.0, &away).unwrap();
    assert_eq!((found.ground, found.local), (Ground::End, 0.0));
    assert_eq!(check_claim::<Bspline>(0.0, 0, 0.0, 1e-10, &away), Ok(false));
    // places outside 0 to 1, and a difference of just twice the precision
    for x in [-1e-300, 1.0 + f64::EPSILON, f64::INFINITY, f64::NEG_INFINITY] {
        assert_eq!(check_claim::<Bspline>(1.0, 0, x, 8.0, &away), Ok(false));
    }
    assert_eq!(check_claim::<Bspline>(1.0, 0, -0.0, 1e-10, &away), Ok(true));
    assert_eq!(check_claim::<Bspline>(0.0, 0, 0.0, 0.5, &away), Ok(false));
    assert_eq!(check_claim::<Bspline>(0.0, 0, 0.0, 0.5 + f64::EPSILON, &away), Ok(true));
}

#[test]
fn refusals() {
    let nan = f64::NAN;
    let bad = [0.0, 1.0, nan, 3.0, f64::INFINITY];
    assert_eq!(check_claim::<Linear>(nan, 9, nan, 0.0, &bad[..3]), Err(Refusal::TooFew));
    assert_eq!(check_claim::<Bezier>(nan, 9, nan, 0.0, &bad), Err(Refusal::BadPattern));
    assert_eq!(check_claim::<Linear>(nan, 9, nan, 0.0, &[nan; 4097]), Err(Refusal::TooMany));
    assert_eq!(check_claim::<Linear>(nan, 9, 0.0, 0.0, &bad), Err(Refusal::NotANumber));
    assert_eq!(check_claim::<Linear>(0.0, 9, nan, 0.0, &bad), Err(Refusal::NotANumber));
    for precision in [0.0, -1.0, f64::INFINITY, nan] {
        assert_eq!(check_claim::<Linear>(0.0, 9, 2.0, precision, &bad), Err(Refusal::BadPrecision));
    }
    assert_eq!(check_claim::<Linear>(0.0, 2, 2.0, 1.0, &bad), Err(Refusal::NoSegment));
    assert_eq!(check_claim::<Linear>(0.0, usize::MAX, 2.0, 1.0, &bad), Err(Refusal::NoSegment));
    assert_eq!(check_claim::<Linear>(0.0, 1, 2.0, 1.0, &bad), Err(Refusal::BadKnot(2)));
}
