//! The steady method with its defaults: as with options, never spent, within its bounds.

use core::num::NonZeroU16;
use simmerstoat::prelude::*;
use simmerstoat::table::Table;

fn options() -> SplineInverseOptions {
    SplineInverseOptions { max_iterations: NonZeroU16::new(64), method: Method::Steady, ..Default::default() }
}

/// Rising knots, some of them close to a rest.
fn climb(n: usize, seed: u64) -> Vec<f64> {
    let (mut x, mut at) = (seed, 0.0);
    (0..n)
        .map(|_| {
            x = x.wrapping_mul(6_364_136_223_846_793_005).wrapping_add(1_442_695_040_888_963_407);
            let step = (x >> 40) as f64 / (1u64 << 24) as f64;
            at += step.powi(12) * 1e3;
            at
        })
        .collect()
}

#[test]
fn as_with_options_and_never_spent() {
    let (mut answered, mut spent) = (0, 0);
    for seed in 0..2_000 {
        let knots = climb(4 + seed as usize % 40, seed);
        let y = knots[1] + (knots[knots.len() - 2] - knots[1]) * 0.37;
        let found = spline_inverse_steady::<CatmullRom, _>(y, &knots);
        assert_eq!(found, spline_inverse_with::<CatmullRom, _>(y, &knots, &options()));
        assert_eq!(Table::<CatmullRom>::new(60).spline_inverse_steady(y, &knots).map(|t| t.place), found);
        if let Ok(place) = found {
            let segments = knots.len() - 3;
            let bits = usize::BITS - segments.leading_zeros();
            assert!(place.ground != Ground::Spent);
            assert!(place.count <= if segments <= 12 { 63 } else { 43 + 2 * bits });
        }
        let cv = &knots[..4];
        let y = cv[1] + (cv[2] - cv[1]) * 0.37;
        let found = spline_inverse_segment_steady::<CatmullRom, _>(y, cv);
        assert_eq!(found, spline_inverse_segment_with::<CatmullRom, _>(y, cv, &options()));
        match found {
            Ok(place) => {
                answered += 1;
                assert!(place.ground != Ground::Spent && place.count <= 41);
            }
            // where the two middle knots are all but the same, rounding may leave the target outside the segment's end values
            Err(refusal) => assert_eq!(refusal, Refusal::OffCurve(2)),
        }
        spent += spline_inverse_segment::<CatmullRom, _>(y, cv).is_ok_and(|p| p.ground == Ground::Spent) as usize;
    }
    assert!(answered > 1_900, "{answered} targets of 2,000 lie on their segments");
    assert!(spent > 0, "the crate's rule is spent on none of these");
}

#[test]
fn refusals() {
    let back = [0.0, 0.0, 2.0, 1.0, 3.0, 3.0];
    assert_eq!(spline_inverse_steady::<Linear, _>(0.5, &back), Err(Refusal::TurnsBack(2)));
    assert_eq!(spline_inverse_steady::<Linear, _>(f64::NAN, &back), Err(Refusal::NotANumber));
    assert_eq!(spline_inverse_segment_steady::<Linear, _>(9.0, &back[..4]), Err(Refusal::OffCurve(2)));
    assert_eq!(Table::<Linear>::new(0).spline_inverse_steady(0.5, &back), Err(Refusal::BadSpan));
}
