//! Tables with a span: which spans are refused, in which order, and the second of a place.

use simmerstoat::prelude::*;
use simmerstoat::table::Table;

const KNOTS: [f64; 4] = [0.0, 0.0, 1.0, 1.0];

#[test]
fn spans() {
    for bad in [0, 86_401, 99_999, u32::MAX] {
        let t = Table::<Linear>::new(bad);
        assert_eq!(t.spline(0.5, &KNOTS), Err(Refusal::BadSpan));
        assert_eq!(t.spline(f64::NAN, &KNOTS), Err(Refusal::BadSpan));
        assert_eq!(t.spline(0.5, &KNOTS[..3]), Err(Refusal::TooFew));
        assert_eq!(t.spline_inverse(f64::NAN, &KNOTS), Err(Refusal::BadSpan));
        assert_eq!(t.convert_spline_into::<Linear>(&KNOTS, &mut []).err(), Some(Refusal::BadSpan));
    }
    for good in [1, 86_400] {
        let t = Table::<Linear>::new(good);
        assert_eq!(t.spline(0.5, &KNOTS), Ok(0.5));
        assert_eq!(t.spline(f64::NAN, &KNOTS), Err(Refusal::NotANumber));
        assert_eq!(t.spline_inverse(1.0, &KNOTS).unwrap().second, good);
        assert_eq!(t.spline_inverse(0.0, &KNOTS).unwrap().second, 0);
        assert_eq!(t.convert_spline_into::<Bezier>(&KNOTS, &mut [0.0; 4]).unwrap().0.span, good);
    }
}

/// A whole second exactly, and the double below it.
#[test]
fn seconds() {
    let t = Table::<Linear>::new(65_536);
    let at = |y: f64| t.spline_inverse(y, &KNOTS).unwrap();
    assert_eq!((at(0.25).place.parameter, at(0.25).second), (0.25, 16_384));
    let below = f64::from_bits(0.25f64.to_bits() - 1);
    let found = at(below);
    assert!(found.place.parameter <= 0.25);
    assert_eq!(found.second, (found.place.parameter * 65_536.0) as u32);
}

#[test]
fn the_place_is_the_base_calls() {
    let knots = [0.0, 0.0, 0.1, 0.3, 1.0, 1.0];
    let base = spline_inverse::<CatmullRom, _>(0.2, &knots).unwrap();
    assert_eq!(Table::<CatmullRom>::new(3_600).spline_inverse(0.2, &knots).unwrap().place, base);
    let o = SplineInverseOptions { max_iterations: core::num::NonZeroU16::new(3), ..Default::default() };
    let base = spline_inverse_with::<CatmullRom, _>(0.2, &knots, &o).unwrap();
    assert_eq!(Table::<CatmullRom>::new(3_600).spline_inverse_with(0.2, &knots, &o).unwrap().place, base);
}

/// A bend at a seam: 14 after the lengths, 17 and 15 in their order; where it answers, the table's plain conversion.
#[test]
fn strict() {
    let bend = [0.0, 0.0, 0.0, 0.0, 1.0, 1.0, 1.0];
    let told = |span: u32, n: usize, allowance: f64| {
        let mut out = [-77.25; 8];
        let told = Table::<Bezier>::new(span).convert_spline_strict_into::<Hermite>(&bend[..n], allowance, &mut out);
        if told.is_err() {
            assert_eq!(out, [-77.25; 8]);
        }
        told.map(|(table, n)| (table.span, n, out))
    };
    assert_eq!(told(0, 3, f64::NAN), Err(Refusal::TooFew));
    assert_eq!(told(0, 7, f64::NAN), Err(Refusal::BadSpan));
    assert_eq!(told(86_401, 7, f64::NAN), Err(Refusal::BadSpan));
    assert_eq!(told(1, 7, f64::NAN), Err(Refusal::BadAllowance));
    assert_eq!(told(1, 7, 0.0), Err(Refusal::LostSeam(1)));
    let mut plain = [-77.25; 8];
    let (table, n) = Table::<Bezier>::new(7_200).convert_spline_into::<Hermite>(&bend, &mut plain).unwrap();
    assert_eq!(told(7_200, 7, 3.0), Ok((table.span, n, plain)));
}
