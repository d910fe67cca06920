//! Each refusal through the safe functions, with its place; and through the raw ones that nothing is written on a refusal.

use std::num::NonZeroU16;
use std::ptr;

use simmerstoat::prelude::*;
use simmerstoat::raw;

const KNOTS: [f64; 4] = [0.0, 0.0, 1.0, 1.0];
const TOO_LARGE: f64 = 1_099_511_627_776.000_244_140_625;

#[test]
fn lengths() {
    let many = vec![0.0; 4097];
    assert_eq!(spline::<Linear, f64, f64>(0.5, &[]), Err(Refusal::TooFew));
    assert_eq!(spline::<Bezier, _, _>(0.5, &many[..5]), Err(Refusal::BadPattern));
    assert_eq!(spline::<Linear, _, _>(0.5, &many), Err(Refusal::TooMany));
    assert_eq!(spline::<Linear, _, _>(0.5, &many[..4096]), Ok(0.0));
    assert_eq!(spline_segment::<Linear, _, _>(0.5, &many[..3]), Err(Refusal::TooFew));
    assert_eq!(spline_segment::<Linear, _, _>(0.5, &many[..5]), Err(Refusal::BadPattern));
    assert_eq!(spline_inverse::<Power, _>(0.5, &many[..9]), Err(Refusal::BadPattern));
    assert_eq!(spline_inverse_segment::<Power, _>(0.5, &[]), Err(Refusal::TooFew));
    assert_eq!(convert_spline::<Hermite, Bezier, _>(&many[..5]), Err(Refusal::BadPattern));
    assert_eq!(convert_spline::<Linear, Bezier, _>(&many), Err(Refusal::TooMany));
    assert_eq!(convert_spline::<Linear, Bezier, f64>(&[]), Err(Refusal::TooFew));
    assert_eq!((room::<Linear, Power>(4096), room::<Bezier, Bezier>(5), room::<CatmullRom, Bezier>(6)), (16372, 0, 10));
}

#[test]
fn arguments() {
    assert_eq!(spline::<Linear, _, _>(f64::NAN, &KNOTS), Err(Refusal::NotANumber));
    assert_eq!(spline::<Linear, _, _>(f64::INFINITY, &KNOTS), Ok(1.0));
    assert_eq!(spline_segment::<Linear, _, _>(1.5, &KNOTS), Err(Refusal::NotANumber));
    assert_eq!(spline_inverse::<Linear, _>(f64::NAN, &KNOTS), Err(Refusal::NotANumber));
    assert_eq!(spline_inverse::<Linear, _>(f64::INFINITY, &KNOTS).unwrap().ground, Ground::End);
    for bad in [0.0, -1.0, f64::NAN, f64::INFINITY] {
        let o = SplineInverseOptions { precision: Some(bad), ..Default::default() };
        assert_eq!(spline_inverse_with::<Linear, _>(0.5, &KNOTS, &o), Err(Refusal::BadPrecision));
        assert_eq!(spline_inverse_segment_with::<Linear, _>(0.5, &KNOTS, &o), Err(Refusal::BadPrecision));
    }
    assert_eq!(spline_inverse_segment::<Linear, _>(2.0, &KNOTS), Err(Refusal::OffCurve(2)));
}

#[test]
fn knots() {
    for bad in [f64::NAN, f64::INFINITY, f64::NEG_INFINITY, TOO_LARGE, -TOO_LARGE] {
        for i in 0..4 {
            let mut knots = KNOTS;
            knots[i] = bad;
            let told = Refusal::BadKnot(i as u16);
            assert_eq!(spline::<Linear, _, _>(0.5, &knots), Err(told));
            assert_eq!(spline_segment::<Linear, _, _>(0.5, &knots), Err(told));
            assert_eq!(spline_inverse::<Linear, _>(0.5, &knots), Err(told));
            assert_eq!(spline_inverse_segment::<Linear, _>(0.5, &knots), Err(told));
            assert_eq!(convert_segment::<Linear, Bezier, _>(&knots), Err(told));
            assert_eq!(convert_spline::<Linear, Bezier, _>(&knots), Err(told));
        }
    }
    let turning = [0.0, 0.0, 3.0, 2.0, 5.0, 5.0];
    assert_eq!(spline_inverse::<CatmullRom, _>(1.0, &turning), Err(Refusal::TurnsBack(2)));
    let unchecked = SplineInverseOptions { order_check: false, ..Default::default() };
    assert!(spline_inverse_with::<CatmullRom, _>(1.0, &turning, &unchecked).is_ok());
    assert_eq!(convert_segment::<Bezier, Linear, _>(&KNOTS), Err(Refusal::LinearOutput));
    assert_eq!(convert_spline::<Bezier, Linear, _>(&KNOTS), Err(Refusal::LinearOutput));
}

/// The longest table, with a fault at its first knot, its second, in the middle, at its last; with two; and with one of each kind.
#[test]
fn places() {
    const LAST: usize = 4095;
    let rising: Vec<f64> = (0..=LAST).map(|i| i as f64).collect();
    let own_ends = SplineInverseOptions { ends: Ends::Curve, method: Method::Steady, ..Default::default() };
    let every = |knots: &[f64], refused: Refusal| {
        assert_eq!(spline_inverse::<Linear, _>(0.5, knots), Err(refused));
        assert_eq!(spline_inverse_with::<Linear, _>(0.5, knots, &own_ends), Err(refused));
        let in_range = !matches!(refused, Refusal::BadKnot(_));
        assert_eq!(spline::<Linear, _, _>(0.5, knots).err(), if in_range { None } else { Some(refused) });
    };
    for fault in [0, 1, 2048, LAST - 1, LAST] {
        let mut knots = rising.clone();
        knots[fault] = f64::NAN;
        every(&knots, Refusal::BadKnot(fault as u16));
        knots[LAST] = f64::INFINITY;
        every(&knots, Refusal::BadKnot(fault as u16));
    }
    for fault in [2, 2048, LAST - 1, LAST] {
        let mut knots = rising.clone();
        knots[fault] -= 1.5;
        every(&knots, Refusal::TurnsBack(fault as u16 - 1));
        knots[LAST] = -2.0;
        every(&knots, Refusal::TurnsBack(fault as u16 - 1));
    }
    let mut knots = rising.clone();
    knots[0] = 9000.0;
    assert!(spline_inverse::<Linear, _>(0.5, &knots).is_ok());
    knots[9] = 0.0;
    knots[100] = f64::NEG_INFINITY;
    every(&knots, Refusal::BadKnot(100));
    knots[3] = f64::NAN;
    every(&knots, Refusal::BadKnot(3));
}

#[test]
fn messages() {
    assert_eq!(Refusal::TurnsBack(2).to_string(), "knot 2 goes against the direction");
    assert_eq!(Refusal::BadKnot(4095).to_string(), "knot 4095 is not finite or too large");
    assert_eq!((Refusal::TurnsBack(2).number(), Refusal::BadKnot(7).number(), Refusal::LostSeam(1).number()), (10, 4, 15));
}

#[test]
fn readings() {
    let mut rising: Vec<f64> = (0..16).map(|i| 6.0 * (i as f64 - 1.0)).collect();
    rising[0] = 0.0;
    assert_eq!(spline_inverse::<Bspline, _>(0.5, &rising), Err(Refusal::OffCurve(10)));
    assert_eq!(spline_inverse::<Bspline, _>(0.5, &rising[..15]), Err(Refusal::OffCurve(24)));
    let own_ends = SplineInverseOptions { ends: Ends::Curve, ..Default::default() };
    let end = spline_inverse_with::<Bspline, _>(0.5, &rising, &own_ends).unwrap();
    assert_eq!((end.parameter, end.ground, end.count), (0.0, Ground::End, 2));
    assert_eq!(convert_spline::<Bezier, Power, _>(&[0.0, 0.0, 0.0, 1.0]).unwrap(), [1.0, 0.0, 0.0, 0.0]);
    assert_eq!(convert_segment::<Linear, Power, _>(&[9.0, 1.0, 3.0, 9.0]).unwrap(), [0.0, 0.0, 2.0, 1.0]);
    let lost = convert_spline::<Bezier, Hermite, _>(&[0.0, 0.0, 0.0, 0.0, 1.0, 1.0, 1.0]).unwrap();
    assert_eq!(lost, [0.0, 0.0, 0.0, 0.0, 1.0, 0.0]);
    let coarse = SplineInverseOptions { precision: Some(0.125), ..Default::default() };
    let edge = spline_inverse_with::<Linear, _>(0.125, &KNOTS, &coarse).unwrap();
    assert_eq!((edge.parameter, edge.ground, edge.count), (0.0, Ground::Edge, 2));
    let value = spline_inverse_with::<Linear, _>(0.25, &KNOTS, &coarse).unwrap();
    assert_eq!((value.parameter, value.ground, value.count), (0.25, Ground::Value, 3));
}

/// Every method finds the same place on a gentle curve, and the most rounds are kept.
#[test]
fn methods() {
    let knots: Vec<f64> = (0..40).map(|i| (i * i) as f64).collect();
    for method in [Method::AsCrate, Method::Taught, Method::Steady] {
        let o = SplineInverseOptions { method, ..Default::default() };
        let place = spline_inverse_with::<CatmullRom, _>(700.0, &knots, &o).unwrap();
        let there = spline::<CatmullRom, _, _>(place.parameter, &knots).unwrap();
        assert!((there - 700.0).abs() < 1e-6, "{method:?}");
        let one = SplineInverseOptions { max_iterations: NonZeroU16::new(1), precision: Some(1e-300), method, ..Default::default() };
        assert_eq!(spline_inverse_segment_with::<CatmullRom, _>(5.3, &knots[1..5], &one).unwrap().ground, Ground::Spent, "{method:?}");
    }
}

/// Null pointers with no length, and numbers that are no basis, no rule of the ends, no method.
#[test]
fn raw_calls() {
    const KEPT: f64 = -77.25;
    let (mut value, mut place, mut whole, mut written) = (KEPT, [KEPT; 4], [7; 3], 7);
    let (none, no_room) = (ptr::null(), ptr::null_mut());
    unsafe {
        for (b, reply) in [(4, 1), (6, raw::NO_BASIS), (255, raw::NO_BASIS)] {
            assert_eq!(raw::simmerstoat_spline(b, 0.5, none, 0, &mut value), reply);
            assert_eq!(raw::simmerstoat_spline_segment(b, 0.5, none, 0, &mut value), reply);
            assert_eq!(raw::simmerstoat_spline_inverse(b, 0.5, none, 0, true, &mut place, &mut whole), reply);
            let with = raw::simmerstoat_spline_inverse_with;
            assert_eq!(with(b, 0.5, none, 0, true, 32, 1e-10, &mut place, &mut whole), reply);
            let by = raw::simmerstoat_spline_inverse_by;
            assert_eq!(by(b, 0.5, none, 0, true, 32, 1e-10, 1, 2, &mut place, &mut whole), reply);
            assert_eq!(raw::simmerstoat_spline_inverse_segment(b, 0.5, none, 0, &mut place, &mut whole), reply);
            let with = raw::simmerstoat_spline_inverse_segment_with;
            assert_eq!(with(b, 0.5, none, 0, 32, 1e-10, &mut place, &mut whole), reply);
            let by = raw::simmerstoat_spline_inverse_segment_by;
            assert_eq!(by(b, 0.5, none, 0, 32, 1e-10, 2, &mut place, &mut whole), reply);
            assert_eq!(raw::simmerstoat_convert_segment(b, 1, none, 0, no_room, 0), reply);
            assert_eq!(raw::simmerstoat_convert_spline(b, 1, none, 0, no_room, 0, &mut written), reply);
        }
        let k = KNOTS.as_ptr();
        let by = raw::simmerstoat_spline_inverse_by;
        assert_eq!(by(4, 0.5, k, 4, true, 32, 1e-10, 2, 0, &mut place, &mut whole), raw::NO_BASIS);
        assert_eq!(by(4, 0.5, k, 4, true, 32, 1e-10, 0, 3, &mut place, &mut whole), raw::NO_BASIS);
        let by = raw::simmerstoat_spline_inverse_segment_by;
        assert_eq!(by(4, 0.5, k, 4, 32, 1e-10, 3, &mut place, &mut whole), raw::NO_BASIS);
        let with = raw::simmerstoat_spline_inverse_with;
        assert_eq!(with(4, 0.5, k, 4, true, 0, 1e-10, &mut place, &mut whole), 7);
        assert_eq!(raw::simmerstoat_convert_spline(1, 1, k, 4, no_room, 0, &mut written), 9);
        assert_eq!(raw::simmerstoat_is_len_ok(6, 4), 255);
        let mut bad = KNOTS;
        bad[3] = f64::NAN;
        assert_eq!(raw::simmerstoat_spline(4, 0.5, bad.as_ptr(), 4, &mut value), 4 + 256 * 3);
    }
    assert_eq!((value, place, whole, written), (KEPT, [KEPT; 4], [7; 3], 7));
}
