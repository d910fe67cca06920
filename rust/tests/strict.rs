//! Strict conversion: where it refuses, and that it is the plain conversion where it does not.

use simmerstoat::prelude::*;
use simmerstoat::strict::convert_spline_strict_into;

const BEND: [f64; 7] = [0.0, 0.0, 0.0, 0.0, 1.0, 1.0, 1.0];

fn strict<In: Basis, Out: Basis>(cv: &[f64], allowance: f64, room: usize) -> Result<usize, Refusal> {
    let mut out = [-77.25; 64];
    let mut plain = [-77.25; 64];
    let told = convert_spline_strict_into::<In, Out>(cv, allowance, &mut out[..room]);
    match told {
        Ok(n) => {
            assert_eq!(convert_spline_into::<In, Out, _>(cv, &mut plain[..room]), Ok(n));
            assert_eq!(out.map(f64::to_bits), plain.map(f64::to_bits));
        }
        Err(_) => assert_eq!(out, [-77.25; 64]),
    }
    told
}

#[test]
fn a_bend() {
    assert_eq!(strict::<Bezier, Hermite>(&BEND, 0.0, 64), Err(Refusal::LostSeam(1)));
    assert_eq!(strict::<Bezier, Hermite>(&BEND, -0.0, 64), Err(Refusal::LostSeam(1)));
    assert_eq!(strict::<Bezier, Hermite>(&BEND, f64::from_bits(3f64.to_bits() - 1), 64), Err(Refusal::LostSeam(1)));
    assert_eq!(strict::<Bezier, Hermite>(&BEND, 3.0, 64), Ok(6));
    assert_eq!(strict::<Bezier, Power>(&BEND, 0.0, 64), Ok(8));
    assert_eq!(strict::<Bezier, Hermite>(&BEND[..4], 0.0, 64), Ok(4));
}

#[test]
fn refusals() {
    let bad = [0.0, 0.0, 0.0, 0.0, 1.0, f64::NAN, 1.0];
    assert_eq!(strict::<Bezier, Linear>(&bad[..3], f64::NAN, 0), Err(Refusal::TooFew));
    assert_eq!(strict::<Bezier, Linear>(&bad[..5], f64::NAN, 0), Err(Refusal::BadPattern));
    assert_eq!(strict::<Bezier, Linear>(&bad, f64::NAN, 0), Err(Refusal::LinearOutput));
    for allowance in [f64::NAN, f64::INFINITY, f64::NEG_INFINITY, -1e-300] {
        assert_eq!(strict::<Bezier, Hermite>(&bad, allowance, 0), Err(Refusal::BadAllowance));
    }
    assert_eq!(strict::<Bezier, Hermite>(&bad, 0.0, 5), Err(Refusal::ShortBuffer));
    assert_eq!(strict::<Bezier, Hermite>(&bad, 0.0, 6), Err(Refusal::BadKnot(5)));
}
