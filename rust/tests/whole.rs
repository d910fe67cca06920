//! The calls in whole numbers: their refusals in their order, and what they answer.
#![cfg(feature = "whole")]

use simmerstoat::basis::{Basis, Bezier, Bspline, CatmullRom, Hermite, Linear, Power};
use simmerstoat::whole::{monotone, turns_back, turns_back_by, Refusal, Turning, MOST, MOST_ROW, MOST_ROWS};

fn refused<B: Basis>(knots: &[i64], why: Refusal) {
    assert_eq!(turns_back::<B>(knots), Err(why));
    assert_eq!(turns_back_by::<B>(true, knots), Err(why));
    assert_eq!(turns_back_by::<B>(false, knots), Err(why));
}

#[test]
fn refusals_in_order() {
    let bad = [i64::MIN; 4097];
    for n in 0..4 {
        refused::<Power>(&bad[..n], Refusal::TooFew);
    }
    refused::<Power>(&bad[..5], Refusal::BadPattern);
    refused::<Bezier>(&bad[..5], Refusal::BadPattern);
    refused::<Hermite>(&bad[..5], Refusal::BadPattern);
    refused::<Linear>(&bad, Refusal::TooMany);
    refused::<Linear>(&bad[..5], Refusal::BadKnot(0));
    for place in [0, 3, 4095] {
        for knot in [MOST + 1, -MOST - 1, i64::MIN, i64::MAX] {
            let mut knots = [MOST; 4096];
            knots[place] = knot;
            refused::<CatmullRom>(&knots, Refusal::BadKnot(place as u16));
        }
    }
}

#[test]
fn knots_in_order_are_enough_for_three_bases() {
    let depths = [0, 0, 100, 5000, 5050, 5100, 5150];
    assert_eq!(turns_back::<Bspline>(&depths), Ok(Turning::Never));
    assert_eq!(turns_back::<Bezier>(&depths), Ok(Turning::Never));
    assert_eq!(turns_back::<Linear>(&depths), Ok(Turning::Never));
    assert_eq!(turns_back::<CatmullRom>(&depths), Ok(Turning::At(0)));
}

#[test]
fn the_direction_is_the_ends() {
    let falling = [9, 5, 3, 1];
    assert_eq!(turns_back::<Linear>(&falling), Ok(Turning::Never));
    assert_eq!(turns_back_by::<Linear>(false, &falling), Ok(Turning::Never));
    assert_eq!(turns_back_by::<Linear>(true, &falling), Ok(Turning::At(0)));
    assert_eq!(turns_back::<Linear>(&[5, 3, 9, 3, 8]), Ok(Turning::Flat));
    assert_eq!(turns_back_by::<Linear>(true, &[5, 3, 9, 3, 8]), Ok(Turning::At(1)));
}

#[test]
fn a_table_never_turns_back() {
    let mut rows = [0_i64; MOST_ROWS + 1];
    let mut out = [7_i64; 2 * MOST_ROWS + 4];
    for (i, row) in rows.iter_mut().enumerate() {
        *row = (i as i64 / 3) * 1000 + if i % 5 == 0 { 0 } else { 250 * (i as i64 % 3) };
    }
    rows.sort();
    for n in [2, 3, 4, 100, MOST_ROWS] {
        assert_eq!(monotone(&rows[..n], &mut out), Ok(2 * n));
        for i in 0..n {
            assert_eq!(out[2 * i], rows[i]);
        }
        assert!(out[2 * n..].iter().all(|&x| x == 7));
        assert_eq!(turns_back_by::<Hermite>(true, &out[..2 * n]), Ok(Turning::Never));
    }
    assert_eq!(monotone(&rows, &mut out), Err(Refusal::TooMany));
}

#[test]
fn a_refused_table_writes_nothing() {
    let mut rows = [1, 2, 3, 4];
    let mut out = [7; 8];
    assert_eq!(monotone(&rows[..1], &mut out), Err(Refusal::TooFew));
    rows[2] = -MOST_ROW - 1;
    assert_eq!(monotone(&rows, &mut out[..7]), Err(Refusal::ShortBuffer));
    assert_eq!(monotone(&rows, &mut out), Err(Refusal::BadKnot(2)));
    assert_eq!(out, [7; 8]);
    rows[2] = -MOST_ROW;
    assert_eq!(monotone(&rows, &mut out), Ok(8));
    assert_eq!(Refusal::BadKnot(2).number(), 4);
}
