//! The valve's refusals in their order, its rows, and its sums.
#![cfg(feature = "valve")]

use simmerstoat::valve::{mix, Refusal, LAST_STEP, MOST, WHOLE};

#[test]
fn refusals_in_order() {
    let bad = [i64::MIN; 9];
    for n in 0..=9 {
        let wanted = match n {
            0..=3 => Refusal::TooFew,
            4 => Refusal::BadStep,
            _ => Refusal::BadPattern,
        };
        assert_eq!(mix(u16::MAX, &bad[..n]), Err(wanted));
    }
    assert_eq!(mix(LAST_STEP + 1, &bad[..4]), Err(Refusal::BadStep));
    assert_eq!(mix(LAST_STEP, &bad[..4]), Err(Refusal::BadKnot(0)));
}

#[test]
fn each_knot_has_its_place() {
    for place in 0..4 {
        for knot in [MOST + 1, -MOST - 1, i64::MIN, i64::MAX] {
            let mut knots = [MOST, -MOST, 0, 1];
            knots[place] = knot;
            assert_eq!(mix(128, &knots), Err(Refusal::BadKnot(place as u16)));
        }
    }
}

#[test]
fn constant_knots_give_the_knot_times_the_whole() {
    for step in 0..=LAST_STEP {
        for knot in [MOST, -MOST, 1, 0, -77] {
            assert_eq!(mix(step, &[knot; 4]), Ok(knot * WHOLE));
        }
    }
}

#[test]
fn one_knot_gives_its_weight() {
    for j in 0..=256_i64 {
        let weights = [
            (256 - j).pow(3),
            3 * j.pow(3) - 6 * 256 * j.pow(2) + 4 * 256_i64.pow(3),
            -3 * j.pow(3) + 3 * 256 * j.pow(2) + 3 * 256_i64.pow(2) * j + 256_i64.pow(3),
            j.pow(3),
        ];
        for i in 0..4 {
            let mut knots = [0; 4];
            knots[i] = 1;
            assert_eq!(mix(j as u16, &knots), Ok(weights[i]));
        }
    }
}
