//! The depth at a time: the example of the crate's documentation, which makes the two calls in turn, and the refusals.

use simmerstoat::prelude::*;
use simmerstoat::uneven::{depth_at, depth_at_with, WhichTable, TableRefusal};

const TIMES: [f64; 6] = [0.0, 0.0, 0.1, 0.3, 1.0, 1.0];
const DEPTHS: [f64; 6] = [0.0, 0.0, 1.3, 4.2, 3.2, 3.2];
const BEZIER: [f64; 10] = [0.0, 0.1, 0.2, 1.3, 2.0, 3.0, 4.2, 4.0, 3.5, 3.2];

fn in_turn<T: Basis, D: Basis>(y: f64, times: &[f64], depths: &[f64]) {
    let place = spline_inverse::<T, _>(y, times).unwrap();
    let depth = spline::<D, _, _>(place.parameter, depths).unwrap();
    let both = depth_at::<T, D>(y, times, depths).unwrap();
    assert_eq!((both.depth.to_bits(), both.place, both.count), (depth.to_bits(), place, place.count + 1));
}

#[test]
fn the_two_calls_in_turn() {
    for i in 0..=100 {
        in_turn::<CatmullRom, CatmullRom>(f64::from(i) / 100.0, &TIMES, &DEPTHS);
        in_turn::<CatmullRom, Bezier>(f64::from(i) / 100.0, &TIMES, &BEZIER);
    }
    assert!((depth_at::<CatmullRom, CatmullRom>(0.3, &TIMES, &DEPTHS).unwrap().depth - 4.2).abs() < 1e-6);
}

#[test]
fn refusals() {
    let of_times = |refusal| Err(TableRefusal { table: WhichTable::Times, refusal });
    let of_depths = |refusal| Err(TableRefusal { table: WhichTable::Depths, refusal });
    let bad = [0.0, 0.0, f64::NAN, 0.3, 1.0, 1.0];
    let turning = [0.0, 0.0, 3.0, 2.0, 5.0, 5.0];
    // the times, whatever the depths are
    assert_eq!(depth_at::<CatmullRom, CatmullRom>(0.5, &TIMES[..3], &bad[..3]), of_times(Refusal::TooFew));
    assert_eq!(depth_at::<Bezier, CatmullRom>(0.5, &TIMES, &bad[..3]), of_times(Refusal::BadPattern));
    assert_eq!(depth_at::<CatmullRom, CatmullRom>(f64::NAN, &bad, &bad[..3]), of_times(Refusal::NotANumber));
    assert_eq!(depth_at_with::<CatmullRom, CatmullRom>(0.5, &bad, &bad, 0, 0.0), of_times(Refusal::BadPrecision));
    assert_eq!(depth_at_with::<CatmullRom, CatmullRom>(0.5, &bad, &bad, 0, 0.1), of_times(Refusal::NoRounds));
    assert_eq!(depth_at::<CatmullRom, CatmullRom>(0.5, &bad, &bad), of_times(Refusal::BadKnot(2)));
    assert_eq!(depth_at::<CatmullRom, CatmullRom>(0.5, &turning, &bad), of_times(Refusal::TurnsBack(2)));
    // the depths
    assert_eq!(depth_at::<CatmullRom, CatmullRom>(0.5, &TIMES, &bad[..3]), of_depths(Refusal::TooFew));
    assert_eq!(depth_at::<CatmullRom, Bezier>(0.5, &TIMES, &bad), of_depths(Refusal::BadPattern));
    assert_eq!(depth_at::<CatmullRom, CatmullRom>(0.5, &TIMES[..5], &bad), of_depths(Refusal::BadKnot(2)));
    assert_eq!(depth_at::<CatmullRom, Bezier>(0.5, &TIMES, &BEZIER[..7]), of_depths(Refusal::UnequalSegments));
    // 11 last, of the times
    let start = [0.0, 0.0, 6.0, 12.0, 18.0, 24.0];
    assert_eq!(depth_at::<Bspline, CatmullRom>(0.5, &start, &DEPTHS), of_times(Refusal::OffCurve(6)));
    assert_eq!(depth_at::<Bspline, CatmullRom>(0.5, &start, &DEPTHS[..5]), of_depths(Refusal::UnequalSegments));
}
