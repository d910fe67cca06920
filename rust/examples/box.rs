//! What a box does when a job has stopped: the night that held an hour twice, replayed, and each other reply. It prints what
//! `c/box.c` prints; `docs/BOX.md` is about both.

use simmerstoat::job::Job;
use simmerstoat::prelude::*;
use simmerstoat::table::Table;

/// Depths every half hour, two of them the ends once more: as the clock sorted them, and by seconds from the first reading.
const BY_CLOCK: [f64; 10] = [1.0, 1.0, 1.1, 1.2, 1.4, 1.3, 1.5, 1.6, 1.7, 1.7];
const BY_SECONDS: [f64; 10] = [1.0, 1.0, 1.1, 1.2, 1.3, 1.4, 1.5, 1.6, 1.7, 1.7];
const PIVOT_OFF: [f64; 6] = [0.0; 6];
/// A depth, its slope, and so on: with the order check the slopes would be taken for depths.
const WITH_SLOPES: [f64; 4] = [0.0, 1.0, 2.0, 3.0];
const SPAN: u32 = 12_600;

/// Whatever is not said of the job is a refusal, and no refusal starts anything.
fn act(told: Result<Job, Refusal>) -> String {
    match told {
        Ok(Job::Before) => "start: before the start".into(),
        Ok(Job::NotBegun) => "start: at the start".into(),
        Ok(Job::UnderWay { second, .. }) => format!("go on from second {second}"),
        Ok(Job::Done) => "stop: at the end".into(),
        Ok(Job::Beyond) => "stop and call somebody: beyond the end".into(),
        Ok(Job::Flat) => "stop and call somebody: no depth tells, start and end are equal".into(),
        Err(Refusal::TurnsBack(knot)) => format!("stop and call somebody: a knot goes against the direction, knot {knot}"),
        Err(refusal) => format!("stop and call somebody: {refusal}"),
    }
}

fn stopped<B: Basis>(table: &str, knots: &[f64], check: bool, y: f64) {
    println!("{table:12} {y:5.2}  {}", act(Table::<B>::new(SPAN).stopped(y, knots, check)));
}

fn main() {
    stopped::<Linear>("by clock", &BY_CLOCK, true, 1.45);
    for y in [0.90, 1.00, 1.45, 1.70, 1.80] {
        stopped::<Linear>("by seconds", &BY_SECONDS, true, y);
    }
    // the C program prints a NaN as its library has it
    println!("{:12} {:>5}  {}", "by seconds", "nan", act(Table::<Linear>::new(SPAN).stopped(f64::NAN, &BY_SECONDS, true)));
    stopped::<Linear>("pivot off", &PIVOT_OFF, true, 5.0);
    stopped::<Linear>("pivot off", &PIVOT_OFF, true, 0.0);
    stopped::<Hermite>("with slopes", &WITH_SLOPES, false, 1.5);
}
