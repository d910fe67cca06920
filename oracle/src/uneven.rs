//! Depth against uneven hours: the model is the refusals in their order, then its inversion of the times and its
//! evaluation of the depths. Where both tables pass, the crate's two calls are made in turn.

use simmerstoat::raw;

use crate::compare::{hold, Input};
use crate::crates;
use crate::inputs::{self, Rng};
use crate::model::{self, Ends, Fate, Method, Options, RefusalNumber, STEP};
use crate::part::Part;
use crate::port::{UNTOUCHED, UNTOUCHED_WHOLE};
use crate::tally::{of_ground, Call, Tally, NO_NUMBER};

pub const PART: Part = Part { once, knots };

/// Set in a reply where the depths are meant.
const DEPTHS: u32 = 1 << 31;

/// A table: the number of its basis, and its knots.
pub type Table<'a> = (usize, &'a [f64]);

/// A reply; the bits of the depth, and of parameter, local place, lower and upper end; ground, segment, the inversion's
/// count and that of both.
#[derive(Clone, Copy, Debug, PartialEq, Eq)]
pub struct DepthReply {
    pub reply: u32,
    pub depth: u64,
    pub place: [u64; 4],
    pub whole: [usize; 4],
}

const NOTHING: DepthReply =
    DepthReply { reply: 0, depth: UNTOUCHED, place: [UNTOUCHED; 4], whole: [UNTOUCHED_WHOLE; 4] };

/// Lengths and knots of the depths, and the number of segments.
fn depths_refused(times: Table, depths: Table) -> Result<(), RefusalNumber> {
    let k = model::curve_length(depths.0, depths.1.len())?;
    model::knots_in_range(depths.1)?;
    if model::curve_length(times.0, times.1.len()) != Ok(k) {
        return Err(18.into());
    }
    Ok(())
}

/// What the port owes, its kind for the tally, and whether the crate answers.
pub fn model(times: Table, depths: Table, y: f64, o: &Options) -> (DepthReply, usize, bool) {
    let i = model::spline_inverse(times.0, y, times.1, o);
    let answers = i.fate == Fate::Answers;
    match (i.answer, depths_refused(times, depths)) {
        (Err(why), _) if why.no != 11 => (DepthReply { reply: why.reply(), ..NOTHING }, why.no as usize, answers),
        (_, Err(why)) => (DepthReply { reply: DEPTHS + why.reply(), ..NOTHING }, why.no as usize, false),
        (Err(why), Ok(())) => {
            let whole = [UNTOUCHED_WHOLE, UNTOUCHED_WHOLE, i.count, UNTOUCHED_WHOLE];
            (DepthReply { reply: why.reply(), whole, ..NOTHING }, 11, answers)
        }
        (Ok(p), Ok(())) => {
            let depth = model::spline(depths.0, p.parameter, depths.1).expect("both tables passed").to_bits();
            let place = [p.parameter, p.local, p.lower, p.upper].map(f64::to_bits);
            let whole = [p.ground as usize, p.segment, i.count, i.count + 1];
            (DepthReply { reply: 0, depth, place, whole }, of_ground(p.ground), answers)
        }
    }
}

fn port(times: (u8, &[f64]), depths: (u8, &[f64]), y: f64, o: &Options) -> DepthReply {
    let (mut depth, mut place, mut whole) =
        (f64::from_bits(UNTOUCHED), [f64::from_bits(UNTOUCHED); 4], [UNTOUCHED_WHOLE as u64; 4]);
    // SAFETY: the pointers and lengths are of slices, and the rest are locals.
    let reply = unsafe {
        raw::simmerstoat_depth_at(
            times.0,
            times.1.as_ptr(),
            times.1.len() as u64,
            depths.0,
            depths.1.as_ptr(),
            depths.1.len() as u64,
            y,
            o.limit,
            o.precision,
            &mut depth,
            &mut place,
            &mut whole,
        )
    };
    DepthReply { reply, depth: depth.to_bits(), place: place.map(f64::to_bits), whole: whole.map(|n| n as usize) }
}

fn compare(t: &mut Tally, times: Table, depths: Table, y: f64, o: &Options) -> DepthReply {
    let more = (depths.1, o);
    let input = Input { call: Call::DepthAt, bases: &[times.0, depths.0], at: y, knots: times.1, more: &more };
    let ours = port((times.0 as u8, times.1), (depths.0 as u8, depths.1), y, o);
    let (expected, answer, answers) = model(times, depths, y, o);
    hold("the model", &input, expected, ours);
    let sent = answers && matches!(ours.reply, 0 | 11);
    if sent {
        let theirs = crates::spline_inverse(times.0, y, times.1, o).map(|x| {
            (x.to_bits(), crates::spline(depths.0, x, depths.1).expect("both tables passed").to_bits())
        });
        hold("the crate's two calls", &input, theirs, (ours.reply == 0).then_some((ours.place[0], ours.depth)));
    }
    t.add(Call::DepthAt, answer, sent);
    ours
}

const DEFAULT: Options = Options { check: true, ..Options::DEFAULT };

fn once(t: &mut Tally) {
    // the crate's own example
    let (times, depths) = ([0.0, 0.0, 0.1, 0.3, 1.0, 1.0], [0.0, 0.0, 1.3, 4.2, 3.2, 3.2]);
    assert_eq!(compare(t, (2, &times), (2, &depths), 0.3, &DEFAULT).reply, 0);
    // as many segments in other bases
    let bezier = [0.0, 0.1, 0.2, 1.3, 2.0, 3.0, 4.2, 4.0, 3.5, 3.2];
    assert_eq!(compare(t, (2, &times), (1, &bezier), 0.3, &DEFAULT).reply, 0);
    assert_eq!(compare(t, (2, &times), (1, &bezier[..7]), 0.3, &DEFAULT).reply, DEPTHS + 18);
    // each refusal of each table, alone and together
    let bad = [0.0, 0.0, f64::NAN, 0.3, 1.0, 1.0];
    let turning = [0.0, 0.0, 3.0, 2.0, 5.0, 5.0];
    let many = vec![0.0; 4097];
    let all: [Table; 10] = [
        (2, &times),
        (2, &depths),
        (2, &times[..3]),
        (1, &times),
        (2, &many),
        (2, &bad),
        (2, &turning),
        (1, &bezier),
        (3, &bezier),
        (4, &times[..5]),
    ];
    for a in all {
        for d in all {
            for y in [0.05, 0.3, 9.0, f64::NAN] {
                for o in [DEFAULT, Options { limit: 0, ..DEFAULT }, Options { precision: 0.0, limit: 0, ..DEFAULT }] {
                    compare(t, a, d, y, &o);
                }
            }
        }
    }
    for (a, d) in [(6, 2), (2, 7), (255, 255)] {
        let ours = port((a, &[]), (d, &[]), f64::NAN, &DEFAULT);
        assert_eq!(ours, DepthReply { reply: 255, ..NOTHING });
        t.add(Call::DepthAt, NO_NUMBER, false);
    }
}

/// The knots are the times; the depths are a curve of as many segments, but for one in eight.
fn knots(t: &mut Tally, r: &mut Rng, tb: usize, knots: &[f64]) {
    let db = r.below(6);
    let k = model::curve_length(tb, knots.len()).unwrap_or(1);
    let k = if r.below(8) == 0 { k + 1 } else { k };
    let mut depths = Vec::new();
    inputs::fill(r, 4 + (k - 1) * STEP[db], &mut depths);
    if r.below(8) == 0 {
        inputs::damage(r, &mut depths);
    }
    let y = inputs::target(r, tb, knots);
    let o = Options { check: true, ends: Ends::Knots, method: Method::AsCrate, ..inputs::options(r) };
    compare(t, (tb, knots), (db, &depths), y, &o);
}
