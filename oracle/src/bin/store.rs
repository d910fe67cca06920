//! `store` prints a list of the judge's answers for crates/test_replay, which that crate's README.md describes.
//!
//! Values, parameters, conversions and the crate's own refusals are its answers. The rest of an inversion's record is
//! the model's, and so is what the crate does not have: the place of a refusal, other ends and methods, a bad knot.
//! The calls beside the base's, at the list's end, are wholly those of their models.

use judge::claims::{self, Claim};
use judge::crates;
use judge::inputs::{self, Rng};
use judge::model::{self, Ends, Fate, Method, Options, STEP};
use judge::port::{UNTOUCHED, UNTOUCHED_WHOLE};
use judge::stopped;
use judge::strict;
use judge::table;
use judge::uneven;

const CURVES: usize = 360;
const BAD: usize = 36;
const FURTHER: usize = 150;
/// Words that a line of the replay holds.
const WORDS: usize = 64;
const OTHERS: [(Ends, Method); 5] = [
    (Ends::Knots, Method::Taught),
    (Ends::Knots, Method::Steady),
    (Ends::Curve, Method::AsCrate),
    (Ends::Curve, Method::Taught),
    (Ends::Curve, Method::Steady),
];

fn main() {
    base();
    // a generator of its own, so that the list above stays as it is
    let mut r = Rng(2027);
    modes(&mut r);
    for i in 0..FURTHER {
        further(&mut r, i % 6, i / 6);
    }
    off_curve();
    unknown();
    // a generator of its own again
    let mut r = Rng(2028);
    for i in 0..FURTHER {
        stopped_jobs(&mut r, i % 6, i / 6);
    }
    night();
}

/// The knots that the lines below are about.
fn about(knots: &[f64]) {
    words('k', &knots.iter().map(|d| d.to_bits()).collect::<Vec<_>>());
}

/// The calls of the base, on curves and on their first segments.
fn base() {
    let mut r = Rng(2026);
    for i in 0..CURVES {
        let b = i % 6;
        // up to 14 segments, so that both searches are met, and sometimes a length that does not suit
        let most = 15.min((59 - 4) / STEP[b] + 1);
        let k = 1 + r.below(most);
        let n = 4 + (k - 1) * STEP[b] + (r.below(16) == 0) as usize;
        let mut knots = Vec::new();
        inputs::fill(&mut r, n, &mut knots);
        if knots.iter().any(|d| d.abs() > 1e12) {
            continue;
        }
        about(&knots);
        curve(&mut r, b, k, &knots);
        about(&knots[..4]);
        segment(&mut r, b, &knots[..4]);
    }
}

/// Inversions by the rules of the ends and the methods that the base has not, some of them of bad knots.
fn modes(r: &mut Rng) {
    for i in 0..CURVES {
        let b = i % 6;
        let k = 1 + r.below(15.min((59 - 4) / STEP[b] + 1));
        let mut knots = Vec::new();
        inputs::fill(r, 4 + (k - 1) * STEP[b], &mut knots);
        if knots.iter().any(|d| d.abs() > 1e12) {
            continue;
        }
        if i < BAD {
            let at = r.below(knots.len());
            knots[at] = r.one_of(&[f64::INFINITY, -2e12, 1_099_511_627_777.0]);
        }
        about(&knots);
        others(r, b, &knots);
        about(&knots[..4]);
        others_of_segment(r, b, &knots[..4]);
    }
}

/// An inversion by every other rule of the ends and method.
fn others(r: &mut Rng, b: usize, knots: &[f64]) {
    let y = inputs::target(r, b, knots);
    let o = inputs::options(r);
    for (ends, method) in OTHERS {
        let o = Options { ends, method, ..o };
        by('m', b, y, &o, &model::spline_inverse(b, y, knots, &o), &[]);
    }
    if let Err(why) = model::spline(b, 0.5, knots) {
        words('v', &[b as u64, 0.5f64.to_bits(), why.reply() as u64, 0]);
    }
}

fn others_of_segment(r: &mut Rng, b: usize, cv: &[f64]) {
    let y = inputs::target(r, b, cv);
    let o = inputs::options(r);
    for method in [Method::Taught, Method::Steady] {
        let o = Options { method, ..o };
        by('n', b, y, &o, &model::spline_inverse_segment(b, y, cv, &o), &[]);
    }
}

/// The line of an inversion, all of it the model's; then the rule of the ends and the method, and what a table has besides.
fn by(letter: char, b: usize, y: f64, o: &Options, i: &model::Inversion, more: &[u64]) {
    let record = record(i.answer.ok().map(|p| p.parameter), i);
    words(letter, &[&asked(b, y, o)[..], &record, &[o.ends as u64, o.method as u64], more].concat());
}

/// A letter, then numbers in hexadecimal.
fn words(letter: char, numbers: &[u64]) {
    print!("{letter}");
    numbers.iter().for_each(|n| print!(" {n:X}"));
    println!();
}

fn curve(r: &mut Rng, b: usize, k: usize, knots: &[f64]) {
    for _ in 0..2 {
        let x = inputs::parameter(r, k);
        if !x.is_nan() {
            let (reply, value) = crates::spline(b, x, knots).map_or_else(|no| (no, 0.0), |v| (0, v));
            words('v', &[b as u64, x.to_bits(), reply as u64, value.to_bits()]);
        }
    }
    for _ in 0..4 {
        let y = inputs::target(r, b, knots);
        let o = inputs::options(r);
        let expected = model::spline_inverse(b, y, knots, &o);
        if expected.fate == Fate::Answers && expected.answer.map_or_else(|why| matches!(why.no, 1 | 2 | 10 | 11), |_| true) {
            let theirs = crates::spline_inverse(b, y, knots, &o);
            inversion('i', b, y, &o, theirs, &expected);
        }
    }
    let to = r.below(6);
    if to != 4 && model::is_len_ok(b, knots.len()) {
        let out = crates::convert_spline(b, to, knots);
        if out.len() <= 60 {
            let bits = out.iter().map(|d| d.to_bits());
            words('c', &[b as u64, to as u64, 0, out.len() as u64].into_iter().chain(bits).collect::<Vec<_>>());
        }
    }
}

fn segment(r: &mut Rng, b: usize, cv: &[f64]) {
    let x = r.unit();
    words('s', &[b as u64, x.to_bits(), 0, crates::spline_segment(b, x, cv).to_bits()]);
    let y = inputs::target(r, b, cv);
    let o = inputs::options(r);
    let expected = model::spline_inverse_segment(b, y, cv, &o);
    if expected.fate == Fate::Answers && expected.answer.map_or_else(|why| why.no == 11, |_| true) {
        let theirs = crates::spline_inverse_segment(b, y, cv, o.limit, o.precision);
        inversion('j', b, y, &o, theirs, &expected);
    }
    let to = r.one_of(&[0, 1, 2, 3, 5]);
    let out = crates::convert_segment(b, to, cv.try_into().unwrap());
    words('d', &[b as u64, to as u64, 0, 4].into_iter().chain(out.map(f64::to_bits)).collect::<Vec<_>>());
}

fn inversion(letter: char, b: usize, y: f64, o: &Options, theirs: Option<f64>, expected: &model::Inversion) {
    words(letter, &[&asked(b, y, o)[..], &record(theirs, expected)].concat());
}

fn asked(b: usize, y: f64, o: &Options) -> [u64; 5] {
    [b as u64, y.to_bits(), o.check as u64, o.limit as u64, o.precision.to_bits()]
}

/// Reply, places and whole numbers, with this parameter.
fn record(parameter: Option<f64>, i: &model::Inversion) -> Vec<u64> {
    match (parameter, i.answer) {
        (Some(x), Ok(p)) => {
            let places = [x, p.local, p.lower, p.upper].map(f64::to_bits);
            let wholes = [p.ground as u64, p.segment as u64, i.count as u64];
            [[0].as_slice(), &places, &wholes].concat()
        }
        (None, Err(why)) => vec![why.reply() as u64, 0, 0, 0, 0, 0, 0, i.count as u64],
        _ => panic!("the crate and the model differ: run the judge"),
    }
}

/// The calls beside the base's, on one curve, one segment, and one pair of times and depths.
fn further(r: &mut Rng, b: usize, round: usize) {
    // one in four has as many segments as a line holds, so that conversions find no room
    let most = (59 - 4) / STEP[b] + 1;
    let most = if r.below(4) == 0 { most } else { most.min(15) };
    let k = 1 + r.below(most);
    let knots = any_curve(r, b, k, round);
    listed(&knots);
    claim(r, b, &knots);
    let o = Options { check: r.below(2) == 0, ..Options::STEADY };
    let y = any_target(r, b, &knots);
    by('o', b, y, &o, &model::spline_inverse(b, y, &knots, &o), &[]);
    of_table(r, b, &knots);
    conversions(r, b, &knots);
    let cv = any_curve(r, b, 1, round);
    listed(&cv);
    let y = any_target(r, b, &cv);
    by('p', b, y, &Options::STEADY, &model::spline_inverse_segment(b, y, &cv, &Options::STEADY), &[]);
    depth(r, b, round);
}

/// A curve of `k` segments. Its first rounds are too short, have a knot too many, a bad knot, or more knots than any curve.
fn any_curve(r: &mut Rng, b: usize, k: usize, round: usize) -> Vec<f64> {
    let mut knots = Vec::new();
    inputs::fill(r, 4 + (k - 1) * STEP[b], &mut knots);
    match round {
        0 => knots.truncate(r.below(4)),
        1 => knots.push(0.5),
        2 => {
            let at = r.below(knots.len());
            knots[at] = r.one_of(&[f64::INFINITY, f64::NAN, -2e12, 1_099_511_627_777.0]);
        }
        // above 4,096, and a length that suits the basis
        3 => knots = vec![0.0; 4_100 - 4_096 % STEP[b]],
        _ => {}
    }
    knots
}

/// The knots that a line holds, and how many there are where that is more: such a list is refused before they are looked at.
fn listed(knots: &[f64]) {
    words('k', &knots.iter().take(WORDS).map(|d| d.to_bits()).collect::<Vec<_>>());
    if knots.len() > WORDS {
        words('z', &[knots.len() as u64]);
    }
}

/// The NaN of one bit pattern: processors differ in what they make of bad knots.
fn one_nan(x: f64) -> f64 {
    if x.is_nan() {
        f64::NAN
    } else {
        x
    }
}

fn any_target(r: &mut Rng, b: usize, knots: &[f64]) -> f64 {
    match r.below(16) {
        0 => f64::NAN,
        _ => one_nan(inputs::target(r, b, knots)),
    }
}

/// One in 16 has no rounds.
fn any_options(r: &mut Rng) -> Options {
    let o = inputs::options(r);
    Options { limit: if r.below(16) == 0 { 0 } else { o.limit }, ..o }
}

fn any_span(r: &mut Rng) -> u32 {
    match r.below(4) {
        0 => r.one_of(&table::SPANS),
        _ => 1 + r.below(86_400) as u32,
    }
}

fn claim(r: &mut Rng, b: usize, knots: &[f64]) {
    let c = claims::any(r, b, knots);
    let c = Claim { y: if r.below(16) == 0 { f64::NAN } else { one_nan(c.y) }, ..c };
    let (reply, holds) = claims::model(b, &c, knots).map_or_else(|why| (why.reply(), false), |holds| (0, holds));
    let (local, precision) = (c.local.to_bits(), c.precision.to_bits());
    words('a', &[b as u64, c.y.to_bits(), c.segment as u64, local, precision, reply as u64, holds as u64]);
}

/// A table's value, and its inversion by default, by options, by the steady method.
fn of_table(r: &mut Rng, b: usize, knots: &[f64]) {
    let (x, span) = (inputs::parameter(r, knots.len().max(1)), any_span(r));
    let x = if r.below(16) == 0 { f64::NAN } else { x };
    let (reply, value) = table::value(b, span, x, knots).map_or_else(|why| (why.reply(), 0.0), |v| (0, v));
    words('t', &[b as u64, x.to_bits(), reply as u64, value.to_bits(), span as u64]);
    let check = r.below(2) == 0;
    let ends = r.one_of(&[Ends::Knots, Ends::Curve]);
    let method = r.one_of(&[Method::AsCrate, Method::Taught, Method::Steady]);
    let any = Options { ends, method, ..any_options(r) };
    for (letter, o) in [('w', Options { check, ..Options::DEFAULT }), ('x', any), ('y', Options { check, ..Options::STEADY })] {
        timed(letter, b, any_span(r), any_target(r, b, knots), knots, &o);
    }
}

fn timed(letter: char, b: usize, span: u32, y: f64, knots: &[f64], o: &Options) {
    let i = table::inversion(b, span, y, knots, o);
    let second = i.answer.map_or(0, |p| table::second(span, p.parameter));
    by(letter, b, y, o, &i, &[span as u64, second as u64]);
}

/// What a stopped job's depth says, at any depth and at an end of the curve.
fn stopped_jobs(r: &mut Rng, b: usize, round: usize) {
    let k = 1 + r.below(15.min((59 - 4) / STEP[b] + 1));
    let knots = any_curve(r, b, k, round);
    listed(&knots);
    let check = r.below(4) == 0;
    job(b, any_span(r), any_target(r, b, &knots), &knots, check);
    if model::spline(b, 0.0, &knots).is_ok() {
        let at = r.one_of(&[0.0, 1.0]);
        job(b, any_span(r), model::spline(b, at, &knots).unwrap(), &knots, false);
    }
}

/// The night that held an hour twice, by the clock and by seconds; a table that stays where it is; no basis.
fn night() {
    let clock = [1.0, 1.0, 1.1, 1.2, 1.4, 1.3, 1.5, 1.6, 1.7, 1.7];
    let mut seconds = clock;
    seconds.sort_by(f64::total_cmp);
    for knots in [clock, seconds] {
        listed(&knots);
        for y in [0.9, 1.0, 1.45, 1.7, 1.8] {
            job(4, 12_600, y, &knots, true);
        }
    }
    listed(&[0.0; 6]);
    for y in [-0.0, 0.0, 5.0] {
        job(4, 12_600, y, &[0.0; 6], true);
    }
    words('q', &[6, 0, 0, 0, 0, 255, 0, 0, 0, 0, 0, 0, 0, 0, 0, 0, 0]);
}

/// Basis, depth, order check, two zeros; the record, all zeros but for a job that is under way; what is said, a zero, span and second.
fn job(b: usize, span: u32, y: f64, knots: &[f64], check: bool) {
    let (i, said) = stopped::model(b, span, y, knots, check);
    let (told, second) = match (said, i.answer) {
        (Some(stopped::UNDER_WAY), Ok(p)) => (record(Some(p.parameter), &i), table::second(span, p.parameter)),
        (Some(_), _) => (vec![0; 8], 0),
        (None, _) => (record(None, &i), 0),
    };
    let asked = [b as u64, y.to_bits(), check as u64, 0, 0];
    words('q', &[&asked[..], &told, &[said.unwrap_or(0) as u64, 0, span as u64, second as u64]].concat());
}

/// A target that the knots' end rule lets in and the curve, from 1 to 6, does not reach.
fn off_curve() {
    let (b, y, knots) = (0, 0.5, [0.0, 0.0, 6.0, 12.0]);
    listed(&knots);
    for (letter, o) in [('w', Options::DEFAULT), ('x', Options { method: Method::Taught, ..Options::DEFAULT }), ('y', Options::STEADY)] {
        timed(letter, b, 86_400, y, &knots, &o);
    }
}

/// A strict conversion, a table's conversion, and its strict one, in a buffer of as many places as the replay has.
fn conversions(r: &mut Rng, b: usize, knots: &[f64]) {
    for letter in ['e', 'f', 'g'] {
        let to = r.below(6);
        let allowance = if r.below(2) == 0 { r.unit() * 1e-12 } else { r.one_of(&strict::ALLOWANCES) };
        let span = any_span(r);
        let (allowance, span, out) = match letter {
            'e' => (allowance, 0, strict::model(b, to, knots, allowance, WORDS)),
            'f' => (0.0, span, table::conversion(b, span, to, knots, WORDS)),
            _ => (allowance, span, table::strict_conversion(b, span, to, knots, allowance, WORDS)),
        };
        let reply = out.as_ref().map_or_else(|why| why.reply(), |_| 0);
        let out: Vec<u64> = out.map_or_else(|_| Vec::new(), |out| out.into_iter().map(f64::to_bits).collect());
        let told = [b as u64, to as u64, allowance.to_bits(), span as u64, reply as u64, out.len() as u64];
        if told.len() + out.len() <= WORDS {
            words(letter, &[&told[..], &out].concat());
        }
    }
}

/// The depth at a time; the knots are the times and then the depths.
fn depth(r: &mut Rng, tb: usize, round: usize) {
    let db = (tb + round) % 6;
    let k = 1 + r.below(15.min((WORDS - 14) / (STEP[tb] + STEP[db]) + 1));
    let mut times = any_curve(r, tb, k, round);
    if r.below(4) > 0 {
        times.sort_by(f64::total_cmp);
    }
    let one_more = (r.below(8) == 0) as usize;
    // rounds 4 to 7 have the faults of rounds 0 to 3
    let depths = any_curve(r, db, k + one_more, round ^ 4);
    listed(&[&times[..], &depths].concat());
    let y = any_target(r, tb, &times);
    let o = Options { check: true, ..any_options(r) };
    let (told, ..) = uneven::model((tb, &times), (db, &depths), y, &o);
    // what the call leaves alone is stored as 0
    let bits = |n: u64| if n == UNTOUCHED { 0 } else { n };
    let [ground, segment, count, both] = told.whole.map(|n| if n == UNTOUCHED_WHOLE { 0 } else { n as u64 });
    let record = [&[told.reply as u64][..], &told.place.map(bits), &[ground, segment, count]].concat();
    let more = [db as u64, times.len() as u64, bits(told.depth), both];
    words('h', &[&asked(tb, y, &o)[..], &record, &more].concat());
}

/// Numbers of no basis, end rule or method: the reply is 255, whatever else there is.
fn unknown() {
    let line = |letter: char, length: usize, reply_at: usize, at: usize, number: u64| {
        let mut w = [0; 17];
        (w[reply_at], w[at]) = (255, number);
        words(letter, &w[..length]);
    };
    let shapes = [("t", 5, 2), ("a", 7, 5), ("efg", 6, 4), ("op", 15, 5), ("hwxy", 17, 5)];
    for (letters, length, reply_at) in shapes {
        letters.chars().for_each(|letter| line(letter, length, reply_at, 0, 6));
    }
    "efg".chars().for_each(|letter| line(letter, 6, 4, 1, 255));
    line('h', 17, 5, 13, 6);
    line('x', 17, 5, 13, 2);
    line('x', 17, 5, 14, 3);
}
