//! `speed [WORD] [ROUNDS]` times each call of the port beside the crate, bare and behind the same refusals, and prints
//! the table; with WORD only the rows of that call; with ROUNDS the least of so many rounds over all rows.
//!
//! All three stand behind one shape of call: a function that is not inlined, the basis by number. The three
//! take turns, and the least time of many turns counts. With the feature `beside` another archive takes its turn too, whose
//! exports are named `other_simmerstoat_*`.

use std::hint::black_box;
use std::time::{Duration, Instant};
use std::{env, fmt};

use judge::crates;
use judge::inputs::Rng;
use judge::model::{self, Ground, Options, STEP};
use judge::wrapped;

const NAMES: [&str; 6] = ["Bspline", "Bezier", "CatmullRom", "Hermite", "Linear", "Power"];
const SEGMENTS: [usize; 6] = [1, 12, 13, 100, 1000, 4093];
const POWER: usize = 5;
/// What an evaluation or an inversion may cost beside the crate behind the same refusals, and what a conversion may.
const CALL: f64 = 1.0;
const CONVERSION: f64 = 0.4;

type Evaluate = unsafe extern "C" fn(u8, f64, *const f64, u64, *mut f64) -> u32;

/// The calls of an archive that are timed.
#[derive(Clone, Copy)]
struct Archive {
    spline: Evaluate,
    segment: Evaluate,
    inverse: unsafe extern "C" fn(u8, f64, *const f64, u64, bool, *mut [f64; 4], *mut [u64; 3]) -> u32,
    inverse_segment: unsafe extern "C" fn(u8, f64, *const f64, u64, *mut [f64; 4], *mut [u64; 3]) -> u32,
    convert: unsafe extern "C" fn(u8, u8, *const f64, u64, *mut f64, u64, *mut u64) -> u32,
    convert_segment: unsafe extern "C" fn(u8, u8, *const f64, u64, *mut f64, u64) -> u32,
}

/// The port's archive.
mod port {
    use simmerstoat::raw::*;

    pub const ARCHIVE: super::Archive = super::Archive {
        spline: simmerstoat_spline,
        segment: simmerstoat_spline_segment,
        inverse: simmerstoat_spline_inverse,
        inverse_segment: simmerstoat_spline_inverse_segment,
        convert: simmerstoat_convert_spline,
        convert_segment: simmerstoat_convert_segment,
    };
}

/// The archive beside it.
#[cfg(feature = "beside")]
mod beside {
    extern "C" {
        fn other_simmerstoat_spline(basis: u8, x: f64, knots: *const f64, n: u64, value: *mut f64) -> u32;
        fn other_simmerstoat_spline_segment(basis: u8, x: f64, cv: *const f64, n: u64, value: *mut f64) -> u32;
        fn other_simmerstoat_spline_inverse(
            basis: u8, y: f64, knots: *const f64, n: u64, check: bool, place: *mut [f64; 4], whole: *mut [u64; 3],
        ) -> u32;
        fn other_simmerstoat_spline_inverse_segment(
            basis: u8, y: f64, cv: *const f64, n: u64, place: *mut [f64; 4], whole: *mut [u64; 3],
        ) -> u32;
        fn other_simmerstoat_convert_spline(
            from: u8, to: u8, knots: *const f64, n: u64, out: *mut f64, room: u64, written: *mut u64,
        ) -> u32;
        fn other_simmerstoat_convert_segment(from: u8, to: u8, cv: *const f64, n: u64, out: *mut f64, room: u64) -> u32;
    }

    pub const ARCHIVE: super::Archive = super::Archive {
        spline: other_simmerstoat_spline,
        segment: other_simmerstoat_spline_segment,
        inverse: other_simmerstoat_spline_inverse,
        inverse_segment: other_simmerstoat_spline_inverse_segment,
        convert: other_simmerstoat_convert_spline,
        convert_segment: other_simmerstoat_convert_segment,
    };
}

#[cfg(feature = "beside")]
const ARCHIVES: &[Archive] = &[port::ARCHIVE, beside::ARCHIVE];
#[cfg(not(feature = "beside"))]
const ARCHIVES: &[Archive] = &[port::ARCHIVE];

/// A pass over the calls of a row.
type Pass<'a> = Box<dyn FnMut() + 'a>;

struct Row {
    call: &'static str,
    bases: String,
    k: usize,
    /// nanoseconds: the crate, the crate behind the same refusals, the port, and the archive beside it if there is one
    ns: Vec<f64>,
    /// what the port may cost beside the crate behind the same refusals
    target: f64,
}

impl Row {
    /// To two decimals, as it is printed.
    fn misses(&self) -> bool {
        (100.0 * self.ns[2] / self.ns[1]).round() > (100.0 * self.target).round()
    }

    /// Each time the lesser of two runs'.
    fn join(&mut self, again: &Row) {
        self.ns.iter_mut().zip(&again.ns).for_each(|(ns, other)| *ns = ns.min(*other));
    }
}

impl fmt::Display for Row {
    fn fmt(&self, f: &mut fmt::Formatter) -> fmt::Result {
        let [bare, refusing, port] = self.ns[..3] else { unreachable!("a row has three times") };
        let star = if self.misses() { " **missed**" } else { "" };
        write!(
            f,
            "| {} | {} | {} | {port:.1} | {bare:.1} | {:.2} | {refusing:.1} | {:.2} | {:.2}{star} |",
            self.call,
            self.bases,
            self.k,
            port / bare,
            port / refusing,
            self.target
        )?;
        self.ns[3..].iter().try_for_each(|other| write!(f, " {other:.1} | {:.2} | {:+.2} |", other / refusing, (port - other) / refusing))
    }
}

/// The least time of a pass over `n` calls, in nanoseconds a call, each of the passes in its turn.
fn timed(n: usize, mut passes: Vec<Pass>) -> Vec<f64> {
    let mut least = vec![Duration::MAX; passes.len()];
    let start = Instant::now();
    let mut turns = 0;
    while turns < 30 || (start.elapsed() < Duration::from_millis(250) && turns < 3000) {
        for (pass, least) in passes.iter_mut().zip(&mut least) {
            let begun = Instant::now();
            pass();
            *least = (*least).min(begun.elapsed());
        }
        turns += 1;
    }
    least.into_iter().map(|d| d.as_secs_f64() * 1e9 / n as f64).collect()
}

/// The passes of a row: of the crate, bare and refusing, and of each archive.
fn passes<'a>(bare: Pass<'a>, refusing: Pass<'a>, archive: impl Fn(Archive) -> Pass<'a>) -> Vec<Pass<'a>> {
    [bare, refusing].into_iter().chain(ARCHIVES.iter().map(|a| archive(*a))).collect()
}

/// The segment counts that a basis can have, its greatest among them.
fn counts(b: usize) -> Vec<usize> {
    let most = (4096 - 4) / STEP[b] + 1;
    SEGMENTS.into_iter().map(|k| k.min(most)).collect()
}

/// Rising knots with uneven steps; below 0 for Power, whose segments would not meet the end rule's range else.
fn rising(r: &mut Rng, b: usize, n: usize) -> Vec<f64> {
    let from = if b == POWER { -(n as f64) - 1.0 } else { 0.0 };
    (0..n).map(|i| (from + i as f64 + 0.5 * r.unit()) * 0.01).collect()
}

fn spline_segment(r: &mut Rng, b: usize) -> Row {
    let cv = &rising(r, b, 4);
    let xs: &Vec<f64> = &(0..1000).map(|_| r.unit()).collect();
    let (number, n) = (b as u8, cv.len() as u64);
    let (mut o1, mut o2) = (0.0, 0.0);
    let all = passes(
        Box::new(move || xs.iter().for_each(|&x| { black_box(wrapped::bare_segment(number, x, cv, &mut o1)); })),
        Box::new(move || xs.iter().for_each(|&x| { black_box(wrapped::segment(number, x, cv, &mut o2)); })),
        |a| {
            let mut o = 0.0;
            Box::new(move || xs.iter().for_each(|&x| unsafe { black_box((a.segment)(number, x, cv.as_ptr(), n, &mut o)); }))
        },
    );
    Row { call: "spline_segment", bases: NAMES[b].into(), k: 1, ns: timed(xs.len(), all), target: CALL }
}

fn spline(r: &mut Rng, b: usize, k: usize) -> Row {
    let knots = &rising(r, b, 4 + (k - 1) * STEP[b]);
    let xs: &Vec<f64> = &(0..calls(k)).map(|_| r.unit()).collect();
    let (number, n) = (b as u8, knots.len() as u64);
    let (mut o1, mut o2) = (0.0, 0.0);
    let all = passes(
        Box::new(move || xs.iter().for_each(|&x| { black_box(wrapped::bare_spline(number, x, knots, &mut o1)); })),
        Box::new(move || xs.iter().for_each(|&x| { black_box(wrapped::spline(number, x, knots, &mut o2)); })),
        |a| {
            let mut o = 0.0;
            Box::new(move || xs.iter().for_each(|&x| unsafe { black_box((a.spline)(number, x, knots.as_ptr(), n, &mut o)); }))
        },
    );
    Row { call: "spline", bases: NAMES[b].into(), k, ns: timed(xs.len(), all), target: CALL }
}

/// Fewer calls a pass where each is long.
fn calls(k: usize) -> usize {
    if k > 200 { 200 } else { 1000 }
}

/// Targets that are found in some segment, and not by the end rule.
fn targets(r: &mut Rng, b: usize, knots: &[f64], n: usize) -> Vec<f64> {
    let o = Options { check: true, ..Options::DEFAULT };
    let mut ys = Vec::new();
    while ys.len() < n {
        let s = r.below((knots.len() - 4) / STEP[b] + 1) * STEP[b];
        let Ok(y) = model::spline_segment(b, 0.02 + 0.96 * r.unit(), &knots[s..s + 4]) else { continue };
        let found = model::spline_inverse(b, y, knots, &o);
        if found.fate == model::Fate::Answers && found.answer.is_ok_and(|p| p.ground != Ground::End) {
            ys.push(y);
        }
    }
    ys
}

fn spline_inverse_segment(r: &mut Rng, b: usize) -> Row {
    let cv = &rising(r, b, 4);
    let ys = &targets(r, b, cv, 500);
    let (number, n) = (b as u8, cv.len() as u64);
    let (mut o1, mut o2) = (0.0, 0.0);
    let all = passes(
        Box::new(move || ys.iter().for_each(|&y| { black_box(wrapped::bare_inverse_segment(number, y, cv, &mut o1)); })),
        Box::new(move || ys.iter().for_each(|&y| { black_box(wrapped::inverse_segment(number, y, cv, &mut o2)); })),
        |a| {
            let (mut place, mut whole) = ([0.0; 4], [0; 3]);
            Box::new(move || {
                ys.iter().for_each(|&y| unsafe {
                    black_box((a.inverse_segment)(number, y, cv.as_ptr(), n, &mut place, &mut whole));
                })
            })
        },
    );
    Row { call: "spline_inverse_segment", bases: NAMES[b].into(), k: 1, ns: timed(ys.len(), all), target: CALL }
}

fn spline_inverse(r: &mut Rng, b: usize, k: usize, check: bool) -> Row {
    let knots = &rising(r, b, 4 + (k - 1) * STEP[b]);
    let ys = &targets(r, b, knots, calls(k) / 2);
    let (number, n) = (b as u8, knots.len() as u64);
    let (mut o1, mut o2) = (0.0, 0.0);
    let all = passes(
        Box::new(move || ys.iter().for_each(|&y| { black_box(wrapped::bare_inverse(number, y, knots, check, &mut o1)); })),
        Box::new(move || ys.iter().for_each(|&y| { black_box(wrapped::inverse(number, y, knots, check, &mut o2)); })),
        |a| {
            let (mut place, mut whole) = ([0.0; 4], [0; 3]);
            Box::new(move || {
                ys.iter().for_each(|&y| unsafe {
                    black_box((a.inverse)(number, y, knots.as_ptr(), n, check, &mut place, &mut whole));
                })
            })
        },
    );
    let call = if check { "spline_inverse, order check" } else { "spline_inverse" };
    Row { call, bases: NAMES[b].into(), k, ns: timed(ys.len(), all), target: CALL }
}

fn convert_segment(r: &mut Rng, from: usize, to: usize) -> Row {
    let cv = &rising(r, from, 4);
    let (f, t) = (from as u8, to as u8);
    let (mut o1, mut o2) = ([0.0; 4], [0.0; 4]);
    let calls = 300;
    let all = passes(
        Box::new(move || (0..calls).for_each(|_| { black_box(wrapped::bare_convert_segment(f, t, cv, &mut o1)); })),
        Box::new(move || (0..calls).for_each(|_| { black_box(wrapped::convert_segment(f, t, cv, &mut o2)); })),
        |a| {
            let mut o = [0.0; 4];
            Box::new(move || {
                (0..calls).for_each(|_| unsafe {
                    black_box((a.convert_segment)(f, t, cv.as_ptr(), 4, o.as_mut_ptr(), 4));
                })
            })
        },
    );
    let bases = format!("{} to {}", NAMES[from], NAMES[to]);
    Row { call: "convert_segment", bases, k: 1, ns: timed(calls, all), target: CONVERSION }
}

fn convert_spline(r: &mut Rng, from: usize, to: usize, k: usize) -> Row {
    let knots = &rising(r, from, 4 + (k - 1) * STEP[from]);
    let (f, t, n) = (from as u8, to as u8, knots.len() as u64);
    let room = 4 + (k - 1) * STEP[to];
    let mut other = vec![0.0; room];
    let calls = if k > 200 { 30 } else { 300 };
    let all = passes(
        Box::new(move || (0..calls).for_each(|_| { black_box(crates::convert_spline(black_box(from), to, knots)); })),
        Box::new(move || (0..calls).for_each(|_| { black_box(wrapped::convert(f, t, knots, &mut other)); })),
        |a| {
            let (mut out, mut written) = (vec![0.0; room], 0);
            Box::new(move || {
                (0..calls).for_each(|_| unsafe {
                    black_box((a.convert)(f, t, knots.as_ptr(), n, out.as_mut_ptr(), room as u64, &mut written));
                })
            })
        },
    );
    let bases = format!("{} to {}", NAMES[from], NAMES[to]);
    Row { call: "convert_spline", bases, k, ns: timed(calls, all), target: CONVERSION }
}

/// The rows of one call, or of all.
fn table(word: &str) -> Vec<Row> {
    let r = &mut Rng(7);
    let mut rows = Vec::new();
    let mut wanted = |call: &str, row: &mut dyn FnMut() -> Row| {
        if word.is_empty() || call == word {
            rows.push(row());
        }
    };
    for b in 0..6 {
        wanted("spline_segment", &mut || spline_segment(r, b));
    }
    for b in 0..6 {
        counts(b).into_iter().for_each(|k| wanted("spline", &mut || spline(r, b, k)));
    }
    for b in 0..6 {
        wanted("spline_inverse_segment", &mut || spline_inverse_segment(r, b));
    }
    for check in [true, false] {
        for b in 0..6 {
            counts(b).into_iter().for_each(|k| wanted("spline_inverse", &mut || spline_inverse(r, b, k, check)));
        }
    }
    for b in 0..6 {
        wanted("convert_segment", &mut || convert_segment(r, b, if b == 1 { 5 } else { 1 }));
    }
    for b in 0..6 {
        let to = if b == 1 { 2 } else { 1 };
        counts(b).into_iter().for_each(|k| wanted("convert_spline", &mut || convert_spline(r, b, to, k)));
    }
    rows
}

fn main() {
    let (mut word, mut rounds) = (String::new(), 1);
    for given in env::args().skip(1) {
        match given.parse::<usize>() {
            Ok(n) => rounds = n,
            Err(_) => word = given,
        }
    }
    let mut rows = table(&word);
    for _ in 1..rounds {
        rows.iter_mut().zip(table(&word)).for_each(|(row, again)| row.join(&again));
    }
    let (more, line) = if ARCHIVES.len() > 1 { (" beside, ns | ratio | change |", "---:|---:|---:|") } else { ("", "") };
    println!("| call | basis | k | port, ns | crate, ns | ratio | refusing crate, ns | ratio | target |{more}");
    println!("|---|---|---:|---:|---:|---:|---:|---:|---|{line}");
    rows.iter().for_each(|row| println!("{row}"));
    println!("\n{} rows, {} missed their target.", rows.len(), rows.iter().filter(|row| row.misses()).count());
}
