//! How far a job had come that stopped at a depth: by the curve's own ends, told apart from the place that the inversion answers.

use simmerstoat::raw;

use crate::compare::{hold, inverted, Input};
use crate::inputs::{self, Rng};
use crate::model::{self, Ends, Ground, Inversion, Options, STEP};
use crate::part::Part;
use crate::port::{UNTOUCHED, UNTOUCHED_WHOLE};
use crate::table::{self, SPANS};
use crate::tally::{of_job, of_reply, Call, Tally, NO_NUMBER};

pub const PART: Part = Part { once, knots };

pub const FLAT: u8 = 1;
pub const BEFORE: u8 = 2;
pub const NOT_BEGUN: u8 = 3;
pub const UNDER_WAY: u8 = 4;
pub const DONE: u8 = 5;
pub const BEYOND: u8 = 6;

/// What the job's byte holds before a call.
const UNTOUCHED_JOB: u8 = 77;

// ---- the model

/// The curve's own start and end; there are as many knots as the basis wants.
fn own_ends(b: usize, knots: &[f64]) -> (f64, f64) {
    let last = (knots.len() - 4) / STEP[b] * STEP[b];
    (model::value(b, 0.0, knots), model::value(b, 1.0, &knots[last..]))
}

/// The inversion by the curve's own ends, and what is said of the job where it is not refused.
pub fn model(b: usize, span: u32, y: f64, knots: &[f64], check: bool) -> (Inversion, Option<u8>) {
    let o = Options { check, ends: Ends::Curve, ..Options::STEADY };
    let i = table::inversion(b, span, y, knots, &o);
    let said = i.answer.ok().map(|p| {
        let (start, end) = own_ends(b, knots);
        match p.ground {
            _ if start == end => FLAT,
            Ground::End if p.parameter == 0.0 => if y == start { NOT_BEGUN } else { BEFORE },
            Ground::End => if y == end { DONE } else { BEYOND },
            _ => UNDER_WAY,
        }
    });
    (i, said)
}

// ---- the port

#[derive(Clone, Copy, Debug, PartialEq, Eq)]
struct JobReply {
    reply: u32,
    job: u8,
    place: [u64; 4],
    whole: [usize; 4],
}

fn port(b: u8, span: u32, y: f64, knots: &[f64], check: bool) -> JobReply {
    let (mut job, mut place, mut whole) = (UNTOUCHED_JOB, [f64::from_bits(UNTOUCHED); 4], [UNTOUCHED_WHOLE as u64; 4]);
    // SAFETY: the pointer and length are a slice's, and the three records are locals.
    let reply = unsafe {
        let (at, n) = (knots.as_ptr(), knots.len() as u64);
        raw::simmerstoat_stopped(b, span, y, at, n, check, &mut job, &mut place, &mut whole)
    };
    JobReply { reply, job, place: place.map(f64::to_bits), whole: whole.map(|n| n as usize) }
}

// ---- the comparison

fn expected(span: u32, i: &Inversion, said: Option<u8>) -> JobReply {
    let base = inverted(i);
    let [ground, segment, count] = base.whole;
    let nothing = JobReply { reply: 0, job: UNTOUCHED_JOB, place: [UNTOUCHED; 4], whole: [UNTOUCHED_WHOLE; 4] };
    match (said, i.answer) {
        (Some(UNDER_WAY), Ok(p)) => {
            let whole = [ground, segment, count, table::second(span, p.parameter)];
            JobReply { reply: 0, job: UNDER_WAY, place: base.place, whole }
        }
        (Some(job), _) => JobReply { job, ..nothing },
        (None, _) => JobReply { reply: base.reply, whole: [ground, segment, count, UNTOUCHED_WHOLE], ..nothing },
    }
}

fn compare(t: &mut Tally, b: usize, span: u32, y: f64, knots: &[f64], check: bool) -> JobReply {
    let input = Input { call: Call::Stopped, bases: &[b], at: y, knots, more: &(span, check) };
    let (i, said) = model(b, span, y, knots, check);
    let ours = port(b as u8, span, y, knots, check);
    hold("the model", &input, expected(span, &i, said), ours);
    if said == Some(UNDER_WAY) {
        let (start, end) = own_ends(b, knots);
        hold("strictly between", &input, true, start.min(end) < y && y < start.max(end));
        hold("the span", &input, true, ours.whole[3] <= span as usize);
    }
    t.add(input.call, said.map_or(of_reply(ours.reply), of_job), false);
    ours
}

/// Any target, and the curve's own ends with their neighbours.
fn knots(t: &mut Tally, r: &mut Rng, b: usize, knots: &[f64]) {
    let span = if r.below(8) == 0 { r.one_of(&SPANS) } else { 1 + r.below(86_400) as u32 };
    let check = r.below(2) == 0;
    let y = if knots.is_empty() { 0.5 } else { inputs::target(r, b, knots) };
    compare(t, b, span, y, knots, check);
    if model::curve_length(b, knots.len()).is_ok() {
        let (start, end) = own_ends(b, knots);
        for y in [start, end, beside(start, true), beside(start, false), beside(end, true), beside(end, false)] {
            compare(t, b, span, y, knots, false);
        }
    }
}

/// The double next to this one, or what its bits make of it.
fn beside(x: f64, up: bool) -> f64 {
    let bits = x.to_bits();
    f64::from_bits(if up { bits.wrapping_add(1) } else { bits.wrapping_sub(1) })
}

/// Numbers that stand for nothing; each answer; the night that held an hour twice.
fn once(t: &mut Tally) {
    let clock = [1.0, 1.0, 1.1, 1.2, 1.4, 1.3, 1.5, 1.6, 1.7, 1.7];
    let seconds = [1.0, 1.0, 1.1, 1.2, 1.3, 1.4, 1.5, 1.6, 1.7, 1.7];
    let nothing = JobReply { reply: 255, job: UNTOUCHED_JOB, place: [UNTOUCHED; 4], whole: [UNTOUCHED_WHOLE; 4] };
    for number in 6..=255 {
        assert_eq!(port(number, 0, f64::NAN, &clock[..3], true), nothing);
        t.add(Call::Stopped, NO_NUMBER, false);
    }
    assert_eq!(compare(t, 4, 12_600, 1.45, &clock, true).reply, 10 + 256 * 4);
    for (y, job) in [(0.9, BEFORE), (1.0, NOT_BEGUN), (1.45, UNDER_WAY), (1.7, DONE), (1.8, BEYOND)] {
        assert_eq!(compare(t, 4, 12_600, y, &seconds, true).job, job);
    }
    assert_eq!(compare(t, 4, 12_600, 1.45, &seconds, true).whole[3], 8_099);
    for y in [-5.0, -0.0, 0.0, 5.0, f64::INFINITY] {
        assert_eq!(compare(t, 4, 12_600, y, &[0.0, 0.0, -0.0, 0.0], true).job, FLAT);
    }
    assert_eq!(compare(t, 3, 12_600, 2.0, &[0.0, 1.0, 2.0, 3.0], false).job, DONE);
    for b in 0..6 {
        for span in SPANS {
            for y in [f64::NEG_INFINITY, -0.0, 0.5, f64::INFINITY, f64::NAN] {
                for list in [&clock[..], &clock[..4], &clock[..3], &[0.0, 1.0, f64::NAN, 2.0]] {
                    compare(t, b, span, y, list, true);
                }
            }
        }
    }
}
