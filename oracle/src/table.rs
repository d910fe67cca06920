//! Tables with a span in whole seconds: what the calls on them refuse besides, and the second of a place.

use simmerstoat::raw;

use crate::compare::{converted, hold, inverted, valued, Input};
use crate::inputs::{self, Rng};
use crate::model::{self, Ends, Fate, Inversion, Method, Options, RefusalNumber};
use crate::part::Part;
use crate::port::{ConversionReply, ValueReply, UNTOUCHED, UNTOUCHED_WHOLE};
use crate::strict;
use crate::tally::{of_ground, of_reply, Call, Tally};

pub const PART: Part = Part { once, knots };

/// Spans at the edges of the range, and beyond.
pub const SPANS: [u32; 9] = [0, 1, 2, 3_600, 43_201, 86_399, 86_400, 86_401, u32::MAX];

// ---- the model

/// A span is looked at after the length, before all else.
fn spanned(b: usize, n: usize, span: u32) -> Result<(), RefusalNumber> {
    model::curve_length(b, n)?;
    if (1..=86_400).contains(&span) {
        Ok(())
    } else {
        Err(14.into())
    }
}

/// The largest whole second not above parameter × span.
pub fn second(span: u32, parameter: f64) -> usize {
    (parameter * f64::from(span)).floor() as usize
}

pub fn inversion(b: usize, span: u32, y: f64, knots: &[f64], o: &Options) -> Inversion {
    match spanned(b, knots.len(), span) {
        Ok(()) => model::spline_inverse(b, y, knots, o),
        Err(why) => Inversion { answer: Err(why), count: 0, rounds: 0, fate: Fate::Answers },
    }
}

pub fn value(b: usize, span: u32, x: f64, knots: &[f64]) -> Result<f64, RefusalNumber> {
    spanned(b, knots.len(), span)?;
    model::spline(b, x, knots)
}

pub fn conversion(b: usize, span: u32, to: usize, knots: &[f64], room: usize) -> Result<Vec<f64>, RefusalNumber> {
    spanned(b, knots.len(), span)?;
    model::convert_spline(b, to, knots, room)
}

pub fn strict_conversion(
    b: usize,
    span: u32,
    to: usize,
    knots: &[f64],
    allowance: f64,
    room: usize,
) -> Result<Vec<f64>, RefusalNumber> {
    spanned(b, knots.len(), span)?;
    strict::model(b, to, knots, allowance, room)
}

// ---- the port

#[derive(Clone, Copy, Debug, PartialEq, Eq)]
struct TimedReply {
    reply: u32,
    place: [u64; 4],
    whole: [usize; 4],
}

fn spline(b: u8, span: u32, x: f64, knots: &[f64]) -> ValueReply {
    let mut value = f64::from_bits(UNTOUCHED);
    let reply = unsafe { raw::simmerstoat_table_spline(b, span, x, knots.as_ptr(), knots.len() as u64, &mut value) };
    ValueReply { reply, value: value.to_bits() }
}

fn timed(call: impl FnOnce(&mut [f64; 4], &mut [u64; 4]) -> u32) -> TimedReply {
    let (mut place, mut whole) = ([f64::from_bits(UNTOUCHED); 4], [UNTOUCHED_WHOLE as u64; 4]);
    let reply = call(&mut place, &mut whole);
    TimedReply { reply, place: place.map(f64::to_bits), whole: whole.map(|n| n as usize) }
}

fn spline_inverse(b: u8, span: u32, y: f64, knots: &[f64], check: bool) -> TimedReply {
    timed(|place, whole| unsafe {
        raw::simmerstoat_table_spline_inverse(b, span, y, knots.as_ptr(), knots.len() as u64, check, place, whole)
    })
}

fn spline_inverse_steady(b: u8, span: u32, y: f64, knots: &[f64], check: bool) -> TimedReply {
    timed(|place, whole| unsafe {
        raw::simmerstoat_table_spline_inverse_steady(b, span, y, knots.as_ptr(), knots.len() as u64, check, place, whole)
    })
}

fn spline_inverse_by(b: u8, span: u32, y: f64, knots: &[f64], o: &Options, ends: u8, method: u8) -> TimedReply {
    timed(|place, whole| unsafe {
        let (at, n) = (knots.as_ptr(), knots.len() as u64);
        raw::simmerstoat_table_spline_inverse_by(
            b, span, y, at, n, o.check, o.limit, o.precision, ends, method, place, whole,
        )
    })
}

fn convert_spline(from: u8, span: u32, to: u8, knots: &[f64], room: usize) -> (ConversionReply, u32) {
    let mut buffer: Vec<f64> = (0..room as u64 + 4).map(|i| f64::from_bits(UNTOUCHED + i)).collect();
    let (mut handed, mut written) = (77, UNTOUCHED_WHOLE as u64);
    let reply = unsafe {
        let (at, n, out) = (knots.as_ptr(), knots.len() as u64, buffer.as_mut_ptr());
        raw::simmerstoat_table_convert_spline(from, span, to, at, n, out, room as u64, &mut handed, &mut written)
    };
    (ConversionReply { reply, written: written as usize, buffer: buffer.into_iter().map(f64::to_bits).collect() }, handed)
}

fn convert_spline_strict(from: u8, span: u32, to: u8, knots: &[f64], allowance: f64, room: usize) -> (ConversionReply, u32) {
    let mut buffer: Vec<f64> = (0..room as u64 + 4).map(|i| f64::from_bits(UNTOUCHED + i)).collect();
    let (mut handed, mut written) = (77, UNTOUCHED_WHOLE as u64);
    let reply = unsafe {
        let (at, n, out) = (knots.as_ptr(), knots.len() as u64, buffer.as_mut_ptr());
        raw::simmerstoat_table_convert_spline_strict(
            from, span, to, at, n, allowance, out, room as u64, &mut handed, &mut written,
        )
    };
    (ConversionReply { reply, written: written as usize, buffer: buffer.into_iter().map(f64::to_bits).collect() }, handed)
}

// ---- the comparison

fn expected(i: &Inversion, span: u32) -> TimedReply {
    let base = inverted(i);
    let told = i.answer.map_or(UNTOUCHED_WHOLE, |p| second(span, p.parameter));
    let [ground, segment, count] = base.whole;
    TimedReply { reply: base.reply, place: base.place, whole: [ground, segment, count, told] }
}

fn compare_inverse(t: &mut Tally, b: usize, span: u32, y: f64, knots: &[f64], o: &Options) {
    let input = Input { call: Call::TableSplineInverse, bases: &[b], at: y, knots, more: &(span, o) };
    let i = inversion(b, span, y, knots, o);
    let ours = spline_inverse_by(b as u8, span, y, knots, o, o.ends as u8, o.method as u8);
    hold("the model", &input, expected(&i, span), ours);
    if ours.reply == 0 {
        hold("the span", &input, true, ours.whole[3] <= span as usize);
    }
    t.add(input.call, i.answer.map_or_else(|why| why.no as usize, |p| of_ground(p.ground)), false);
    let plain = Options { limit: 32, precision: 1e-10, ends: Ends::Knots, method: Method::AsCrate, ..*o };
    let theirs = expected(&inversion(b, span, y, knots, &plain), span);
    hold("the model by default", &input, theirs, spline_inverse(b as u8, span, y, knots, o.check));
    let steady = Options { check: o.check, ..Options::STEADY };
    let theirs = expected(&inversion(b, span, y, knots, &steady), span);
    hold("the model by the steady method", &input, theirs, spline_inverse_steady(b as u8, span, y, knots, o.check));
}

fn knots(t: &mut Tally, r: &mut Rng, b: usize, knots: &[f64]) {
    let span = if r.below(4) == 0 { r.one_of(&SPANS) } else { 1 + r.below(86_400) as u32 };
    let x = inputs::parameter(r, knots.len());
    let input = Input { call: Call::TableSpline, bases: &[b], at: x, knots, more: &span };
    let ours = spline(b as u8, span, x, knots);
    hold("the model", &input, valued(value(b, span, x, knots)), ours);
    t.add(input.call, of_reply(ours.reply), false);

    let y = if knots.is_empty() { 0.5 } else { inputs::target(r, b, knots) };
    compare_inverse(t, b, span, y, knots, &inputs::options(r));

    let to = r.below(6);
    let room = knots.len() * 4 / (1 + r.below(3));
    let input = Input { call: Call::TableConvertSpline, bases: &[b, to], at: 0.0, knots, more: &(span, room) };
    let (ours, handed) = convert_spline(b as u8, span, to as u8, knots, room);
    let answer = conversion(b, span, to, knots, room);
    hold("the model", &input, converted(answer.as_deref().map_err(|why| *why), room, true), ours.clone());
    hold("the span handed on", &input, if ours.reply == 0 { span } else { 77 }, handed);
    t.add(input.call, of_reply(ours.reply), false);

    let allowance = if r.below(2) == 0 { r.unit() * 1e-12 } else { r.one_of(&strict::ALLOWANCES) };
    compare_strict(t, b, span, to, knots, allowance, room);
}

fn compare_strict(t: &mut Tally, b: usize, span: u32, to: usize, knots: &[f64], allowance: f64, room: usize) {
    let more = &(span, room);
    let input = Input { call: Call::TableConvertSplineStrict, bases: &[b, to], at: allowance, knots, more };
    let (ours, handed) = convert_spline_strict(b as u8, span, to as u8, knots, allowance, room);
    let answer = strict_conversion(b, span, to, knots, allowance, room);
    hold("the model", &input, converted(answer.as_deref().map_err(|why| *why), room, true), ours.clone());
    hold("the span handed on", &input, if ours.reply == 0 { span } else { 77 }, handed);
    if ours.reply == 0 {
        hold("the plain conversion", &input, convert_spline(b as u8, span, to as u8, knots, room), (ours.clone(), handed));
    }
    t.add(input.call, of_reply(ours.reply), false);
}

/// Numbers that stand for nothing, and places at 0, at 1, at a whole second exactly and just below one.
fn once(t: &mut Tally) {
    const KNOTS: [f64; 4] = [0.0, 0.0, 1.0, 1.0];
    let o = Options::DEFAULT;
    let input = Input { call: Call::TableSplineInverse, bases: &[4], at: 0.5, knots: &KNOTS, more: &() };
    let nothing = TimedReply { reply: 255, place: [UNTOUCHED; 4], whole: [UNTOUCHED_WHOLE; 4] };
    hold("no basis", &input, nothing, spline_inverse_by(6, 1, 0.5, &KNOTS, &o, 0, 0));
    hold("no ends", &input, nothing, spline_inverse_by(4, 1, 0.5, &KNOTS, &o, 2, 0));
    hold("no method", &input, nothing, spline_inverse_by(4, 1, 0.5, &KNOTS, &o, 0, 3));
    hold("no basis", &input, nothing, spline_inverse(255, 0, 0.5, &KNOTS, true));
    hold("no basis", &input, nothing, spline_inverse_steady(255, 0, 0.5, &KNOTS, true));
    hold("no basis", &input, ValueReply { reply: 255, value: UNTOUCHED }, spline(6, 0, 0.5, &KNOTS));
    hold("no basis", &input, converted(Err(RefusalNumber { no: 255, place: 0 }), 4, true), convert_spline(4, 1, 6, &KNOTS, 4).0);
    let none = convert_spline_strict(4, 1, 6, &KNOTS, f64::NAN, 4).0;
    hold("no basis", &input, converted(Err(RefusalNumber { no: 255, place: 0 }), 4, true), none);
    // a slope of 3 is lost at the seam, and may be with an allowance of 3
    for allowance in [0.0, 3.0, f64::NAN] {
        for span in SPANS {
            compare_strict(t, 1, span, 3, &[0.0, 0.0, 0.0, 0.0, 1.0, 1.0, 1.0], allowance, 6);
        }
    }
    for (span, y, second) in [(86_400, 0.0, 0), (86_400, 1.0, 86_400), (86_400, 0.5, 43_200), (65_536, 0.25, 16_384), (1, 0.999, 0)] {
        let ours = spline_inverse(4, span, y, &KNOTS, true);
        hold("the reading", &input, (0, second), (ours.reply, ours.whole[3]));
        compare_inverse(t, 4, span, y, &KNOTS, &o);
    }
}
