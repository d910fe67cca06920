//! One call at a time: the port's reply is held to the model's on every input, and to the crate's wherever
//! no refusal of ours comes first and the crate neither panics nor loops.

use std::fmt::Debug;
use std::process;

use crate::crates;
use crate::model::{self, Ends, Fate, Inversion, Method, Options, RefusalNumber, STEP};
use crate::port::{self, ConversionReply, InversionReply, ValueReply, UNTOUCHED, UNTOUCHED_WHOLE};
use crate::promised;
use crate::tally::{of_ground, of_reply, Call, Tally, PLAIN};

/// The input of a difference, so that it can be typed in again.
pub struct Input<'a> {
    pub call: Call,
    pub bases: &'a [usize],
    pub at: f64,
    pub knots: &'a [f64],
    pub more: &'a dyn Debug,
}

/// Ends the run where the two are not equal.
pub fn hold<T: PartialEq + Debug>(whose: &str, input: &Input, theirs: T, ours: T) {
    if theirs == ours {
        return;
    }
    println!("DIFFERENCE in {:?}, bases {:?}, {:?}", input.call, input.bases, input.more);
    println!("  at {:016X} ({:e})", input.at.to_bits(), input.at);
    print!("  {} knots:", input.knots.len());
    input.knots.iter().for_each(|k| print!(" {:016X}", k.to_bits()));
    println!("\n  {whose}: {theirs:X?}\n  the port: {ours:X?}");
    process::exit(1);
}

pub fn is_len_ok(t: &mut Tally, b: usize, n: usize) {
    let input = Input { call: Call::IsLenOk, bases: &[b], at: n as f64, knots: &[], more: &() };
    let ours = port::is_len_ok(b as u8, n);
    hold("the model", &input, model::is_len_ok(b, n) as u8, ours);
    hold("the crate", &input, crates::is_len_ok(b, n) as u8, ours);
    t.add(Call::IsLenOk, PLAIN, true);
}

pub fn valued(answer: Result<f64, RefusalNumber>) -> ValueReply {
    match answer {
        Ok(v) => ValueReply { reply: 0, value: v.to_bits() },
        Err(why) => ValueReply { reply: why.reply(), value: UNTOUCHED },
    }
}

pub fn spline(t: &mut Tally, b: usize, x: f64, knots: &[f64]) {
    let input = Input { call: Call::Spline, bases: &[b], at: x, knots, more: &() };
    let ours = port::spline(b as u8, x, knots);
    hold("the model", &input, valued(model::spline(b, x, knots)), ours);
    let sent = ours.reply <= 2;
    if sent {
        hold("the crate", &input, valued(crates::spline(b, x, knots).map_err(RefusalNumber::from)), ours);
    }
    t.add(Call::Spline, of_reply(ours.reply), sent);
}

pub fn spline_segment(t: &mut Tally, b: usize, x: f64, cv: &[f64]) {
    let input = Input { call: Call::SplineSegment, bases: &[b], at: x, knots: cv, more: &() };
    let ours = port::spline_segment(b as u8, x, cv);
    hold("the model", &input, valued(model::spline_segment(b, x, cv)), ours);
    let sent = ours.reply == 0;
    if sent {
        hold("the crate", &input, valued(Ok(crates::spline_segment(b, x, cv))), ours);
    }
    t.add(Call::SplineSegment, of_reply(ours.reply), sent);
}

pub fn inverted(i: &Inversion) -> InversionReply {
    match i.answer {
        Ok(p) => InversionReply {
            reply: 0,
            place: [p.parameter, p.local, p.lower, p.upper].map(f64::to_bits),
            whole: [p.ground as usize, p.segment, i.count],
        },
        Err(why) => InversionReply {
            reply: why.reply(),
            place: [UNTOUCHED; 4],
            whole: [UNTOUCHED_WHOLE, UNTOUCHED_WHOLE, if why.no == 11 { i.count } else { UNTOUCHED_WHOLE }],
        },
    }
}

/// The parameter's bits: all that the crate tells of an inversion.
fn parameter(i: &InversionReply) -> Option<u64> {
    (i.reply == 0).then_some(i.place[0])
}

/// Counts the call, and says whether the crate can be asked.
fn counted(t: &mut Tally, call: Call, expected: &Inversion, comparable: bool) -> bool {
    let sent = comparable && expected.fate == Fate::Answers;
    if comparable {
        t.not_sent(expected.fate);
    }
    t.add(call, expected.answer.map_or_else(|why| why.no as usize, |p| of_ground(p.ground)), sent);
    sent
}

fn is_default(o: &Options) -> bool {
    o.is_the_crates() && o.limit == 32 && o.precision == 1e-10
}

/// Whether these are the steady method's defaults; `ends` is a curve's alone.
fn is_steady(o: &Options) -> bool {
    o.method == Method::Steady && o.limit == Options::STEADY.limit && o.precision == Options::STEADY.precision
}

pub fn spline_inverse(t: &mut Tally, b: usize, y: f64, knots: &[f64], o: &Options) {
    let input = Input { call: Call::curve_inversion(o), bases: &[b], at: y, knots, more: o };
    let expected = model::spline_inverse(b, y, knots, o);
    let ours = port::spline_inverse_by(b as u8, y, knots, o);
    hold("the model", &input, inverted(&expected), ours);
    hold("a broken promise", &input, promised::broken_by_curve(b, y, knots, o, &ours, expected.rounds), None);
    let segments = knots.len().saturating_sub(4) / STEP[b] + 1;
    let most = Some(promised::most_evaluations(segments, o) as u64);
    hold("the most evaluations", &input, most, port::most_evaluations(b as u8, knots.len(), o));
    let comparable = o.is_the_crates() && matches!(ours.reply & 255, 0 | 1 | 2 | 10 | 11);
    if counted(t, input.call, &expected, comparable) {
        hold("the crate", &input, crates::spline_inverse(b, y, knots, o).map(f64::to_bits), parameter(&ours));
        if is_default(o) {
            let theirs = crates::spline_inverse_default(b, y, knots, o.check).map(f64::to_bits);
            hold("the crate by default", &input, theirs, parameter(&ours));
        }
    }
    if o.is_the_crates() {
        hold("the call with options", &input, ours, port::spline_inverse_with(b as u8, y, knots, o));
    }
    if is_default(o) {
        hold("the call with options", &input, ours, port::spline_inverse_default(b as u8, y, knots, o.check));
    }
    if is_steady(o) && o.ends == Ends::Knots {
        hold("the call with options", &input, ours, port::spline_inverse_steady(b as u8, y, knots, o.check));
    }
}

pub fn spline_inverse_segment(t: &mut Tally, b: usize, y: f64, cv: &[f64], o: &Options) {
    let input = Input { call: Call::segment_inversion(o), bases: &[b], at: y, knots: cv, more: o };
    let expected = model::spline_inverse_segment(b, y, cv, o);
    let ours = port::spline_inverse_segment_by(b as u8, y, cv, o);
    hold("the model", &input, inverted(&expected), ours);
    hold("a broken promise", &input, promised::broken_by_segment(b, y, cv, o, &ours, expected.rounds), None);
    let comparable = o.is_the_crates() && matches!(ours.reply, 0 | 11);
    if counted(t, input.call, &expected, comparable) {
        let theirs = crates::spline_inverse_segment(b, y, cv, o.limit, o.precision).map(f64::to_bits);
        hold("the crate", &input, theirs, parameter(&ours));
        if is_default(o) {
            let theirs = crates::spline_inverse_segment_default(b, y, cv).map(f64::to_bits);
            hold("the crate by default", &input, theirs, parameter(&ours));
        }
    }
    if o.is_the_crates() {
        hold("the call with options", &input, ours, port::spline_inverse_segment_with(b as u8, y, cv, o));
    }
    if is_default(o) {
        hold("the call with options", &input, ours, port::spline_inverse_segment_default(b as u8, y, cv));
    }
    if is_steady(o) {
        hold("the call with options", &input, ours, port::spline_inverse_segment_steady(b as u8, y, cv));
    }
}

/// The buffer at exit: what was written, then what stood there.
pub fn converted(answer: Result<&[f64], RefusalNumber>, room: usize, tells_length: bool) -> ConversionReply {
    let mut buffer: Vec<u64> = (0..room as u64 + 4).map(|i| UNTOUCHED + i).collect();
    let mut written = UNTOUCHED_WHOLE;
    if let Ok(out) = answer {
        out.iter().zip(&mut buffer).for_each(|(d, place)| *place = d.to_bits());
        if tells_length {
            written = out.len();
        }
    }
    ConversionReply { reply: answer.err().map_or(0, RefusalNumber::reply), written, buffer }
}

pub fn convert_spline(t: &mut Tally, from: usize, to: usize, knots: &[f64], room: usize) {
    let input = Input { call: Call::ConvertSpline, bases: &[from, to], at: 0.0, knots, more: &room };
    let ours = port::convert_spline(from as u8, to as u8, knots, room);
    let expected = model::convert_spline(from, to, knots, room);
    hold("the model", &input, converted(expected.as_deref().map_err(|why| *why), room, true), ours.clone());
    let sent = ours.reply == 0;
    if sent {
        let theirs = crates::convert_spline(from, to, knots);
        hold("the crate", &input, converted(Ok(&theirs), room, true), ours.clone());
    }
    t.add(Call::ConvertSpline, of_reply(ours.reply), sent);
}

pub fn convert_segment(t: &mut Tally, from: usize, to: usize, cv: &[f64], room: usize) {
    let input = Input { call: Call::ConvertSegment, bases: &[from, to], at: 0.0, knots: cv, more: &room };
    let ours = port::convert_segment(from as u8, to as u8, cv, room);
    let expected = model::convert_segment(from, to, cv, room);
    hold("the model", &input, converted(expected.as_deref().map_err(|why| *why), room, false), ours.clone());
    let sent = ours.reply == 0;
    if sent {
        let theirs = crates::convert_segment(from, to, cv.try_into().unwrap());
        hold("the crate", &input, converted(Ok(&theirs), room, false), ours.clone());
    }
    t.add(Call::ConvertSegment, of_reply(ours.reply), sent);
}
