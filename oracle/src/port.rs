//! The port's exports, called so that whatever they write or leave can be seen.

use simmerstoat::raw;

use crate::model::Options;

/// What every out-parameter holds before a call: a NaN that no call makes.
pub const UNTOUCHED: u64 = 0x7FF8_DEAD_BEEF_0001;
pub const UNTOUCHED_WHOLE: usize = 0xDEAD_BEEF;

fn untouched() -> f64 {
    f64::from_bits(UNTOUCHED)
}

/// A reply and a value's bits.
#[derive(Clone, Copy, Debug, PartialEq, Eq)]
pub struct ValueReply {
    pub reply: u32,
    pub value: u64,
}

/// A reply; the bits of parameter, local place, lower and upper end; ground, segment and count.
#[derive(Clone, Copy, Debug, PartialEq, Eq)]
pub struct InversionReply {
    pub reply: u32,
    pub place: [u64; 4],
    pub whole: [usize; 3],
}

/// A reply, the length written, and the bits of the whole buffer.
#[derive(Clone, Debug, PartialEq, Eq)]
pub struct ConversionReply {
    pub reply: u32,
    pub written: usize,
    pub buffer: Vec<u64>,
}

pub fn is_len_ok(b: u8, n: usize) -> u8 {
    unsafe { raw::simmerstoat_is_len_ok(b, n as u64) }
}

pub fn spline(b: u8, x: f64, knots: &[f64]) -> ValueReply {
    let mut value = untouched();
    let reply = unsafe { raw::simmerstoat_spline(b, x, knots.as_ptr(), knots.len() as u64, &mut value) };
    ValueReply { reply, value: value.to_bits() }
}

pub fn spline_segment(b: u8, x: f64, cv: &[f64]) -> ValueReply {
    let mut value = untouched();
    let reply = unsafe { raw::simmerstoat_spline_segment(b, x, cv.as_ptr(), cv.len() as u64, &mut value) };
    ValueReply { reply, value: value.to_bits() }
}

fn inverted(call: impl FnOnce(&mut [f64; 4], &mut [u64; 3]) -> u32) -> InversionReply {
    let (mut place, mut whole) = ([untouched(); 4], [UNTOUCHED_WHOLE as u64; 3]);
    let reply = call(&mut place, &mut whole);
    InversionReply { reply, place: place.map(f64::to_bits), whole: whole.map(|n| n as usize) }
}

/// The rule of the ends and the method by their numbers.
#[allow(clippy::too_many_arguments)]
pub fn spline_inverse_numbered(
    b: u8,
    y: f64,
    knots: &[f64],
    check: bool,
    limit: u16,
    precision: f64,
    ends: u8,
    method: u8,
) -> InversionReply {
    inverted(|place, whole| unsafe {
        let (at, n) = (knots.as_ptr(), knots.len() as u64);
        raw::simmerstoat_spline_inverse_by(b, y, at, n, check, limit, precision, ends, method, place, whole)
    })
}

pub fn spline_inverse_by(b: u8, y: f64, knots: &[f64], o: &Options) -> InversionReply {
    spline_inverse_numbered(b, y, knots, o.check, o.limit, o.precision, o.ends as u8, o.method as u8)
}

/// The most evaluations of an inversion of `n` knots by these options, if the reply is 0.
pub fn most_evaluations(b: u8, n: usize, o: &Options) -> Option<u64> {
    let mut most = 0;
    let reply = unsafe { raw::simmerstoat_most_evaluations(b, n as u64, o.limit, o.ends as u8, o.method as u8, &mut most) };
    (reply == 0).then_some(most)
}

/// By the crate's rule of the ends and its method.
pub fn spline_inverse_with(b: u8, y: f64, knots: &[f64], o: &Options) -> InversionReply {
    inverted(|place, whole| unsafe {
        let (at, n) = (knots.as_ptr(), knots.len() as u64);
        raw::simmerstoat_spline_inverse_with(b, y, at, n, o.check, o.limit, o.precision, place, whole)
    })
}

pub fn spline_inverse_default(b: u8, y: f64, knots: &[f64], check: bool) -> InversionReply {
    inverted(|place, whole| unsafe {
        raw::simmerstoat_spline_inverse(b, y, knots.as_ptr(), knots.len() as u64, check, place, whole)
    })
}

/// By the steady method with its defaults.
pub fn spline_inverse_steady(b: u8, y: f64, knots: &[f64], check: bool) -> InversionReply {
    inverted(|place, whole| unsafe {
        raw::simmerstoat_spline_inverse_steady(b, y, knots.as_ptr(), knots.len() as u64, check, place, whole)
    })
}

pub fn spline_inverse_segment_numbered(b: u8, y: f64, cv: &[f64], limit: u16, precision: f64, method: u8) -> InversionReply {
    inverted(|place, whole| unsafe {
        let (at, n) = (cv.as_ptr(), cv.len() as u64);
        raw::simmerstoat_spline_inverse_segment_by(b, y, at, n, limit, precision, method, place, whole)
    })
}

pub fn spline_inverse_segment_by(b: u8, y: f64, cv: &[f64], o: &Options) -> InversionReply {
    spline_inverse_segment_numbered(b, y, cv, o.limit, o.precision, o.method as u8)
}

/// By the crate's method.
pub fn spline_inverse_segment_with(b: u8, y: f64, cv: &[f64], o: &Options) -> InversionReply {
    inverted(|place, whole| unsafe {
        let (at, n) = (cv.as_ptr(), cv.len() as u64);
        raw::simmerstoat_spline_inverse_segment_with(b, y, at, n, o.limit, o.precision, place, whole)
    })
}

pub fn spline_inverse_segment_default(b: u8, y: f64, cv: &[f64]) -> InversionReply {
    inverted(|place, whole| unsafe {
        raw::simmerstoat_spline_inverse_segment(b, y, cv.as_ptr(), cv.len() as u64, place, whole)
    })
}

/// By the steady method with its defaults.
pub fn spline_inverse_segment_steady(b: u8, y: f64, cv: &[f64]) -> InversionReply {
    inverted(|place, whole| unsafe {
        raw::simmerstoat_spline_inverse_segment_steady(b, y, cv.as_ptr(), cv.len() as u64, place, whole)
    })
}

/// A buffer of `room` places, and further ones behind it that no call may touch.
fn converted(room: usize, call: impl FnOnce(&mut [f64], &mut u64) -> u32) -> ConversionReply {
    let mut buffer: Vec<f64> = (0..room as u64 + 4).map(|i| f64::from_bits(UNTOUCHED + i)).collect();
    let mut written = UNTOUCHED_WHOLE as u64;
    let reply = call(&mut buffer[..room], &mut written);
    ConversionReply { reply, written: written as usize, buffer: buffer.iter().map(|d| d.to_bits()).collect() }
}

pub fn convert_segment(from: u8, to: u8, cv: &[f64], room: usize) -> ConversionReply {
    converted(room, |out, _| unsafe {
        raw::simmerstoat_convert_segment(from, to, cv.as_ptr(), cv.len() as u64, out.as_mut_ptr(), out.len() as u64)
    })
}

pub fn convert_spline(from: u8, to: u8, knots: &[f64], room: usize) -> ConversionReply {
    converted(room, |out, written| unsafe {
        raw::simmerstoat_convert_spline(from, to, knots.as_ptr(), knots.len() as u64, out.as_mut_ptr(), out.len() as u64, written)
    })
}
