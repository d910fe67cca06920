//! What is promised of every inversion, held against the record that the port told: apart from the model's record,
//! with evaluations made anew.

use crate::model::{self, Ends, Method, Options, STEP};
use crate::port::InversionReply;

/// The most evaluations that an inversion of `k` segments may make.
pub fn most_evaluations(k: usize, o: &Options) -> usize {
    let limit = o.limit as usize;
    let ends = if o.ends == Ends::Curve { 2 } else { 0 };
    let bits = (usize::BITS - k.leading_zeros()) as usize;
    ends + if k <= 12 { limit + 24 } else { limit + 2 * bits + 4 }
}

/// The rounds after which the steady rule has an answer, where the precision is coarse enough for a promise.
pub fn steady_rounds(precision: f64) -> Option<usize> {
    let fits = |p: i32| precision >= 2f64.powi(-p);
    match (0..=49).find(|&p| fits(p)) {
        Some(p) => Some(p as usize + 6),
        None => fits(50).then_some(59),
    }
}

fn between(a: f64, y: f64, b: f64) -> bool {
    a.min(b) <= y && y <= a.max(b)
}

/// The promise that a place breaks, if any. `rounds` is how many evaluations rounds made; `most` bounds the count.
fn broken(b: usize, y: f64, knots: &[f64], o: &Options, i: &InversionReply, rounds: usize, most: usize) -> Option<&'static str> {
    let [parameter, local, lower, upper] = i.place.map(f64::from_bits);
    let [ground, segment, count] = i.whole;
    let limit = o.limit as usize;
    if count > most {
        return Some("the bound on evaluations");
    }
    if !(0.0..=1.0).contains(&parameter) || !(0.0 <= lower && lower <= local && local <= upper && upper <= 1.0) {
        return Some("places in order, from 0 to 1");
    }
    let at = |x: f64| model::value(b, x, &knots[segment * STEP[b]..segment * STEP[b] + 4]);
    let apart = (at(local) - y).abs();
    let holds = match ground {
        0 => lower == upper && parameter == local && (local == 0.0 || local == 1.0) && rounds == 0,
        1 => apart < 2.0 * o.precision && (local == 0.0 || local == 1.0) && rounds == 0,
        2 => apart < o.precision,
        3 => upper - lower < o.precision,
        4 => rounds == limit,
        _ => false,
    };
    if !holds {
        return Some("the ground");
    }
    if ground != 0 && !between(at(lower), y, at(upper)) {
        return Some("the bracket's ends enclose the target");
    }
    let steady = if o.method == Method::Steady { steady_rounds(o.precision) } else { None };
    if steady.is_some_and(|most| rounds > most || (ground == 4 && limit > most)) {
        return Some("the steady rule ends in time");
    }
    None
}

/// The same of any reply to an inversion of a curve.
pub fn broken_by_curve(b: usize, y: f64, knots: &[f64], o: &Options, i: &InversionReply, rounds: usize) -> Option<&'static str> {
    if i.reply != 0 && i.reply != 11 {
        return None;
    }
    let most = most_evaluations((knots.len() - 4) / STEP[b] + 1, o);
    if i.reply == 11 {
        // every evaluation was of a segment's end
        return (i.whole[2] > most - o.limit as usize).then_some("the bound on evaluations");
    }
    if i.whole[0] == 0 && i.whole[2] != if o.ends == Ends::Curve { 2 } else { 0 } {
        return Some("the count of the end rule");
    }
    broken(b, y, knots, o, i, rounds, most)
}

/// The same of one segment.
pub fn broken_by_segment(b: usize, y: f64, cv: &[f64], o: &Options, i: &InversionReply, rounds: usize) -> Option<&'static str> {
    match i.reply {
        0 if i.whole[0] == 0 => Some("one segment knows no end rule"),
        0 if i.whole[2] != rounds + 2 => Some("two ends and the rounds"),
        0 => broken(b, y, cv, o, i, rounds, o.limit as usize + 2),
        11 => (i.whole[2] != 2).then_some("two evaluations"),
        _ => None,
    }
}
