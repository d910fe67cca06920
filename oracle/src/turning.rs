//! The calls in whole numbers, compared: each reply with the model of `whole.rs`, and what it tells with values of the curve at 16ths.

use crate::compare::{hold, Input};
use crate::inputs::Rng;
use crate::part::Part;
use crate::tally::{of_reply, of_turning, Call, Tally, PLAIN};
use crate::whole::{asked, cubics, expected, expected_table, knots, night, table, value, Told, Way, MOST_ROW, WAYS};

pub const PART: Part = Part { once: |_| {}, knots: |t, r, _, _| one(t, r) };

/// One table by the three directions, and rows by `monotone`.
pub fn one(t: &mut Tally, r: &mut Rng) {
    let b = if r.below(200) == 0 { 6 + r.below(250) } else { r.below(6) };
    let ks = knots(r, b);
    WAYS.into_iter().for_each(|way| curve(t, b, way, &ks));
    rows(t, r);
}

fn curve(t: &mut Tally, b: usize, way: Way, knots: &[i64]) {
    let call = if way == Way::OwnEnds { Call::TurnsBack } else { Call::TurnsBackBy };
    let input = Input { call, bases: &[b], at: 0.0, knots: &[], more: &(way, knots) };
    let ours = asked(b as u8, way, knots);
    hold("the model", &input, expected(b as u8, way, knots), ours);
    if ours.reply == 0 && knots.len() < 200 {
        hold("values at 16ths", &input, true, sampled(b, way, knots, ours));
    }
    t.add(call, if ours.reply == 0 { of_turning(ours.turning[0]) } else { of_reply(ours.reply) }, false);
}

/// Whether values at 16ths, one after the other through the segments before `to`, go in the direction.
fn is_in_order(b: usize, up: bool, knots: &[i64], to: usize) -> bool {
    let values: Vec<i128> = cubics(b, knots)[..to].iter().flat_map(|c| (0..=16).map(|j| value(*c, 16, j))).collect();
    values.windows(2).all(|w| if up { w[0] <= w[1] } else { w[1] <= w[0] })
}

fn sampled(b: usize, way: Way, knots: &[i64], told: Told) -> bool {
    let curve = cubics(b, knots);
    let (start, end) = (value(curve[0], 1, 0), value(curve[curve.len() - 1], 1, 1));
    let up = match way {
        Way::Up => true,
        Way::Down => false,
        Way::OwnEnds => start < end,
    };
    match told.turning {
        [0, _] => is_in_order(b, up, knots, curve.len()),
        [1, s] => is_in_order(b, up, knots, s as usize),
        _ => start == end,
    }
}

/// One table by `monotone`. Rows in order have a table that never turns back.
fn rows(t: &mut Tally, r: &mut Rng) {
    let (rows, room) = random_rows(r);
    let input = Input { call: Call::Monotone, bases: &[], at: 0.0, knots: &[], more: &(&rows, room) };
    let ours = table(&rows, room, room + 4);
    hold("the model", &input, expected_table(&rows, room, room + 4), ours.clone());
    t.add(input.call, if ours.reply == 0 { PLAIN } else { of_reply(ours.reply) }, false);
    if ours.reply != 0 {
        return;
    }
    let made = &ours.out[..2 * rows.len()];
    for (way, sorted) in [(Way::Up, rows.windows(2).all(|w| w[0] <= w[1])), (Way::Down, rows.windows(2).all(|w| w[1] <= w[0]))] {
        if sorted {
            hold("a table that never turns back", &input, [0, 0], asked(3, way, made).turning);
        }
    }
}

pub fn random_rows(r: &mut Rng) -> (Vec<i64>, usize) {
    let n = match r.below(1_000) {
        0 => 2_045 + r.below(8),
        1..=40 => r.below(4),
        41..=80 => 2 + r.below(50),
        _ => 2 + r.below(30),
    };
    let mut rows: Vec<i64> = night(r, n).iter().map(|x| x / 2).collect();
    if r.below(40) == 0 && n > 0 {
        let at = r.below(n);
        rows[at] = r.one_of(&[MOST_ROW + 1, -MOST_ROW - 1, i64::MIN, i64::MAX, MOST_ROW, -MOST_ROW]);
    }
    let room = if r.below(40) == 0 { r.below(2 * n + 1) } else { 2 * n + r.below(3) };
    (rows, room)
}
