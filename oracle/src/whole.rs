//! The calls in whole numbers: a model by calculus over exact fractions, apart from the port's own way, random tables, and the
//! port's replies.

use crate::inputs::Rng;
use crate::model::{curve_length, STEP};

pub const MOST: i64 = 1_000_000_000_000;
pub const MOST_ROW: i64 = 500_000_000_000;
/// What stands behind every pointer before a call.
pub const UNTOUCHED: u64 = 0xABCD_ABCD_0000_0001;

extern "C" {
    fn simmerstoat_turns_back(basis: u8, knots: *const i64, n: u64, turning: *mut [u64; 2]) -> u32;
    fn simmerstoat_turns_back_by(basis: u8, up: bool, knots: *const i64, n: u64, turning: *mut [u64; 2]) -> u32;
    fn simmerstoat_monotone(rows: *const i64, n: u64, out: *mut i64, room: u64, written: *mut u64) -> u32;
}

/// By which direction a curve is asked.
#[derive(Clone, Copy, Debug, PartialEq, Eq)]
pub enum Way {
    Up,
    Down,
    OwnEnds,
}

pub const WAYS: [Way; 3] = [Way::Up, Way::Down, Way::OwnEnds];

/// A reply, and what stands behind the pointer: which answer, and the segment.
#[derive(Clone, Copy, Debug, PartialEq, Eq)]
pub struct Told {
    pub reply: u32,
    pub turning: [u64; 2],
}

/// A reply, the count, and the whole output.
#[derive(Clone, Debug, PartialEq, Eq)]
pub struct Table {
    pub reply: u32,
    pub written: u64,
    pub out: Vec<i64>,
}

// ---- the port

pub fn asked(b: u8, way: Way, knots: &[i64]) -> Told {
    let mut turning = [UNTOUCHED; 2];
    let (at, n) = (knots.as_ptr(), knots.len() as u64);
    let reply = unsafe {
        match way {
            Way::OwnEnds => simmerstoat_turns_back(b, at, n, &mut turning),
            _ => simmerstoat_turns_back_by(b, way == Way::Up, at, n, &mut turning),
        }
    };
    Told { reply, turning }
}

/// The output has `all` places, of which `room` are lent.
pub fn table(rows: &[i64], room: usize, all: usize) -> Table {
    let (mut out, mut written) = (vec![-77; all], UNTOUCHED);
    let reply = unsafe {
        simmerstoat_monotone(rows.as_ptr(), rows.len() as u64, out.as_mut_ptr(), room as u64, &mut written)
    };
    Table { reply, written, out }
}

// ---- the model: a cubic a·t³ + b·t² + c·t + d, each number times the basis's divisor

type Cubic = [i128; 4];

fn cubic(b: usize, k: &[i64]) -> Cubic {
    let [p, q, r, s] = [0, 1, 2, 3].map(|i| i128::from(k[i]));
    match b {
        0 => [-p + 3 * q - 3 * r + s, 3 * p - 6 * q + 3 * r, -3 * p + 3 * r, p + 4 * q + r],
        1 => [-p + 3 * q - 3 * r + s, 3 * p - 6 * q + 3 * r, -3 * p + 3 * q, p],
        2 => [-p + 3 * q - 3 * r + s, 2 * p - 5 * q + 4 * r - s, -p + r, 2 * q],
        3 => [2 * p + q - 2 * r + s, -3 * p - 2 * q + 3 * r - s, q, p],
        4 => [0, 0, r - q, q],
        _ => [p, q, r, s],
    }
}

/// The value at j/n, times n³.
pub fn value([a, b, c, d]: Cubic, n: i128, j: i128) -> i128 {
    a * j * j * j + b * n * j * j + c * n * n * j + d * n * n * n
}

/// Whether 3a·t² + 2b·t + c is never negative from 0 to 1: not at the two ends, nor at its least where that is a minimum
/// between them, at t = −b/3a, where it is c − b²/3a.
fn never_falls([a, b, c, _]: Cubic) -> bool {
    let inside = a > 0 && -b > 0 && -b < 3 * a;
    c >= 0 && 3 * a + 2 * b + c >= 0 && (!inside || 3 * a * c >= b * b)
}

pub fn cubics(b: usize, knots: &[i64]) -> Vec<Cubic> {
    (0..=(knots.len() - 4) / STEP[b]).map(|s| cubic(b, &knots[s * STEP[b]..])).collect()
}

/// The first segment that falls, or starts below the end of the one before.
fn first_fall(curve: &[Cubic]) -> Option<usize> {
    (0..curve.len()).find(|&s| !never_falls(curve[s]) || (s > 0 && value(curve[s], 1, 0) < value(curve[s - 1], 1, 1)))
}

fn turned(curve: &[Cubic]) -> Vec<Cubic> {
    curve.iter().map(|c| c.map(|x| -x)).collect()
}

fn first_large(numbers: &[i64], most: i64) -> Option<usize> {
    numbers.iter().position(|k| k.unsigned_abs() > most as u64)
}

fn reply_of(no: u32, place: usize) -> u32 {
    no + 256 * place as u32
}

pub fn expected(b: u8, way: Way, knots: &[i64]) -> Told {
    let refused = |reply| Told { reply, turning: [UNTOUCHED; 2] };
    if b > 5 {
        return refused(255);
    }
    if let Err(why) = curve_length(b as usize, knots.len()) {
        return refused(u32::from(why));
    }
    if let Some(i) = first_large(knots, MOST) {
        return refused(reply_of(4, i));
    }
    let curve = cubics(b as usize, knots);
    let (start, end) = (value(curve[0], 1, 0), value(curve[curve.len() - 1], 1, 1));
    let fall = match way {
        Way::OwnEnds if start == end => return Told { reply: 0, turning: [2, 0] },
        Way::Down => first_fall(&turned(&curve)),
        Way::OwnEnds if end < start => first_fall(&turned(&curve)),
        _ => first_fall(&curve),
    };
    Told { reply: 0, turning: fall.map_or([0, 0], |s| [1, s as u64]) }
}

/// The slope at a row between the steps to and from it.
fn slope(a: i128, b: i128) -> i128 {
    if a.signum() * b.signum() <= 0 {
        return 0;
    }
    let most = 3 * a.abs().min(b.abs());
    ((a + b) / 2).clamp(-most, most)
}

pub fn expected_table(rows: &[i64], room: usize, all: usize) -> Table {
    let n = rows.len();
    let no = match n {
        0 | 1 => 1,
        2_049.. => 3,
        _ if room < 2 * n => 9,
        _ => first_large(rows, MOST_ROW).map_or(0, |i| reply_of(4, i)),
    };
    let mut out = vec![-77; all];
    if no != 0 {
        return Table { reply: no, written: UNTOUCHED, out };
    }
    let step = |i: usize| i128::from(rows[i + 1]) - i128::from(rows[i]);
    for i in 0..n {
        out[2 * i] = rows[i];
        out[2 * i + 1] = match i {
            0 => step(0),
            _ if i == n - 1 => step(n - 2),
            _ => slope(step(i - 1), step(i)),
        } as i64;
    }
    Table { reply: 0, written: 2 * n as u64, out }
}

// ---- random tables

/// A night of n rows, of one of eight kinds, some falling.
pub fn night(r: &mut Rng, n: usize) -> Vec<i64> {
    let kind = r.below(8);
    let unit = r.one_of(&[1, 10, 1_000, 50_000, 1_000_000_000 / (n as i64 + 1)]);
    let mut at = r.below(2_001) as i64 - 1_000;
    let (mut flow, mut rows) = (0, Vec::with_capacity(n));
    for i in 0..n {
        rows.push(at);
        at += match kind {
            // even increments; a valve that opens and shuts; bursts; a steady rate, more or less; an S; whole small steps
            0 => r.below(2_001) as i64 * unit,
            1 => {
                if r.below(4) == 0 {
                    flow = if flow == 0 { 1 + r.below(2_000) as i64 } else { 0 };
                }
                flow * unit
            }
            2 => r.one_of(&[0, 100, 200, 300, 1_500]) * unit,
            3 => (700 + r.below(601) as i64) * unit,
            4 => (i as i64).min(n as i64 - i as i64) * 40 * unit,
            5 => r.below(3) as i64,
            // in no order; anything that a knot may be
            6 => (r.below(2_001) as i64 - 1_000) * unit,
            _ => {
                at = (r.next() as i64) % (MOST + 1);
                0
            }
        };
    }
    if r.below(4) == 0 {
        rows.iter_mut().for_each(|x| *x = -*x);
    }
    rows.iter().map(|&x| x.clamp(-MOST, MOST)).collect()
}

/// Four knots of a Bezier segment whose slope touches 0, or nearly.
fn touching(r: &mut Rng) -> Vec<i64> {
    let most = r.one_of(&[3, 40, 1_000, 400_000]);
    let (x, y) = (1 + r.below(most) as i64, 1 + r.below(most) as i64);
    let off = r.below(3) as i64 - 1;
    vec![0, x * x, x * x - x * y + off, x * x - x * y + off + y * y]
}

/// Knots for a basis: mostly a length that suits it.
pub fn knots(r: &mut Rng, b: usize) -> Vec<i64> {
    let b = b.min(5);
    let segments = r.one_of(&[10, 10, 10, 10, 10, 10, 10, 40]);
    let mut n = match r.below(1_000) {
        0 => 4_093 + r.below(8),
        1..=40 => r.below(8),
        _ => 4 + STEP[b] * r.below(segments),
    };
    if r.below(60) == 0 {
        n += 1;
    }
    let mut all = match r.below(8) {
        0 if b == 1 => touching(r),
        // a Hermite table that keeps its rows, and a Power curve without negative numbers
        0..=3 if b == 3 => {
            let rows = night(r, n / 2).iter().map(|x| x / 2).collect::<Vec<_>>();
            let t = expected_table(&rows, n, n);
            if t.reply == 0 { t.out } else { night(r, n) }
        }
        0..=3 if b == 5 => power(r, n / 4),
        _ => night(r, n),
    };
    if r.below(40) == 0 && !all.is_empty() {
        let at = r.below(all.len());
        all[at] = r.one_of(&[MOST + 1, -MOST - 1, i64::MIN, i64::MAX, MOST, -MOST]);
    }
    all
}

/// Segments that rise, each from the end of the one before or a little beside it.
fn power(r: &mut Rng, segments: usize) -> Vec<i64> {
    let (mut at, mut all) = (0, Vec::new());
    for _ in 0..segments {
        let w = [r.below(50) as i64, r.below(50) as i64 - 5, r.below(50) as i64 + 10];
        let beside = if r.below(12) == 0 { r.below(3) as i64 - 1 } else { 0 };
        all.extend([w[0], w[1], w[2], at + beside]);
        at += beside + w.iter().sum::<i64>();
    }
    all
}
