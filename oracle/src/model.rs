//! The rules written out a second time, apart from the proved code and from the crate.
//!
//! It answers what the port owes on every input, and says where a build of the crate with overflow checks
//! panics or loops, so that such a call is not sent to it.

use std::ops::Range;

/// A refusal: its number, and where it tells one, the place of the first knot or segment at fault.
#[derive(Clone, Copy, Debug, PartialEq, Eq)]
pub struct RefusalNumber {
    pub no: u8,
    pub place: usize,
}

impl RefusalNumber {
    /// As the exports give it.
    pub fn reply(self) -> u32 {
        self.no as u32 + 256 * self.place as u32
    }
}

impl From<u8> for RefusalNumber {
    fn from(no: u8) -> RefusalNumber {
        RefusalNumber { no, place: 0 }
    }
}

pub const STEP: [usize; 6] = [1, 3, 1, 2, 1, 4];

const LARGEST: f64 = 1_099_511_627_776.0;

#[rustfmt::skip]
const MATRIX: [[[f64; 4]; 4]; 6] = [
    [[-1.0 / 6.0, 0.5, -0.5, 1.0 / 6.0], [0.5, -1.0, 0.5, 0.0], [-0.5, 0.0, 0.5, 0.0], [1.0 / 6.0, 2.0 / 3.0, 1.0 / 6.0, 0.0]],
    [[-1.0, 3.0, -3.0, 1.0], [3.0, -6.0, 3.0, 0.0], [-3.0, 3.0, 0.0, 0.0], [1.0, 0.0, 0.0, 0.0]],
    [[-0.5, 1.5, -1.5, 0.5], [1.0, -2.5, 2.0, -0.5], [-0.5, 0.0, 0.5, 0.0], [0.0, 1.0, 0.0, 0.0]],
    [[2.0, 1.0, -2.0, 1.0], [-3.0, -2.0, 3.0, -1.0], [0.0, 1.0, 0.0, 0.0], [1.0, 0.0, 0.0, 0.0]],
    [[0.0, 0.0, 0.0, 0.0], [0.0, 0.0, 0.0, 0.0], [0.0, -1.0, 1.0, 0.0], [0.0, 1.0, 0.0, 0.0]],
    [[1.0, 0.0, 0.0, 0.0], [0.0, 1.0, 0.0, 0.0], [0.0, 0.0, 1.0, 0.0], [0.0, 0.0, 0.0, 1.0]],
];

/// What the crate does with a call that no refusal of ours stops.
#[derive(Clone, Copy, Debug, PartialEq, Eq)]
pub enum Fate {
    Answers,
    /// 3 times the limit leaves u16
    LimitOverflows,
    /// the count of moves on one side leaves u8
    SideOverflows,
    /// the search goes left at segment 0
    Loops,
}

#[derive(Clone, Copy, Debug, PartialEq, Eq)]
pub enum Ground {
    End,
    Edge,
    Value,
    Width,
    Spent,
}

#[derive(Clone, Copy, Debug)]
pub struct Place {
    pub parameter: f64,
    pub ground: Ground,
    pub segment: usize,
    pub local: f64,
    pub lower: f64,
    pub upper: f64,
}

#[derive(Clone, Copy, Debug)]
pub struct Inversion {
    pub answer: Result<Place, RefusalNumber>,
    pub count: usize,
    /// how many of the evaluations were made by rounds
    pub rounds: usize,
    pub fate: Fate,
}

/// What the end rule of a curve looks at: two of its knots, as the crate does, or the curve's own ends, evaluated.
#[derive(Clone, Copy, Debug, PartialEq, Eq)]
pub enum Ends {
    Knots,
    Curve,
}

/// How a round finds the next place in a segment.
#[derive(Clone, Copy, Debug, PartialEq, Eq)]
pub enum Method {
    AsCrate,
    /// the crate's rounds, but the distance to the target is halved, at the end that stayed
    Taught,
    /// that chord, and the midpoint wherever the bracket is wider than 16, halved with each round
    Steady,
}

/// How a place between two others is found.
#[derive(Clone, Copy, Debug, PartialEq, Eq)]
pub enum Lerp {
    /// lower + (upper - lower) * t: the port's
    FromLower,
    /// lower * (1 - t) + upper * t
    OfBoth,
}

impl Lerp {
    fn at(self, lower: f64, upper: f64, t: f64) -> f64 {
        match self {
            Lerp::FromLower => lower + (upper - lower) * t,
            Lerp::OfBoth => lower * (1.0 - t) + upper * t,
        }
    }
}

/// The options of an inversion; `check` and `ends` are a curve's alone.
#[derive(Clone, Copy, Debug)]
pub struct Options {
    pub check: bool,
    pub limit: u16,
    pub precision: f64,
    pub ends: Ends,
    pub method: Method,
}

impl Options {
    /// The crate's: no order check, 32 rounds, 1e-10.
    pub const DEFAULT: Options =
        Options { check: false, limit: 32, precision: 1e-10, ends: Ends::Knots, method: Method::AsCrate };

    /// The steady method's: no order check, 64 rounds, 1e-10.
    pub const STEADY: Options = Options { limit: 64, method: Method::Steady, ..Options::DEFAULT };

    /// Whether the crate has this inversion.
    pub fn is_the_crates(&self) -> bool {
        self.ends == Ends::Knots && self.method == Method::AsCrate
    }
}

pub fn is_len_ok(b: usize, n: usize) -> bool {
    n >= 4 && (n - 4) % STEP[b] == 0
}

pub fn curve_length(b: usize, n: usize) -> Result<usize, u8> {
    if n < 4 {
        return Err(1);
    }
    if (n - 4) % STEP[b] != 0 {
        return Err(2);
    }
    if n > 4096 {
        return Err(3);
    }
    Ok((n - 4) / STEP[b] + 1)
}

pub fn segment_length(n: usize) -> Result<(), u8> {
    match n {
        0..=3 => Err(1),
        4 => Ok(()),
        _ => Err(2),
    }
}

pub fn knots_in_range(knots: &[f64]) -> Result<(), RefusalNumber> {
    match knots.iter().position(|k| k.is_nan() || k.abs() > LARGEST) {
        None => Ok(()),
        Some(place) => Err(RefusalNumber { no: 4, place }),
    }
}

fn row(m: &[f64; 4], cv: &[f64]) -> f64 {
    ((cv[0] * m[0] + cv[1] * m[1]) + cv[2] * m[2]) + cv[3] * m[3]
}

/// The row sums of a segment.
pub fn sums(b: usize, cv: &[f64]) -> [f64; 4] {
    MATRIX[b].map(|m| row(&m, cv))
}

/// The cubic of these row sums.
pub fn cubic(w: &[f64; 4], t: f64) -> f64 {
    ((w[0] * t + w[1]) * t + w[2]) * t + w[3]
}

pub fn value(b: usize, t: f64, cv: &[f64]) -> f64 {
    cubic(&sums(b, cv), t)
}

pub fn spline_segment(b: usize, x: f64, cv: &[f64]) -> Result<f64, RefusalNumber> {
    segment_length(cv.len())?;
    if !(0.0..=1.0).contains(&x) {
        return Err(5.into());
    }
    knots_in_range(cv)?;
    Ok(value(b, x, cv))
}

pub fn spline(b: usize, x: f64, knots: &[f64]) -> Result<f64, RefusalNumber> {
    let k = curve_length(b, knots.len())?;
    if x.is_nan() {
        return Err(5.into());
    }
    knots_in_range(knots)?;
    let clamped = if x < 0.0 {
        0.0
    } else if x > 1.0 {
        1.0
    } else {
        x
    };
    let scaled = clamped * k as f64;
    let s = (scaled.floor() as usize).min(k - 1);
    Ok(value(b, scaled - s as f64, &knots[s * STEP[b]..]))
}

/// Evaluations made, and how many of them by rounds.
#[derive(Clone, Copy, Default)]
struct Evaluations {
    count: usize,
    rounds: usize,
}

/// A bracket with its two weighed values, the end that moved last, and how often it did so again.
struct Bracket {
    lower: f64,
    upper: f64,
    v0: f64,
    v1: f64,
    moved_lower: Option<bool>,
    repeats: u64,
}

impl Bracket {
    /// What a method does to the weighed values before a chord, where a side was repeated.
    fn weigh(&mut self, method: Method, y: f64) {
        if self.repeats == 0 {
            return;
        }
        let lower_moved = self.moved_lower == Some(true);
        match (method, lower_moved) {
            (Method::AsCrate, true) => self.v0 *= 0.5,
            (Method::AsCrate, false) => self.v1 *= 0.5,
            (_, true) => self.v1 = y + (self.v1 - y) * 0.5,
            (_, false) => self.v0 = y + (self.v0 - y) * 0.5,
        }
    }

    fn chord(&self, y: f64) -> f64 {
        (y - self.v0) / (self.v1 - self.v0)
    }

    /// The next place by the crate's rule, with either weighting.
    fn by_fraction(&mut self, lerp: Lerp, method: Method, y: f64, early: bool) -> f64 {
        let mut fraction = 0.5;
        if early && self.repeats < 3 {
            self.weigh(method, y);
            let falsi = self.chord(y);
            if 0.01 < falsi && falsi < 0.99 {
                fraction = falsi;
            }
        }
        lerp.at(self.lower, self.upper, fraction)
    }

    /// The next place by the steady rule.
    fn by_pace(&mut self, lerp: Lerp, y: f64, allowed: f64) -> f64 {
        let middle = lerp.at(self.lower, self.upper, 0.5);
        if self.upper - self.lower > allowed {
            return middle;
        }
        self.weigh(Method::Steady, y);
        let x = lerp.at(self.lower, self.upper, self.chord(y));
        if self.lower < x && x < self.upper {
            x
        } else {
            middle
        }
    }

    fn advance(&mut self, x: f64, v: f64, lower: bool) {
        if lower {
            (self.lower, self.v0) = (x, v);
        } else {
            (self.upper, self.v1) = (x, v);
        }
        self.repeats = if self.moved_lower == Some(lower) { self.repeats + 1 } else { 0 };
        self.moved_lower = Some(lower);
    }
}

/// What trying a segment comes to: its ends do not enclose the target, and the value of its start; or a place.
enum Trial {
    Outside(f64),
    Inside(Place, Fate),
}

/// One segment, past the refusals of its arguments: its two ends are evaluated, once, and it is entered where they
/// enclose the target.
fn enter(lerp: Lerp, b: usize, y: f64, cv: &[f64], o: &Options, made: &mut Evaluations) -> Trial {
    made.count += 2;
    let (v0, v1) = (value(b, 0.0, cv), value(b, 1.0, cv));
    let (least, most) = if v0 < v1 { (v0, v1) } else { (v1, v0) };
    if y < least || y > most {
        return Trial::Outside(v0);
    }
    if (y - v0).abs() < 2.0 * o.precision {
        return Trial::Inside(within(Ground::Edge, 0.0, 0.0, 1.0), Fate::Answers);
    }
    if (y - v1).abs() < 2.0 * o.precision {
        return Trial::Inside(within(Ground::Edge, 1.0, 0.0, 1.0), Fate::Answers);
    }
    let (place, fate) = rounds(lerp, b, y, cv, o, (v0, v1), made);
    Trial::Inside(place, fate)
}

/// A place of a segment that stands alone.
fn within(ground: Ground, local: f64, lower: f64, upper: f64) -> Place {
    Place { parameter: local, ground, segment: 0, local, lower, upper }
}

/// The rounds in a segment whose ends have these values, which enclose the target.
fn rounds(lerp: Lerp, b: usize, y: f64, cv: &[f64], o: &Options, ends: (f64, f64), made: &mut Evaluations) -> (Place, Fate) {
    let (v0, v1) = ends;
    let rising = v0 < v1;
    let limit = o.limit as u64;
    let mut fate = if 3 * limit > 65_535 { Fate::LimitOverflows } else { Fate::Answers };
    let mut bracket = Bracket { lower: 0.0, upper: 1.0, v0, v1, moved_lower: None, repeats: 0 };
    let mut allowed = 16.0;
    for round in 0..limit {
        let (lower, upper) = (bracket.lower, bracket.upper);
        let width = (upper - lower).abs();
        if width < o.precision.max(width * 1e-12) {
            return (within(Ground::Width, lerp.at(lower, upper, 0.5), lower, upper), fate);
        }
        let x = match o.method {
            Method::Steady => bracket.by_pace(lerp, y, allowed),
            method => bracket.by_fraction(lerp, method, y, round < 3 * limit / 4),
        };
        allowed *= 0.5;
        let v = value(b, x, cv);
        made.count += 1;
        made.rounds += 1;
        bracket.advance(x, v, (v < y) == rising);
        if bracket.repeats > 255 && fate == Fate::Answers {
            fate = Fate::SideOverflows;
        }
        if (v - y).abs() < o.precision {
            return (within(Ground::Value, x, bracket.lower, bracket.upper), fate);
        }
    }
    let Bracket { lower, upper, .. } = bracket;
    (within(Ground::Spent, lerp.at(lower, upper, 0.5), lower, upper), fate)
}

fn asked(y: f64, o: &Options) -> Result<(), u8> {
    if y.is_nan() {
        return Err(5);
    }
    if !(o.precision > 0.0 && o.precision < f64::INFINITY) {
        return Err(6);
    }
    if o.limit == 0 {
        return Err(7);
    }
    Ok(())
}

fn refused(why: RefusalNumber) -> Inversion {
    Inversion { answer: Err(why), count: 0, rounds: 0, fate: Fate::Answers }
}

fn segment_rows(y: f64, cv: &[f64], o: &Options) -> Result<(), RefusalNumber> {
    segment_length(cv.len())?;
    asked(y, o)?;
    knots_in_range(cv)
}

pub fn spline_inverse_segment(b: usize, y: f64, cv: &[f64], o: &Options) -> Inversion {
    if let Err(why) = segment_rows(y, cv, o) {
        return refused(why);
    }
    let mut made = Evaluations::default();
    let (answer, fate) = match enter(Lerp::FromLower, b, y, cv, o, &mut made) {
        Trial::Outside(_) => (Err(11.into()), Fate::Answers),
        Trial::Inside(place, fate) => (Ok(place), fate),
    };
    Inversion { answer, count: made.count, rounds: made.rounds, fate }
}

/// The first knot, from knot 1 on, whose step to the next goes against the direction of knots 1 and n - 2.
fn turns_back(knots: &[f64]) -> Option<usize> {
    let n = knots.len();
    let rising = knots[1] < knots[n - 2];
    (1..n - 1).find(|&i| if rising { knots[i] > knots[i + 1] } else { knots[i] < knots[i + 1] })
}

/// The rows of a curve's inversion; the number of segments where none applies.
fn curve_rows(b: usize, y: f64, knots: &[f64], o: &Options) -> Result<usize, RefusalNumber> {
    let k = curve_length(b, knots.len())?;
    asked(y, o)?;
    knots_in_range(knots)?;
    match turns_back(knots) {
        Some(place) if o.check => Err(RefusalNumber { no: 10, place }),
        _ => Ok(k),
    }
}

pub fn spline_inverse(b: usize, y: f64, knots: &[f64], o: &Options) -> Inversion {
    spline_inverse_by(Lerp::FromLower, b, y, knots, o)
}

pub fn spline_inverse_by(lerp: Lerp, b: usize, y: f64, knots: &[f64], o: &Options) -> Inversion {
    let k = match curve_rows(b, y, knots, o) {
        Ok(k) => k,
        Err(why) => return refused(why),
    };
    let n = knots.len();
    let mut made = Evaluations::default();
    let (rising, low, high) = match o.ends {
        Ends::Knots if STEP[b] == 1 => (knots[1] < knots[n - 2], knots[1], knots[n - 2]),
        Ends::Knots => (knots[1] < knots[n - 2], knots[0], knots[n - 1]),
        Ends::Curve => {
            let (start, end) = (value(b, 0.0, knots), value(b, 1.0, &knots[(k - 1) * STEP[b]..]));
            made.count += 2;
            (start < end, start, end)
        }
    };
    let end = |segment, at| Inversion {
        answer: Ok(Place { parameter: at, ground: Ground::End, segment, local: at, lower: at, upper: at }),
        count: made.count,
        rounds: 0,
        fate: Fate::Answers,
    };
    if if rising { y <= low } else { y >= low } {
        return end(0, 0.0);
    }
    if if rising { y >= high } else { y <= high } {
        return end(k - 1, 1.0);
    }
    search(lerp, b, y, knots, k, rising, o, made)
}

/// What halving comes to: the segment that it enters, or those that are left to be tried; and whether the crate would loop.
enum Halved {
    Entered(usize, Place, Fate),
    Left(Range<usize>, bool),
}

/// Halving the segments of a curve, each tried by the call: left of the middle's start, or right of it.
fn halve(y: f64, k: usize, rising: bool, mut tried: impl FnMut(usize) -> Trial) -> Halved {
    let (mut left, mut right) = (0, k - 1);
    while left <= right {
        let middle = (left + right) / 2;
        let start = match tried(middle) {
            Trial::Inside(place, fate) => return Halved::Entered(middle, place, fate),
            Trial::Outside(start) => start,
        };
        if if rising { y < start } else { y > start } {
            if middle == 0 {
                return Halved::Left(0..2.min(k), true);
            }
            right = middle - 1;
        } else {
            left = middle + 1;
        }
    }
    Halved::Left(left.saturating_sub(1)..(right + 2).min(k), false)
}

/// The segments of a curve, past the end rule.
#[allow(clippy::too_many_arguments)]
fn search(lerp: Lerp, b: usize, y: f64, knots: &[f64], k: usize, rising: bool, o: &Options, made: Evaluations) -> Inversion {
    let mut made = made;
    let mut tried = |s: usize| enter(lerp, b, y, &knots[s * STEP[b]..s * STEP[b] + 4], o, &mut made);
    let halved = if k > 12 { halve(y, k, rising, &mut tried) } else { Halved::Left(0..k, false) };
    let loops = matches!(halved, Halved::Left(_, true));
    let entered = match halved {
        Halved::Entered(s, place, fate) => Some((s, place, fate)),
        Halved::Left(mut tries, _) => tries.find_map(|s| match tried(s) {
            Trial::Inside(place, fate) => Some((s, place, fate)),
            Trial::Outside(_) => None,
        }),
    };
    let (answer, fate) = match entered {
        None => (Err(11.into()), Fate::Answers),
        Some((s, place, fate)) => {
            let parameter = (s as f64 + place.local) * (1.0 / k as f64);
            (Ok(Place { parameter, segment: s, ..place }), fate)
        }
    };
    Inversion { answer, count: made.count, rounds: made.rounds, fate: if loops { Fate::Loops } else { fate } }
}

/// The conversion's matrix: the output's, inverted by elimination, times the input's.
fn conversion(from: usize, to: usize) -> [[f64; 4]; 4] {
    let mut a = [[0.0; 8]; 4];
    for i in 0..4 {
        a[i][..4].copy_from_slice(&MATRIX[to][i]);
        a[i][4 + i] = 1.0;
    }
    for i in 0..4 {
        if a[i][i] == 0.0 {
            let other = (i + 1..4).find(|&r| a[r][i] != 0.0).unwrap();
            a.swap(i, other);
        }
        let pivot = a[i][i];
        a[i].iter_mut().for_each(|x| *x /= pivot);
        let top = a[i];
        for (r, row) in a.iter_mut().enumerate() {
            let factor = row[i];
            if r != i && factor != 0.0 {
                (0..8).for_each(|j| row[j] -= factor * top[j]);
            }
        }
    }
    let m = &MATRIX[from];
    let cell = |i: usize, j: usize| {
        ((a[i][4] * m[0][j] + a[i][5] * m[1][j]) + a[i][6] * m[2][j]) + a[i][7] * m[3][j]
    };
    std::array::from_fn(|i| std::array::from_fn(|j| cell(i, j)))
}

fn converted(from: usize, to: usize, knots: &[f64], k: usize) -> Vec<f64> {
    let c = conversion(from, to);
    let mut out = Vec::new();
    for s in 0..k {
        let cv = &knots[s * STEP[from]..];
        let four: [f64; 4] = std::array::from_fn(|i| row(&c[i], cv));
        out.extend(&four[if s == 0 { 0 } else { 4 - STEP[to] }..]);
    }
    out
}

fn output(to: usize, knots: &[f64], needed: usize, room: usize) -> Result<(), RefusalNumber> {
    if to == 4 {
        return Err(8.into());
    }
    if room < needed {
        return Err(9.into());
    }
    knots_in_range(knots)
}

pub fn convert_segment(from: usize, to: usize, cv: &[f64], room: usize) -> Result<Vec<f64>, RefusalNumber> {
    segment_length(cv.len())?;
    output(to, cv, 4, room)?;
    Ok(converted(from, to, cv, 1))
}

pub fn convert_spline(from: usize, to: usize, knots: &[f64], room: usize) -> Result<Vec<f64>, RefusalNumber> {
    let k = curve_length(from, knots.len())?;
    output(to, knots, 4 + (k - 1) * STEP[to], room)?;
    Ok(converted(from, to, knots, k))
}
