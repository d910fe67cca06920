//! What the calls answer.

use core::error::Error;
use core::fmt;

/// Why a call answers nothing. The first that applies is given, in this order. The line programs have some that no function
/// of this package gives.
#[derive(Clone, Copy, Debug, PartialEq, Eq)]
#[non_exhaustive]
pub enum Refusal {
    /// 1: fewer than 4 knots, or fewer than 2 rows of a table.
    TooFew,
    /// 2: 4 less than the knots is no multiple of STEP; one segment: more than 4 knots.
    BadPattern,
    /// 3: more than 4,096 knots, or more than 2,048 rows of a table.
    TooMany,
    /// 14: the span is missing, or outside 1 to 86,400 seconds.
    BadSpan,
    /// 5: the parameter or the target is NaN, or one segment's parameter lies outside 0 to 1.
    NotANumber,
    /// 6: the precision is not finite or not above 0.
    BadPrecision,
    /// 7: the limit of rounds is 0.
    NoRounds,
    /// 8: the output basis is Linear.
    LinearOutput,
    /// 17: the allowance is not finite, or negative.
    BadAllowance,
    /// 9: the output buffer is shorter than needed.
    ShortBuffer,
    /// 16: the step is above 256.
    BadStep,
    /// 19: the segment's number is not below the count of segments.
    NoSegment,
    /// 4: a knot is not finite or exceeds 2^40 in magnitude; in whole numbers it exceeds the module's own bound. The first such
    /// knot, from 0.
    BadKnot(u16),
    /// 10: the order check was wanted, and the knots turn back; the first knot, from 0, whose step to the next goes
    /// against the direction.
    TurnsBack(u16),
    /// 18: the two tables have different counts of segments.
    UnequalSegments,
    /// 11: the target is not on the curve; with the count of evaluations.
    OffCurve(u32),
    /// 12: a bad line of a listing.
    BadLine,
    /// 13: a bad line of a sheet.
    BadSheet,
    /// 20: nothing to compare with.
    NoComparison,
    /// 15: a seam would be lost; its segment, from 0.
    LostSeam(u16),
}

impl Refusal {
    /// The refusal's number.
    pub fn number(self) -> u8 {
        match self {
            Refusal::TooFew => 1,
            Refusal::BadPattern => 2,
            Refusal::TooMany => 3,
            Refusal::BadKnot(_) => 4,
            Refusal::NotANumber => 5,
            Refusal::BadPrecision => 6,
            Refusal::NoRounds => 7,
            Refusal::LinearOutput => 8,
            Refusal::ShortBuffer => 9,
            Refusal::TurnsBack(_) => 10,
            Refusal::OffCurve(_) => 11,
            Refusal::BadLine => 12,
            Refusal::BadSheet => 13,
            Refusal::BadSpan => 14,
            Refusal::LostSeam(_) => 15,
            Refusal::BadStep => 16,
            Refusal::BadAllowance => 17,
            Refusal::UnequalSegments => 18,
            Refusal::NoSegment => 19,
            Refusal::NoComparison => 20,
        }
    }

    /// The refusal of a reply that is not 0: its number in the lowest eight bits, its place above them.
    pub(crate) fn of(reply: u32, count: u64) -> Refusal {
        let place = (reply >> 8) as u16;
        match reply & 255 {
            1 => Refusal::TooFew,
            2 => Refusal::BadPattern,
            3 => Refusal::TooMany,
            4 => Refusal::BadKnot(place),
            5 => Refusal::NotANumber,
            6 => Refusal::BadPrecision,
            7 => Refusal::NoRounds,
            8 => Refusal::LinearOutput,
            9 => Refusal::ShortBuffer,
            10 => Refusal::TurnsBack(place),
            11 => Refusal::OffCurve(count as u32),
            12 => Refusal::BadLine,
            13 => Refusal::BadSheet,
            14 => Refusal::BadSpan,
            15 => Refusal::LostSeam(place),
            16 => Refusal::BadStep,
            17 => Refusal::BadAllowance,
            18 => Refusal::UnequalSegments,
            19 => Refusal::NoSegment,
            20 => Refusal::NoComparison,
            _ => unreachable!("the exports give no reply {reply} to a basis of this package"),
        }
    }
}

impl fmt::Display for Refusal {
    fn fmt(&self, f: &mut fmt::Formatter) -> fmt::Result {
        match self {
            Refusal::TooFew => f.write_str("too few knots"),
            Refusal::BadPattern => f.write_str("this many knots do not suit the basis"),
            Refusal::TooMany => f.write_str("too many knots"),
            Refusal::BadSpan => f.write_str("the span is missing or not in 1 to 86400"),
            Refusal::NotANumber => f.write_str("the parameter or target is NaN or outside its range"),
            Refusal::BadPrecision => f.write_str("the precision is not finite or not above 0"),
            Refusal::NoRounds => f.write_str("the limit of rounds is 0"),
            Refusal::LinearOutput => f.write_str("Linear is no output basis"),
            Refusal::BadAllowance => f.write_str("the allowance is not finite or negative"),
            Refusal::ShortBuffer => f.write_str("the output buffer is too short"),
            Refusal::BadStep => f.write_str("the step is above 256"),
            Refusal::NoSegment => f.write_str("there is no such segment"),
            Refusal::BadKnot(i) => write!(f, "knot {i} is not finite or too large"),
            Refusal::TurnsBack(i) => write!(f, "knot {i} goes against the direction"),
            Refusal::UnequalSegments => f.write_str("the tables have different counts of segments"),
            Refusal::OffCurve(n) => write!(f, "the target is not on the curve, after {n} evaluations"),
            Refusal::BadLine => f.write_str("a bad line"),
            Refusal::BadSheet => f.write_str("a bad sheet"),
            Refusal::NoComparison => f.write_str("nothing to compare with"),
            Refusal::LostSeam(i) => write!(f, "the seam of segment {i} would be lost"),
        }
    }
}

impl Error for Refusal {}

/// Why an inversion stopped.
#[derive(Clone, Copy, Debug, PartialEq, Eq)]
pub enum Ground {
    /// The target lies at or beyond an end of the curve.
    End,
    /// The target is within twice the precision of a segment's start or end.
    Edge,
    /// The value at the place is within the precision of the target.
    Value,
    /// The bracket became narrower than the precision.
    Width,
    /// The rounds were spent.
    Spent,
}

/// An inversion's record.
#[derive(Clone, Copy, Debug, PartialEq)]
pub struct Place {
    /// The parameter of the curve, 0 to 1; for one segment the local place.
    pub parameter: f64,
    pub ground: Ground,
    /// The segment, from 0.
    pub segment: usize,
    /// The place in that segment, 0 to 1.
    pub local: f64,
    /// The bracket's ends after its last move.
    pub lower: f64,
    pub upper: f64,
    /// How many evaluations were made.
    pub count: u32,
}

impl Place {
    pub(crate) fn of(place: [f64; 4], whole: [u64; 3]) -> Place {
        let ground = match whole[0] {
            0 => Ground::End,
            1 => Ground::Edge,
            2 => Ground::Value,
            3 => Ground::Width,
            4 => Ground::Spent,
            n => unreachable!("there is no ground {n}"),
        };
        let [parameter, local, lower, upper] = place;
        Place { parameter, ground, segment: whole[1] as usize, local, lower, upper, count: whole[2] as u32 }
    }
}

pub(crate) fn done<T>(reply: u32, answer: T) -> Result<T, Refusal> {
    if reply == 0 {
        Ok(answer)
    } else {
        Err(Refusal::of(reply, 0))
    }
}

pub(crate) fn found(reply: u32, place: [f64; 4], whole: [u64; 3]) -> Result<Place, Refusal> {
    if reply == 0 {
        Ok(Place::of(place, whole))
    } else {
        Err(Refusal::of(reply, whole[2]))
    }
}
