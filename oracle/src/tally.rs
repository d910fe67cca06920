//! What was compared, by kind of call and by answer.

use std::fmt;

use crate::model::{Ends, Fate, Ground, Method, Options};

/// The calls by name, in the order of the printed table.
macro_rules! calls {
    ($($call:ident $name:literal,)*) => {
        #[derive(Clone, Copy, Debug)]
        pub enum Call { $($call),* }

        const CALLS: &[&str] = &[$($name),*];
    };
}

calls! {
    IsLenOk "is_len_ok",
    Spline "spline",
    SplineSegment "spline_segment",
    SplineInverse "spline_inverse",
    SplineInverseTaught "spline_inverse, taught",
    SplineInverseSteady "spline_inverse, steady",
    CurveEnds "spline_inverse, curve's ends",
    CurveEndsTaught "spline_inverse, curve's ends, taught",
    CurveEndsSteady "spline_inverse, curve's ends, steady",
    SplineInverseSegment "spline_inverse_segment",
    SegmentTaught "spline_inverse_segment, taught",
    SegmentSteady "spline_inverse_segment, steady",
    ConvertSpline "convert_spline",
    ConvertSegment "convert_segment",
    ConvertSplineStrict "convert_spline_strict",
    DepthAt "depth_at",
    TableSpline "table_spline",
    TableSplineInverse "table_spline_inverse",
    TableConvertSpline "table_convert_spline",
    CheckClaim "check_claim",
    TableConvertSplineStrict "table_convert_spline_strict",
    Stopped "stopped",
    Valve "valve",
    TurnsBack "turns_back",
    TurnsBackBy "turns_back_by",
    Monotone "monotone",
}

impl Call {
    pub fn curve_inversion(o: &Options) -> Call {
        match (o.ends, o.method) {
            (Ends::Knots, Method::AsCrate) => Call::SplineInverse,
            (Ends::Knots, Method::Taught) => Call::SplineInverseTaught,
            (Ends::Knots, Method::Steady) => Call::SplineInverseSteady,
            (Ends::Curve, Method::AsCrate) => Call::CurveEnds,
            (Ends::Curve, Method::Taught) => Call::CurveEndsTaught,
            (Ends::Curve, Method::Steady) => Call::CurveEndsSteady,
        }
    }

    pub fn segment_inversion(o: &Options) -> Call {
        match o.method {
            Method::AsCrate => Call::SplineInverseSegment,
            Method::Taught => Call::SegmentTaught,
            Method::Steady => Call::SegmentSteady,
        }
    }
}

/// An answer's column: 0 is plain, 1 to 20 the refusals, then the grounds, a number that stands for nothing, the
/// checker's two words, what is said of a stopped job, and whether a curve turns back.
pub type Answer = usize;

pub const PLAIN: Answer = 0;
const VALUE: Answer = 23;
const SPENT: Answer = 25;
pub const NO_NUMBER: Answer = 26;
pub const HOLDS: Answer = 27;
pub const DIFFERS: Answer = 28;
const FLAT: Answer = 29;
const NEVER: Answer = 35;
const AT_A_SEGMENT: Answer = 36;
const ANSWERS: usize = 37;

/// The column of a reply's number.
pub fn of_reply(reply: u32) -> Answer {
    match reply & 255 {
        255 => NO_NUMBER,
        no => no as usize,
    }
}

pub fn of_ground(g: Ground) -> Answer {
    21 + g as usize
}

/// The column of what is said of a job, by its number from 1 to 6.
pub fn of_job(job: u8) -> Answer {
    DIFFERS + job as usize
}

/// The column of whether a curve turns back, by its number from 0 to 2.
pub fn of_turning(turning: u64) -> Answer {
    [NEVER, AT_A_SEGMENT, FLAT][turning as usize]
}

fn name(a: Answer) -> String {
    match a {
        PLAIN => "answered".into(),
        1..=20 => format!("refused {a}"),
        21 => "end".into(),
        22 => "edge".into(),
        VALUE => "value".into(),
        24 => "width".into(),
        SPENT => "spent".into(),
        HOLDS => "holds".into(),
        DIFFERS => "differs".into(),
        FLAT..=34 => ["flat", "before", "not begun", "under way", "done", "beyond"][a - FLAT].into(),
        NEVER => "never".into(),
        AT_A_SEGMENT => "at a segment".into(),
        _ => "no such number".into(),
    }
}

pub struct Tally {
    /// compared with the crate and the model; with the model alone
    counts: Vec<[[u64; 2]; ANSWERS]>,
    /// left out, since the crate would not answer; the port was compared with the model
    pub limit_overflows: u64,
    pub side_overflows: u64,
    pub loops: u64,
}

impl Default for Tally {
    fn default() -> Tally {
        Tally { counts: vec![[[0; 2]; ANSWERS]; CALLS.len()], limit_overflows: 0, side_overflows: 0, loops: 0 }
    }
}

impl Tally {
    pub fn add(&mut self, call: Call, answer: Answer, with_crate: bool) {
        self.counts[call as usize][answer][if with_crate { 0 } else { 1 }] += 1;
    }

    pub fn not_sent(&mut self, fate: Fate) {
        match fate {
            Fate::Answers => {}
            Fate::LimitOverflows => self.limit_overflows += 1,
            Fate::SideOverflows => self.side_overflows += 1,
            Fate::Loops => self.loops += 1,
        }
    }

    pub fn join(&mut self, other: &Tally) {
        for (mine, theirs) in self.counts.iter_mut().flatten().flatten().zip(other.counts.iter().flatten().flatten()) {
            *mine += theirs;
        }
        self.limit_overflows += other.limit_overflows;
        self.side_overflows += other.side_overflows;
        self.loops += other.loops;
    }

    /// Inversions that went through rounds: their ground is a value, a width, or that the limit was spent.
    pub fn by_rounds(&self) -> u64 {
        self.counts.iter().flat_map(|answers| &answers[VALUE..=SPENT]).flatten().sum()
    }

    pub fn total(&self, by: usize) -> u64 {
        self.counts.iter().flatten().map(|c| c[by]).sum()
    }
}

impl fmt::Display for Tally {
    fn fmt(&self, f: &mut fmt::Formatter) -> fmt::Result {
        writeln!(f, "| call | answer | with the crate and the model | with the model alone |")?;
        writeln!(f, "|---|---|---:|---:|")?;
        for (call, answers) in CALLS.iter().zip(&self.counts) {
            for (a, c) in answers.iter().enumerate().filter(|(_, c)| **c != [0, 0]) {
                writeln!(f, "| {call} | {} | {} | {} |", name(a), c[0], c[1])?;
            }
        }
        writeln!(f, "| all | | {} | {} |", self.total(0), self.total(1))?;
        writeln!(f)?;
        writeln!(f, "Predicted, counted, not sent to the crate:")?;
        writeln!(f, "- 3 times the limit leaves u16: {}", self.limit_overflows)?;
        writeln!(f, "- the side count leaves u8: {}", self.side_overflows)?;
        writeln!(f, "- the search goes left at segment 0: {}", self.loops)
    }
}
