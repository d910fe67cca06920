//! What an inversion may be told.

use core::num::NonZeroU16;

use crate::Double;

/// By which values a target lies at or beyond an end of the curve.
#[derive(Clone, Copy, Debug, Default, PartialEq, Eq)]
pub enum Ends {
    /// Two knots, as the crate has it: the second and the last but one where the basis's STEP is 1, else the first and the last.
    /// Good where the curve goes through its knots.
    #[default]
    Knots,
    /// The curve's own first and last value, which are evaluated: two evaluations more.
    Curve,
}

/// How an inversion chooses its next place.
#[derive(Clone, Copy, Debug, Default, PartialEq, Eq)]
pub enum Method {
    /// As the crate does.
    #[default]
    AsCrate,
    /// Regula falsi with the weighting as it is taught.
    Taught,
    /// Kept to a pace by which the bracket narrows.
    Steady,
}

/// What an inversion may be told.
///
/// ```
/// use simmerstoat::prelude::*;
///
/// // a B-spline of heights 0, 6, 12, ..: its own start lies above 0.5, and the knots' rule looks for a place and finds none
/// let mut heights: Vec<f64> = (0..16).map(|i| 6.0 * (i as f64 - 1.0)).collect();
/// heights[0] = 0.0;
/// assert_eq!(spline_inverse::<Bspline, _>(0.5, &heights), Err(Refusal::OffCurve(10)));
///
/// let own_ends = SplineInverseOptions { ends: Ends::Curve, ..Default::default() };
/// let place = spline_inverse_with::<Bspline, _>(0.5, &heights, &own_ends)?;
/// assert_eq!((place.parameter, place.ground, place.count), (0.0, Ground::End, 2));
/// # Ok::<(), Refusal>(())
/// ```
#[derive(Clone, Copy, Debug)]
pub struct SplineInverseOptions<T = f64> {
    /// The most rounds; `None`: 32.
    pub max_iterations: Option<NonZeroU16>,
    /// How close is close enough; `None`: 1e-10.
    pub precision: Option<T>,
    /// Whether knots that turn back are refused; one segment's inversion has no use for it.
    pub order_check: bool,
    /// The rule of the ends; one segment's inversion has no use for it.
    pub ends: Ends,
    pub method: Method,
}

impl<T> Default for SplineInverseOptions<T> {
    fn default() -> Self {
        SplineInverseOptions {
            max_iterations: None,
            precision: None,
            order_check: true,
            ends: Ends::Knots,
            method: Method::AsCrate,
        }
    }
}

impl<T: Double> SplineInverseOptions<T> {
    pub(crate) fn limit(&self) -> u16 {
        self.max_iterations.map_or(32, NonZeroU16::get)
    }

    pub(crate) fn precision(&self) -> f64 {
        self.precision.map_or(1e-10, Double::double)
    }
}

impl Ends {
    pub(crate) fn number(self) -> u8 {
        match self {
            Ends::Knots => 0,
            Ends::Curve => 1,
        }
    }
}

impl Method {
    pub(crate) fn number(self) -> u8 {
        match self {
            Method::AsCrate => 0,
            Method::Taught => 1,
            Method::Steady => 2,
        }
    }
}
