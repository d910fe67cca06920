//! Tables that carry their span: whole seconds from dusk, 1 to 86,400. A clock shows some hours twice and some
//! never; seconds from dusk count each once.

use core::marker::PhantomData;

use crate::{done, found, raw, Basis, Place, Refusal, SplineInverseOptions};

/// A table of depths over the basis `B`, with its span; the knots are lent to each call. A table without a span has
/// span 0, and every call refuses it.
#[derive(Debug, PartialEq, Eq)]
pub struct Table<B> {
    pub span: u32,
    basis: PhantomData<B>,
}

impl<B> Clone for Table<B> {
    fn clone(&self) -> Self {
        *self
    }
}

impl<B> Copy for Table<B> {}

/// An inversion's record, and the second of its place: the largest whole number not above parameter × span.
#[derive(Clone, Copy, Debug, PartialEq)]
pub struct TimedPlace {
    pub place: Place,
    pub second: u32,
}

impl<B: Basis> Table<B> {
    pub fn new(span: u32) -> Self {
        Table { span, basis: PhantomData }
    }

    /// The value of the curve at `x`, which is clamped to 0 to 1.
    ///
    /// Refusals: those of [`crate::spline`], and `BadSpan` after the lengths.
    pub fn spline(self, x: f64, knots: &[f64]) -> Result<f64, Refusal> {
        let mut value = 0.0;
        // SAFETY: the pointer and length are a slice's, and `value` is a local.
        let reply = unsafe {
            raw::simmerstoat_table_spline(B::NUMBER, self.span, x, knots.as_ptr(), knots.len() as u64, &mut value)
        };
        done(reply, value)
    }

    /// The place where the curve is at `y` and its second, with the defaults and the order check.
    ///
    /// Refusals: those of [`crate::spline_inverse`], and `BadSpan` after the lengths.
    ///
    /// ```
    /// use simmerstoat::{basis::Linear, table::Table, Refusal};
    ///
    /// let knots = [0.0, 0.0, 0.5, 0.5];
    /// assert_eq!(Table::<Linear>::new(86_400).spline_inverse(0.25, &knots)?.second, 43_200);
    /// assert_eq!(Table::<Linear>::new(0).spline_inverse(0.25, &knots), Err(Refusal::BadSpan));
    /// # Ok::<(), Refusal>(())
    /// ```
    pub fn spline_inverse(self, y: f64, knots: &[f64]) -> Result<TimedPlace, Refusal> {
        let (mut place, mut whole) = ([0.0; 4], [0; 4]);
        // SAFETY: the pointer and length are a slice's, and both records are locals.
        let reply = unsafe {
            raw::simmerstoat_table_spline_inverse(
                B::NUMBER,
                self.span,
                y,
                knots.as_ptr(),
                knots.len() as u64,
                true,
                &mut place,
                &mut whole,
            )
        };
        timed_place(reply, place, whole)
    }

    /// The place where the curve is at `y` and its second, as the options say.
    ///
    /// Refusals: those of [`crate::spline_inverse_with`], and `BadSpan` after the lengths.
    pub fn spline_inverse_with(
        self,
        y: f64,
        knots: &[f64],
        options: &SplineInverseOptions,
    ) -> Result<TimedPlace, Refusal> {
        let (mut place, mut whole) = ([0.0; 4], [0; 4]);
        // SAFETY: as in `spline_inverse`.
        let reply = unsafe {
            raw::simmerstoat_table_spline_inverse_by(
                B::NUMBER,
                self.span,
                y,
                knots.as_ptr(),
                knots.len() as u64,
                options.order_check,
                options.limit(),
                options.precision(),
                options.ends.number(),
                options.method.number(),
                &mut place,
                &mut whole,
            )
        };
        timed_place(reply, place, whole)
    }

    /// The place where the curve is at `y` and its second, by the steady method with its defaults and the order check.
    ///
    /// Refusals: those of [`crate::spline_inverse_steady`], and `BadSpan` after the lengths.
    pub fn spline_inverse_steady(self, y: f64, knots: &[f64]) -> Result<TimedPlace, Refusal> {
        let (mut place, mut whole) = ([0.0; 4], [0; 4]);
        // SAFETY: as in `spline_inverse`.
        let reply = unsafe {
            raw::simmerstoat_table_spline_inverse_steady(
                B::NUMBER,
                self.span,
                y,
                knots.as_ptr(),
                knots.len() as u64,
                true,
                &mut place,
                &mut whole,
            )
        };
        timed_place(reply, place, whole)
    }

    /// The table over `Out`, which has the same span, and how many knots of it were written into the lent buffer. On a
    /// refusal the buffer keeps all.
    ///
    /// Refusals: those of [`crate::convert::convert_spline_into`], and `BadSpan` after the lengths.
    ///
    /// ```
    /// use simmerstoat::{basis::{Bezier, CatmullRom}, table::Table, Refusal};
    ///
    /// let mut out = [7.0; 5];
    /// let night = Table::<CatmullRom>::new(7_200);
    /// let (new, written) = night.convert_spline_into::<Bezier>(&[0.0, 1.0, 2.0, 1.5], &mut out)?;
    /// assert_eq!((new.span, written, out[4]), (7_200, 4, 7.0));
    /// # Ok::<(), Refusal>(())
    /// ```
    pub fn convert_spline_into<Out: Basis>(self, cv: &[f64], out: &mut [f64]) -> Result<(Table<Out>, usize), Refusal> {
        let (mut span, mut written) = (0, 0);
        // SAFETY: each pointer and length are a slice's, and `span` and `written` are locals.
        let reply = unsafe {
            raw::simmerstoat_table_convert_spline(
                B::NUMBER,
                self.span,
                Out::NUMBER,
                cv.as_ptr(),
                cv.len() as u64,
                out.as_mut_ptr(),
                out.len() as u64,
                &mut span,
                &mut written,
            )
        };
        done(reply, (Table::new(span), written as usize))
    }

    /// The same, unless a seam would lose more than `allowance`; then this refuses with the lowest such segment. On a
    /// refusal the buffer keeps all.
    ///
    /// Refusals: those of [`crate::strict::convert_spline_strict_into`], and `BadSpan` after the lengths.
    ///
    /// ```
    /// use simmerstoat::{basis::{Bezier, Hermite}, table::Table, Refusal};
    ///
    /// let bend = [0.0, 0.0, 0.0, 0.0, 1.0, 1.0, 1.0];
    /// let (night, mut out) = (Table::<Bezier>::new(7_200), [7.0; 7]);
    /// let told = night.convert_spline_strict_into::<Hermite>(&bend, 0.0, &mut out);
    /// assert_eq!((told.err(), out), (Some(Refusal::LostSeam(1)), [7.0; 7]));
    /// let (new, written) = night.convert_spline_strict_into::<Hermite>(&bend, 3.0, &mut out)?;
    /// assert_eq!((new.span, written, out[6]), (7_200, 6, 7.0));
    /// # Ok::<(), Refusal>(())
    /// ```
    pub fn convert_spline_strict_into<Out: Basis>(
        self,
        cv: &[f64],
        allowance: f64,
        out: &mut [f64],
    ) -> Result<(Table<Out>, usize), Refusal> {
        let (mut span, mut written) = (0, 0);
        // SAFETY: as in `convert_spline_into`.
        let reply = unsafe {
            raw::simmerstoat_table_convert_spline_strict(
                B::NUMBER,
                self.span,
                Out::NUMBER,
                cv.as_ptr(),
                cv.len() as u64,
                allowance,
                out.as_mut_ptr(),
                out.len() as u64,
                &mut span,
                &mut written,
            )
        };
        done(reply, (Table::new(span), written as usize))
    }
}

fn timed_place(reply: u32, place: [f64; 4], whole: [u64; 4]) -> Result<TimedPlace, Refusal> {
    let [ground, segment, count, second] = whole;
    found(reply, place, [ground, segment, count]).map(|place| TimedPlace { place, second: second as u32 })
}
