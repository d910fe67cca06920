//! The six bases.

use crate::raw;

/// A cubic spline basis: one of the six types of this module, and no other.
pub trait Basis<T = f64>: sealed::Sealed {
    const NAME: &'static str;
    /// The knots from the start of one segment to the start of the next.
    const STEP: usize;
    /// The number that the exports know it by.
    const NUMBER: u8;

    /// Whether so many knots suit the basis: at least 4, and 4 less than them a multiple of STEP.
    ///
    /// ```
    /// use simmerstoat::{Basis, Bezier, Linear};
    ///
    /// assert!(Bezier::is_len_ok(4) && Bezier::is_len_ok(7));
    /// assert!(!Bezier::is_len_ok(3) && !Bezier::is_len_ok(5) && !Bezier::is_len_ok(11));
    /// assert!(Linear::is_len_ok(4096));
    /// ```
    fn is_len_ok(len: usize) -> bool {
        // SAFETY: no pointer is passed.
        unsafe { raw::simmerstoat_is_len_ok(Self::NUMBER, len as u64) == 1 }
    }
}

mod sealed {
    pub trait Sealed {}
}

macro_rules! basis {
    ($(#[$says:meta])* $name:ident, $called:literal, $step:literal, $number:literal) => {
        $(#[$says])*
        #[derive(Clone, Copy, Debug)]
        pub struct $name;

        impl sealed::Sealed for $name {}

        impl Basis<f64> for $name {
            const NAME: &'static str = $called;
            const STEP: usize = $step;
            const NUMBER: u8 = $number;
        }
    };
}

basis!(
    /// A *B-spline* basis.
    Bspline,
    "Bspline",
    1,
    0
);
basis!(
    /// A *Bezier* basis; 4, 7, 10, … knots.
    Bezier,
    "Bezier",
    3,
    1
);
basis!(
    /// A *Catmull-Rom* basis.
    CatmullRom,
    "CatmullRom",
    1,
    2
);
basis!(
    /// A *Hermite* basis; 4, 6, 8, … knots, each value followed by its slope.
    Hermite,
    "Hermite",
    2,
    3
);
basis!(
    /// A *Linear* basis, whose first and last knot are not used.
    Linear,
    "Linear",
    1,
    4
);
basis!(
    /// A *Power* basis: coefficients, highest first; 4, 8, 12, … knots.
    Power,
    "Power",
    4,
    5
);
