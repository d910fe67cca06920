//! The one kind of number. The crate's calls name types for parameter and knots; here each of them is `f64`, so that its
//! calls stand as they are.

/// `f64`, and no other.
pub trait Double: Copy + sealed::Sealed {
    #[doc(hidden)]
    fn double(self) -> f64;
    #[doc(hidden)]
    fn of(x: f64) -> Self;
    #[doc(hidden)]
    fn doubles(all: &[Self]) -> &[f64];
    #[doc(hidden)]
    fn doubles_mut(all: &mut [Self]) -> &mut [f64];
}

mod sealed {
    pub trait Sealed {}
    impl Sealed for f64 {}
}

impl Double for f64 {
    fn double(self) -> f64 {
        self
    }

    fn of(x: f64) -> f64 {
        x
    }

    fn doubles(all: &[f64]) -> &[f64] {
        all
    }

    fn doubles_mut(all: &mut [f64]) -> &mut [f64] {
        all
    }
}
