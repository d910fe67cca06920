//! Stands in for the crate `lerp`, which could not be had: lower + (upper - lower) * t.
#![no_std]

use core::ops::{Add, Mul, Sub};

pub trait Lerp<F> {
    fn lerp(self, upper: Self, t: F) -> Self;
}

impl<T> Lerp<T> for T
where
    T: Clone + Add<Output = T> + Sub<Output = T> + Mul<Output = T>,
{
    #[inline]
    fn lerp(self, upper: T, t: T) -> T {
        self.clone() + (upper - self) * t
    }
}
