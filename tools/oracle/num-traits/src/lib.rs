//! Stands in for the crate num-traits: only the items that the assembled Rust names. For f64, the only scalar the
//! oracle runs, each is the identity or f64's own operation, as in num-traits.
use std::ops::{Add, Div, Mul, Neg, Sub};

pub trait Float:
    Copy
    + PartialOrd
    + Add<Output = Self>
    + Sub<Output = Self>
    + Mul<Output = Self>
    + Div<Output = Self>
    + Neg<Output = Self>
{
    fn zero() -> Self;
    fn one() -> Self;
    fn sqrt(self) -> Self;
    fn abs(self) -> Self;
    fn max(self, other: Self) -> Self;
    fn to_f64(&self) -> Option<f64>;
}

pub trait FromPrimitive: Sized {
    fn from_f64(v: f64) -> Option<Self>;
    fn from_f32(v: f32) -> Option<Self>;
    fn from_usize(v: usize) -> Option<Self>;
}

macro_rules! scalar {
    ($t:ty) => {
        impl Float for $t {
            #[inline]
            fn zero() -> Self {
                0.0
            }
            #[inline]
            fn one() -> Self {
                1.0
            }
            #[inline]
            fn sqrt(self) -> Self {
                <$t>::sqrt(self)
            }
            #[inline]
            fn abs(self) -> Self {
                <$t>::abs(self)
            }
            #[inline]
            fn max(self, other: Self) -> Self {
                <$t>::max(self, other)
            }
            #[inline]
            fn to_f64(&self) -> Option<f64> {
                Some(*self as f64)
            }
        }
        impl FromPrimitive for $t {
            #[inline]
            fn from_f64(v: f64) -> Option<Self> {
                Some(v as $t)
            }
            #[inline]
            fn from_f32(v: f32) -> Option<Self> {
                Some(v as $t)
            }
            #[inline]
            fn from_usize(v: usize) -> Option<Self> {
                Some(v as $t)
            }
        }
    };
}
scalar!(f64);
scalar!(f32);
