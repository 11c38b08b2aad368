//! Stands for the crate num-traits.
use core::ops::{Add, Div, Mul, Rem, Sub};

pub trait Zero: Sized + Add<Self, Output = Self> {
    fn zero() -> Self;
    fn is_zero(&self) -> bool;
}

pub trait NumOps<Rhs = Self, Output = Self>:
    Add<Rhs, Output = Output>
    + Sub<Rhs, Output = Output>
    + Mul<Rhs, Output = Output>
    + Div<Rhs, Output = Output>
    + Rem<Rhs, Output = Output>
{
}

/// The `as` of Rust, as a function.
pub trait AsPrimitive<T: 'static + Copy>: 'static + Copy {
    fn as_(self) -> T;
}

macro_rules! whole_number {
    ($type: ty: $($as: ty)*) => {
        impl Zero for $type {
            fn zero() -> Self {
                0
            }

            fn is_zero(&self) -> bool {
                *self == 0
            }
        }

        impl NumOps for $type {}

        $(impl AsPrimitive<$as> for $type {
            #[allow(clippy::all)]
            fn as_(self) -> $as {
                self as $as
            }
        })*
    };
}

whole_number!(u8: u8 u32 u64 usize f64);
whole_number!(u32: u8 u32 u64 usize f64);
whole_number!(u64: u8 u32 u64 usize f64);
