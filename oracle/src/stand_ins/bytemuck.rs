//! Stands for the crate bytemuck.
use std::boxed::Box;

// The original derives `Zeroable` for its statistics. A derive of that name has to be a macro: here it is the
// built-in one of `Debug`, which nothing uses, and the implementation stands beside the original's text.
pub use core::prelude::v1::Debug as Zeroable;

/// Types for which the bytes of zero make a value.
///
/// # Safety
///
/// They must.
pub unsafe trait Zeroable: Sized {
    fn zeroed() -> Self {
        unsafe { core::mem::zeroed() }
    }
}

unsafe impl Zeroable for u8 {}
unsafe impl Zeroable for u32 {}
unsafe impl Zeroable for u64 {}
unsafe impl Zeroable for f64 {}
unsafe impl<T: Zeroable, const N: usize> Zeroable for [T; N] {}

pub fn zeroed_box<T: Zeroable>() -> Box<T> {
    unsafe { Box::<T>::new_zeroed().assume_init() }
}
