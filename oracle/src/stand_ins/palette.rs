//! Stands for the crate palette, with arrays of three bytes as the one type of colour.
pub mod cast {
    /// Types that are arrays under another name.
    pub trait ArrayCast: Sized {
        type Array;
        fn from_array(array: Self::Array) -> Self;
        fn as_array(&self) -> &Self::Array;
        fn slice_as_arrays(colors: &[Self]) -> &[Self::Array];
    }

    impl ArrayCast for [u8; 3] {
        type Array = [u8; 3];

        fn from_array(array: [u8; 3]) -> Self {
            array
        }

        fn as_array(&self) -> &[u8; 3] {
            self
        }

        fn slice_as_arrays(colors: &[Self]) -> &[[u8; 3]] {
            colors
        }
    }

    pub fn from_array<T: ArrayCast>(array: T::Array) -> T {
        T::from_array(array)
    }

    pub fn into_array_ref<T: ArrayCast>(color: &T) -> &T::Array {
        color.as_array()
    }

    pub trait AsArrays<A: ?Sized> {
        fn as_arrays(&self) -> &A;
    }

    impl<T: ArrayCast> AsArrays<[T::Array]> for [T] {
        fn as_arrays(&self) -> &[T::Array] {
            T::slice_as_arrays(self)
        }
    }
}
