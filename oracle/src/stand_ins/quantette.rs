//! Stands for the types of quantette that the two files name and do not hold. `PaletteCounts` is the original's.
use super::palette::cast::ArrayCast;
use core::{
    marker::PhantomData,
    ops::{Deref, Index},
};
use std::vec::Vec;

/// The most pixels of an input.
pub const MAX_PIXELS: u32 = u32::MAX;

/// A colour with N components.
pub trait ColorComponents<Component, const N: usize>:
    ArrayCast<Array = [Component; N]> + Copy + Send + Sync + 'static
{
}

impl ColorComponents<u8, 3> for [u8; 3] {}

/// An input with no colour, or with too many.
#[derive(Clone, Copy, Debug, PartialEq, Eq)]
pub struct LengthOutOfRange;

/// A slice of 1 to `MAX_PIXELS` places.
#[repr(transparent)]
pub struct BoundedSlice<T>([T]);

impl<T> BoundedSlice<T> {
    pub fn new(slice: &[T]) -> Result<&Self, LengthOutOfRange> {
        if slice.is_empty() || slice.len() > MAX_PIXELS as usize {
            return Err(LengthOutOfRange);
        }
        // The two types have one layout.
        Ok(unsafe { &*(core::ptr::from_ref(slice) as *const Self) })
    }
}

impl<T> Deref for BoundedSlice<T> {
    type Target = [T];

    fn deref(&self) -> &[T] {
        &self.0
    }
}

/// How many colours a palette may have, from 1 to 256.
#[derive(Clone, Copy, Debug, PartialEq, Eq)]
pub struct PaletteSize(u16);

impl PaletteSize {
    pub const MAX: Self = Self(256);

    pub fn new(size: usize) -> Option<Self> {
        (1..=256).contains(&size).then_some(Self(size as u16))
    }

    pub fn as_usize(self) -> usize {
        usize::from(self.0)
    }
}

impl From<PaletteSize> for usize {
    fn from(size: PaletteSize) -> usize {
        size.as_usize()
    }
}

/// A palette, lent.
#[derive(Clone, Debug, PartialEq, Eq)]
pub struct Palette<T>(Vec<T>);

impl<T> Deref for Palette<T> {
    type Target = [T];

    fn deref(&self) -> &[T] {
        &self.0
    }
}

impl<T> Index<u8> for Palette<T> {
    type Output = T;

    fn index(&self, index: u8) -> &T {
        &self.0[usize::from(index)]
    }
}

/// A palette, owned.
#[derive(Clone, Debug, PartialEq, Eq)]
pub struct PaletteBuf<T>(Palette<T>);

impl<T> PaletteBuf<T> {
    pub fn new_unchecked(colors: Vec<T>) -> Self {
        debug_assert!(colors.len() <= 256);
        Self(Palette(colors))
    }
}

impl<T> Deref for PaletteBuf<T> {
    type Target = Palette<T>;

    fn deref(&self) -> &Palette<T> {
        &self.0
    }
}

/// Maps colours to places of a palette.
pub trait IndexedColorMap<Input> {
    type Output: Clone + Send + Sync;

    fn into_palette(self) -> PaletteBuf<Self::Output>;
    fn palette(&self) -> &Palette<Self::Output>;
    fn base_palette(&self) -> &Palette<Input>;
    fn palette_index(&self, color: &Input) -> u8;

    fn palette_color(&self, color: &Input) -> Self::Output {
        self.palette()[self.palette_index(color)].clone()
    }
}

/// An image: the oracle never makes one.
pub struct ImageRef<'a, Color>(&'a [Color]);

impl<'a, Color> ImageRef<'a, Color> {
    pub fn as_slice(&self) -> &'a [Color] {
        self.0
    }
}

/// A type of indices into the palette of an image.
pub trait BoundedIndex {}

/// An image of indices: the oracle never makes one.
pub struct IndexedImageCounts<Color, Index> {
    palette: Vec<Color>,
    counts: Vec<u32>,
    total_count: u32,
    index: PhantomData<Index>,
}

impl<Color, Index> IndexedImageCounts<Color, Index> {
    pub fn palette(&self) -> &[Color] {
        &self.palette
    }

    pub fn counts(&self) -> &[u32] {
        &self.counts
    }

    pub fn total_count(&self) -> u32 {
        self.total_count
    }
}
