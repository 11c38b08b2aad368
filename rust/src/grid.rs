use crate::{Refused, sys};

/// How finely colours are told apart: the number of bins for red, green and blue.
///
/// Each size is one of 2, 4, 8, 16, 32, 64, 128. It is quantette's `BinnerU8x3`, with the sizes as numbers.
#[derive(Debug, Clone, Copy, PartialEq, Eq, Hash)]
pub struct Grid {
    sizes: [usize; 3],
}

impl Grid {
    /// The grid of three sizes.
    ///
    /// # Errors
    ///
    /// [`Refused::GridSize`] where a size is none of the seven.
    ///
    /// ```
    /// use seluvava::{Grid, Refused};
    ///
    /// assert_eq!(Grid::new(32, 32, 32)?.bins(), 32_768);
    /// assert_eq!(Grid::new(1, 2, 2), Err(Refused::GridSize));
    /// # Ok::<(), Refused>(())
    /// ```
    pub fn new(b1: usize, b2: usize, b3: usize) -> Result<Grid, Refused> {
        let sizes = [b1, b2, b3];
        if sys::bins(sizes) == 0 {
            return Err(Refused::GridSize);
        }
        Ok(Grid { sizes })
    }

    /// The grid 16, 32, 16, quantette's for sRGB colours.
    #[must_use]
    pub const fn rgb() -> Grid {
        Grid {
            sizes: [16, 32, 16],
        }
    }

    /// The three sizes.
    #[must_use]
    pub const fn sizes(self) -> [usize; 3] {
        self.sizes
    }

    /// How many bins there are: the length of a [`ColourMap`](crate::ColourMap)'s entries, and of a
    /// [`NarrowTable`](crate::NarrowTable)'s squares.
    #[must_use]
    pub fn bins(self) -> usize {
        sys::bins(self.sizes)
    }

    /// How many numbers a [`Table`](crate::Table) has: five per bin.
    #[must_use]
    pub fn numbers(self) -> usize {
        sys::numbers(self.sizes)
    }

    /// The smallest and the largest red, green and blue of the colours that fall in the bin at a place.
    pub(crate) fn colours_at(self, place: usize) -> ([u8; 3], [u8; 3]) {
        let [b1, b2, b3] = self.sizes;
        let bin = [place / (b2 * b3), place / b3 % b2, place % b3];
        let values = [256 / b1, 256 / b2, 256 / b3];
        let low = [0, 1, 2].map(|d| (bin[d] * values[d]) as u8);
        (low, [0, 1, 2].map(|d| low[d] + (values[d] - 1) as u8))
    }
}
