use crate::{Grid, Lent, Refused, sys};
use std::{fmt, ops::Range};

/// The most colours that a palette has.
pub(crate) const MOST_COLOURS: usize = 256;

/// A palette, and for each bin of a grid the index of the bin's colour in it.
///
/// A cut makes one. It maps frames to indices and paints frames in the colours of the palette, whole or by bands: a
/// band is a range of pixels, and nothing outside it is written. It is quantette's `WuU8x3ColorMap`.
///
/// ```
/// use seluvava::{Grid, Table};
///
/// let mut frame = [[10, 0, 0], [12, 0, 0], [200, 255, 255]];
/// let mut table = Table::new(Grid::rgb());
/// table.load(&frame)?;
/// let map = table.cut(2)?.into_colour_map();
///
/// assert_eq!(map.map(&frame)?, [0, 0, 1]);
/// map.paint(&mut frame)?;
/// assert_eq!(frame, [[11, 0, 0], [11, 0, 0], [200, 255, 255]]);
/// # Ok::<(), seluvava::Refused>(())
/// ```
#[derive(Clone, PartialEq, Eq)]
pub struct ColourMap {
    grid: Grid,
    entries: Vec<u8>,
    palette: Vec<[u8; 3]>,
}

/// The entries may be two million: grid and number of colours are printed in their place.
impl fmt::Debug for ColourMap {
    fn fmt(&self, f: &mut fmt::Formatter<'_>) -> fmt::Result {
        f.debug_struct("ColourMap")
            .field("grid", &self.grid.sizes())
            .field("colours", &self.palette.len())
            .finish_non_exhaustive()
    }
}

impl ColourMap {
    pub(crate) fn of_cut(grid: Grid, entries: Vec<u8>, palette: Vec<[u8; 3]>) -> ColourMap {
        ColourMap {
            grid,
            entries,
            palette,
        }
    }

    /// A colour map of parts that come from elsewhere, as from another machine.
    ///
    /// Only their lengths are looked at. Mapping and painting look at the entries, and refuse with
    /// [`Refused::MapEntry`] where any of them has no colour in the palette; a frame of no pixels will do.
    ///
    /// # Errors
    ///
    /// [`Refused::Length`] of [`Lent::MapEntries`] where there is not one entry for each of [`Grid::bins`], and of
    /// [`Lent::Palette`] where the palette does not have 1 to 256 colours.
    ///
    /// ```
    /// use seluvava::{ColourMap, Grid, Refused};
    ///
    /// let map = ColourMap::from_parts(Grid::new(2, 2, 2)?, vec![0, 0, 0, 0, 0, 0, 0, 1], vec![[9, 9, 9]])?;
    /// assert_eq!(map.map(&[]), Err(Refused::MapEntry));
    /// # Ok::<(), Refused>(())
    /// ```
    pub fn from_parts(
        grid: Grid,
        entries: Vec<u8>,
        palette: Vec<[u8; 3]>,
    ) -> Result<ColourMap, Refused> {
        if entries.len() != grid.bins() {
            return Err(Refused::Length(Lent::MapEntries));
        }
        if !(1..=MOST_COLOURS).contains(&palette.len()) {
            return Err(Refused::Length(Lent::Palette));
        }
        Ok(ColourMap {
            grid,
            entries,
            palette,
        })
    }

    /// The grid whose bins have the entries.
    #[must_use]
    pub fn grid(&self) -> Grid {
        self.grid
    }

    /// The index of each bin, by its place.
    #[must_use]
    pub fn entries(&self) -> &[u8] {
        &self.entries
    }

    /// The palette.
    #[must_use]
    pub fn palette(&self) -> &[[u8; 3]] {
        &self.palette
    }

    /// The palette, without a copy.
    #[must_use]
    pub fn into_palette(self) -> Vec<[u8; 3]> {
        self.palette
    }

    /// The index of each pixel of a frame.
    ///
    /// # Errors
    ///
    /// [`Refused::MapEntry`], which is never so for the colour map of a cut.
    pub fn map(&self, frame: &[[u8; 3]]) -> Result<Vec<u8>, Refused> {
        let mut indices = vec![0; frame.len()];
        self.map_into(frame, &mut indices)?;
        Ok(indices)
    }

    /// Writes the index of each pixel of a frame into a list that is kept, and allocates nothing.
    ///
    /// # Errors
    ///
    /// [`Refused::Length`] of [`Lent::Indices`] where there is not one index per pixel, and [`Refused::MapEntry`],
    /// which is never so for the colour map of a cut.
    ///
    /// ```
    /// use seluvava::{Grid, Table};
    ///
    /// let frames = [[[0, 0, 0], [255, 0, 0]], [[255, 0, 0], [255, 0, 0]]];
    /// let mut table = Table::new(Grid::rgb());
    /// table.load(frames.as_flattened())?;
    /// let map = table.cut(2)?.into_colour_map();
    ///
    /// let mut indices = [0; 2];
    /// for frame in &frames {
    ///     map.map_into(frame, &mut indices)?;
    ///     assert_eq!(map.palette()[usize::from(indices[1])], [255, 0, 0]);
    /// }
    /// # Ok::<(), seluvava::Refused>(())
    /// ```
    pub fn map_into(&self, frame: &[[u8; 3]], indices: &mut [u8]) -> Result<(), Refused> {
        self.map_band(frame, indices, 0..frame.len())
    }

    /// Writes the index of each pixel of a band of a frame into the same band of the index buffer.
    ///
    /// # Errors
    ///
    /// [`Refused::Length`] of [`Lent::Indices`] where there is not one index per pixel of the frame; [`Refused::Band`]
    /// where the band reaches past the frame or ends before it starts; [`Refused::MapEntry`].
    ///
    /// ```
    /// # use seluvava::{ColourMap, Grid};
    /// # let entries = vec![0, 0, 0, 0, 1, 1, 1, 1];
    /// # let map = ColourMap::from_parts(Grid::new(2, 2, 2)?, entries, vec![[0, 0, 0], [255, 0, 0]])?;
    /// let (width, height) = (4, 3);
    /// let frame = vec![[255, 0, 0]; width * height];
    /// let mut indices = vec![7; width * height];
    /// map.map_band(&frame, &mut indices, width..2 * width)?; // the second row
    /// assert_eq!(indices, [7, 7, 7, 7, 1, 1, 1, 1, 7, 7, 7, 7]);
    /// # Ok::<(), seluvava::Refused>(())
    /// ```
    pub fn map_band(
        &self,
        frame: &[[u8; 3]],
        indices: &mut [u8],
        band: Range<usize>,
    ) -> Result<(), Refused> {
        self.map_bytes(frame.as_flattened(), indices, band)
    }

    /// Maps a band of a frame that is bytes, three to a pixel.
    ///
    /// # Errors
    ///
    /// [`Refused::StrayBytes`] where the frame's last pixel is not whole, and those of
    /// [`map_band`](ColourMap::map_band).
    pub fn map_bytes(
        &self,
        frame: &[u8],
        indices: &mut [u8],
        band: Range<usize>,
    ) -> Result<(), Refused> {
        let wrong = if indices.len() != frame.len() / 3 {
            Refused::Length(Lent::Indices)
        } else {
            Refused::Band
        };
        sys::map(
            self.grid,
            &self.entries,
            self.palette.len(),
            frame,
            indices,
            band_of(band),
        )
        .map_err(|refused| refused.or(|| wrong))
    }

    /// Gives each pixel of a frame its colour of the palette.
    ///
    /// # Errors
    ///
    /// [`Refused::MapEntry`], which is never so for the colour map of a cut.
    pub fn paint(&self, frame: &mut [[u8; 3]]) -> Result<(), Refused> {
        let whole = 0..frame.len();
        self.paint_band(frame, whole)
    }

    /// Gives each pixel of a band of a frame its colour of the palette.
    ///
    /// # Errors
    ///
    /// [`Refused::Band`] where the band reaches past the frame or ends before it starts; [`Refused::MapEntry`].
    pub fn paint_band(&self, frame: &mut [[u8; 3]], band: Range<usize>) -> Result<(), Refused> {
        self.paint_bytes(frame.as_flattened_mut(), band)
    }

    /// Paints a band, in pixels, of a frame that is bytes, three to a pixel.
    ///
    /// # Errors
    ///
    /// [`Refused::StrayBytes`] where the frame's last pixel is not whole, and those of
    /// [`paint_band`](ColourMap::paint_band).
    pub fn paint_bytes(&self, frame: &mut [u8], band: Range<usize>) -> Result<(), Refused> {
        sys::paint(
            self.grid,
            &self.entries,
            &self.palette,
            frame,
            band_of(band),
        )
        .map_err(|refused| refused.or(|| Refused::Band))
    }
}

/// The band that a range of pixels is. One that ends before it starts is past the end of every frame.
fn band_of(range: Range<usize>) -> sys::Band {
    sys::Band {
        first: range.start,
        pixels: range.end.checked_sub(range.start).unwrap_or(usize::MAX),
    }
}
