use crate::{ColourMap, Grid, Refused, Table, colour_map::MOST_COLOURS, sys};
use std::fmt;

/// Room for a cut to work in, kept from one cut to the next.
///
/// It serves tables of any grid and of either layout, and keeps the room of the largest.
#[derive(Default)]
pub struct WorkTable {
    /// The numbers of a table, or the squares of a narrow one.
    large: Vec<u64>,
    /// The sums of a narrow one.
    small: Vec<u32>,
}

/// The numbers may be ten million: only how many there are is printed.
impl fmt::Debug for WorkTable {
    fn fmt(&self, f: &mut fmt::Formatter<'_>) -> fmt::Result {
        f.debug_struct("WorkTable")
            .field("numbers", &(self.large.len() + self.small.len()))
            .finish()
    }
}

impl WorkTable {
    /// A work table with no room yet; a cut makes as much as it needs.
    #[must_use]
    pub const fn new() -> WorkTable {
        WorkTable {
            large: Vec::new(),
            small: Vec::new(),
        }
    }

    fn for_table(&mut self, grid: Grid) -> &mut [u64] {
        self.large.resize(grid.numbers(), 0);
        &mut self.large
    }

    /// The same for a narrow table.
    pub(crate) fn for_narrow(&mut self, grid: Grid) -> sys::NarrowMut<'_> {
        self.small.resize(4 * grid.bins(), 0);
        self.large.resize(grid.bins(), 0);
        sys::NarrowMut {
            sums: &mut self.small,
            squares: &mut self.large,
        }
    }
}

/// A box of bins that a cut gave one colour.
#[derive(Debug, Clone, Copy, PartialEq)]
pub struct ColourBox {
    /// The first bin of red, green and blue.
    pub min: [u8; 3],
    /// The first bin after the box, of red, green and blue.
    pub max: [u8; 3],
    /// The squared distances of the colours from their mean, added up, as computed in `f64`; the box with the largest
    /// is cut next. It is 0 for a box of one bin, or one that the cut tried to divide and could not; infinity at k = 1.
    /// Where the exact sum is 0 or nearly so, rounding can put it slightly below 0 or above.
    pub spread: f64,
}

impl ColourBox {
    fn of([r0, r1, g0, g1, b0, b1]: [u8; 6], spread: f64) -> ColourBox {
        ColourBox {
            min: [r0, g0, b0],
            max: [r1, g1, b1],
            spread,
        }
    }
}

/// What a cut makes of a table: boxes that cover the grid, with a colour and a count for each.
///
/// Palette, counts, remainders and boxes have the same order and the same length, which is at least 1 and at most k.
#[derive(Clone, PartialEq)]
pub struct Cut {
    rounds: usize,
    counts: Vec<u32>,
    remainders: Vec<[u32; 3]>,
    boxes: Vec<ColourBox>,
    colour_map: ColourMap,
}

/// The parts may be long: grid and the numbers of boxes and rounds are printed in their place.
impl fmt::Debug for Cut {
    fn fmt(&self, f: &mut fmt::Formatter<'_>) -> fmt::Result {
        f.debug_struct("Cut")
            .field("grid", &self.colour_map.grid().sizes())
            .field("boxes", &self.boxes.len())
            .field("rounds", &self.rounds)
            .finish_non_exhaustive()
    }
}

impl Cut {
    /// Lends a call what it writes, and makes a cut of that.
    pub(crate) fn by(
        grid: Grid,
        call: impl FnOnce(sys::Lent<'_>) -> Result<sys::Done, Refused>,
    ) -> Result<Cut, Refused> {
        let mut palette = vec![[0; 3]; MOST_COLOURS];
        let mut counts = vec![0; MOST_COLOURS];
        let mut remainders = vec![[0; 3]; MOST_COLOURS];
        let mut map = vec![0; grid.bins()];
        let mut bounds = vec![[0; 6]; MOST_COLOURS];
        let mut spreads = vec![0.0; MOST_COLOURS];
        let lent = sys::Lent {
            palette: &mut palette,
            counts: &mut counts,
            remainders: &mut remainders,
            map: &mut map,
            boxes: &mut bounds,
            spreads: &mut spreads,
        };
        let sys::Done { boxes, rounds } = call(lent)?;
        palette.truncate(boxes);
        counts.truncate(boxes);
        remainders.truncate(boxes);
        let boxes = bounds.into_iter().zip(spreads).take(boxes);
        Ok(Cut {
            rounds,
            counts,
            remainders,
            boxes: boxes
                .map(|(bounds, spread)| ColourBox::of(bounds, spread))
                .collect(),
            colour_map: ColourMap::of_cut(grid, map, palette),
        })
    }

    /// The colour of each box: the mean of its colours, rounded down.
    #[must_use]
    pub fn palette(&self) -> &[[u8; 3]] {
        self.colour_map.palette()
    }

    /// The total of the colours in each box.
    #[must_use]
    pub fn counts(&self) -> &[u32] {
        &self.counts
    }

    /// The colours of the boxes with their counts, in the order of the palette.
    ///
    /// ```
    /// use seluvava::{Grid, Table};
    ///
    /// let mut table = Table::new(Grid::rgb());
    /// table.load(&[[0, 0, 0], [255, 255, 255], [255, 255, 255]])?;
    /// let cut = table.cut(16)?;
    /// let (colour, count) = cut.colours().max_by_key(|&(_, count)| count).expect("a cut has a colour");
    /// assert_eq!((colour, count), ([255, 255, 255], 2));
    /// assert_eq!(cut.colours().len(), 2);
    /// # Ok::<(), seluvava::Refused>(())
    /// ```
    pub fn colours(
        &self,
    ) -> impl ExactSizeIterator<Item = ([u8; 3], u32)> + DoubleEndedIterator + '_ {
        let counts = self.counts.iter().copied();
        self.palette().iter().copied().zip(counts)
    }

    /// What rounding down leaves of each box: of each component, colour times count plus remainder is the sum over the
    /// colours in the box, and the remainder is below the count.
    ///
    /// ```
    /// use seluvava::{Grid, Table};
    ///
    /// let mut table = Table::new(Grid::rgb());
    /// table.load(&[[1, 0, 0], [2, 0, 0]])?;
    /// let cut = table.cut(16)?;
    /// assert_eq!((cut.palette(), cut.counts()), (&[[1, 0, 0]][..], &[2][..]));
    /// assert_eq!(cut.remainders(), [[1, 0, 0]]);
    /// # Ok::<(), seluvava::Refused>(())
    /// ```
    #[must_use]
    pub fn remainders(&self) -> &[[u32; 3]] {
        &self.remainders
    }

    /// The boxes with their spreads.
    #[must_use]
    pub fn boxes(&self) -> &[ColourBox] {
        &self.boxes
    }

    /// How often the box with the largest spread was taken up: to be divided, to be found impossible to divide, or, the
    /// last time, to end the cut, since no box was left to divide. The time of a cut goes by it.
    ///
    /// It is one less than the number of boxes or more, and at most 2·k − 2.
    ///
    /// ```
    /// use seluvava::{Grid, Table};
    ///
    /// let mut table = Table::new(Grid::rgb());
    /// table.load(&[[10, 20, 30]])?;
    /// assert_eq!(table.cut(4)?.rounds(), 2);
    /// # Ok::<(), seluvava::Refused>(())
    /// ```
    #[must_use]
    pub fn rounds(&self) -> usize {
        self.rounds
    }

    /// The index and the colour for each pixel of a frame.
    #[must_use]
    pub fn colour_map(&self) -> &ColourMap {
        &self.colour_map
    }

    /// The colour map, without a copy.
    #[must_use]
    pub fn into_colour_map(self) -> ColourMap {
        self.colour_map
    }

    /// The colour map, the counts and the boxes, without a copy.
    ///
    /// ```
    /// use seluvava::{Grid, Table};
    ///
    /// let mut table = Table::new(Grid::rgb());
    /// table.load(&[[0, 0, 0], [255, 255, 255], [255, 255, 255]])?;
    /// let (map, counts, boxes) = table.cut(16)?.into_parts();
    /// assert_eq!(map.into_palette(), [[255, 255, 255], [0, 0, 0]]);
    /// assert_eq!(counts, [2, 1]);
    /// assert_eq!(boxes[0].max, [16, 32, 16]);
    /// # Ok::<(), seluvava::Refused>(())
    /// ```
    #[must_use]
    pub fn into_parts(self) -> (ColourMap, Vec<u32>, Vec<ColourBox>) {
        (self.colour_map, self.counts, self.boxes)
    }
}

impl Table {
    /// Cuts the table down to at most k colours. The table stays as it is, and can be loaded further.
    ///
    /// What was loaded is cut into as many colours as the smaller of k and the number of bins that it fell in. With
    /// every weight multiplied by a power of two, where the total still fits, colours and map are the same, and counts,
    /// remainders and spreads are multiplied.
    ///
    /// # Errors
    ///
    /// [`Refused::PaletteSize`] where k is outside 1 to 256, [`Refused::Unsound`], [`Refused::Empty`] where nothing
    /// was loaded.
    ///
    /// ```
    /// use seluvava::{Grid, Table};
    ///
    /// let mut table = Table::new(Grid::new(8, 8, 8)?);
    /// table.load(&[[0, 0, 0], [255, 255, 255], [255, 255, 255], [255, 255, 255]])?;
    /// let cut = table.cut(16)?;
    /// assert_eq!(cut.palette(), [[255, 255, 255], [0, 0, 0]]);
    /// assert_eq!(cut.counts(), [3, 1]);
    /// # Ok::<(), seluvava::Refused>(())
    /// ```
    pub fn cut(&self, k: usize) -> Result<Cut, Refused> {
        self.cut_with(&mut WorkTable::new(), k)
    }

    /// Cuts as [`cut`](Table::cut) does, in a work table that is kept.
    ///
    /// # Errors
    ///
    /// Those of [`cut`](Table::cut).
    ///
    /// ```
    /// use seluvava::{Grid, Table, WorkTable};
    ///
    /// let mut work = WorkTable::new();
    /// let mut table = Table::new(Grid::rgb());
    /// for screen in [[[0, 0, 0]; 4], [[255, 255, 255]; 4]] {
    ///     table.load(&screen)?;
    ///     let cut = table.cut_with(&mut work, 16)?;
    ///     assert_eq!(cut.counts().iter().sum::<u32>() as u64, table.total());
    /// }
    /// # Ok::<(), seluvava::Refused>(())
    /// ```
    pub fn cut_with(&self, work: &mut WorkTable, k: usize) -> Result<Cut, Refused> {
        let (grid, work) = (self.grid(), work.for_table(self.grid()));
        Cut::by(grid, |lent| sys::cut(grid, k, self.numbers(), work, lent))
    }

    /// Cuts as [`cut`](Table::cut) does, without a work table: the bins of a box are added up each time that its sums
    /// are needed. The cut is the same, and so are the refusals.
    ///
    /// It is for where there is no room for a second table, and to hold the other cut to. Its time grows with the
    /// grid's bins times its three sizes together, so that twice each size takes about 16 times as long: ten
    /// milliseconds or more at 32,32,32, some seconds at 128,128,128.
    ///
    /// # Errors
    ///
    /// Those of [`cut`](Table::cut).
    ///
    /// ```
    /// use seluvava::{Grid, Table};
    ///
    /// let mut table = Table::new(Grid::rgb());
    /// table.load(&[[0, 0, 0], [255, 255, 255], [255, 255, 255]])?;
    /// let cut = table.cut_slowly(16)?;
    /// assert_eq!(cut.palette(), [[255, 255, 255], [0, 0, 0]]);
    /// assert_eq!(cut, table.cut(16)?);
    /// # Ok::<(), seluvava::Refused>(())
    /// ```
    pub fn cut_slowly(&self, k: usize) -> Result<Cut, Refused> {
        let grid = self.grid();
        Cut::by(grid, |lent| sys::cut_slowly(grid, k, self.numbers(), lent))
    }
}
