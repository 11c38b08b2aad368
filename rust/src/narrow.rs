use crate::{Cut, Grid, Lent, Refused, Table, WorkTable, sys};
use std::fmt;

/// The colours that were counted, as in a [`Table`], in three fifths of its room.
///
/// Weight and sums of a bin are 32-bit numbers here, and its squares stand apart: 24 bytes a bin in place of 40, and as
/// much for the work table of a cut. In return a narrow table takes totals up to 16,843,008 alone. Up to there loading,
/// merging and cutting give exactly what a [`Table`] gives.
///
/// Take it for what is known to stay at or below that, as single screens do: two 4K frames fit, pixel by pixel, or
/// eight of 1920 by 1080. Where a load or a merge would pass the limit it is refused with [`Refused::NarrowTotal`] and
/// nothing changed, and [`widen`](NarrowTable::widen) makes a [`Table`] to go on with. Files, recorders, comparisons
/// and rescues are for a [`Table`] alone.
///
/// ```
/// use seluvava::{Grid, NarrowTable, Refused};
///
/// let mut table = NarrowTable::new(Grid::rgb());
/// table.load(&[[0, 0, 0], [255, 255, 255], [255, 255, 255]])?;
/// let cut = table.cut(16)?;
/// assert_eq!(cut.palette(), [[255, 255, 255], [0, 0, 0]]);
/// assert_eq!(cut, table.widen()?.cut(16)?);
///
/// // White too often for it: a table takes that.
/// let (white, often) = ([[255, 255, 255]], [16_843_008]);
/// assert_eq!(table.load_weighted(&white, &often), Err(Refused::NarrowTotal));
/// let mut table = table.widen()?;
/// table.load_weighted(&white, &often)?;
/// assert_eq!(table.total(), 16_843_011);
/// # Ok::<(), Refused>(())
/// ```
#[derive(Clone, PartialEq, Eq)]
pub struct NarrowTable {
    grid: Grid,
    sums: Vec<u32>,
    squares: Vec<u64>,
}

/// The numbers may be ten million: grid and total are printed in their place.
impl fmt::Debug for NarrowTable {
    fn fmt(&self, f: &mut fmt::Formatter<'_>) -> fmt::Result {
        f.debug_struct("NarrowTable")
            .field("grid", &self.grid.sizes())
            .field("total", &self.total())
            .finish_non_exhaustive()
    }
}

impl NarrowTable {
    /// The largest total. No sum of components reaches 2^32 up to there.
    pub const LARGEST_TOTAL: u64 = 16_843_008;

    /// A table with no colour in it.
    #[must_use]
    pub fn new(grid: Grid) -> NarrowTable {
        NarrowTable {
            grid,
            sums: vec![0; 4 * grid.bins()],
            squares: vec![0; grid.bins()],
        }
    }

    /// A table of numbers that come from elsewhere, as from another machine: four sums per bin, which are its weight
    /// and its sums of red, green and blue, and the squares of each bin.
    ///
    /// Only how many there are is looked at. Every call looks at the numbers themselves and refuses an unsound table
    /// with [`Refused::Unsound`]. A narrow table is *sound* if the sums and squares of each bin are within the bounds
    /// that its weight sets, and all weights add up to at most [`LARGEST_TOTAL`](NarrowTable::LARGEST_TOTAL). Loads and
    /// merges keep a table sound.
    ///
    /// # Errors
    ///
    /// [`Refused::Length`] of [`Lent::Sums`] where there are not exactly 4 · [`Grid::bins`] sums, and of
    /// [`Lent::Squares`] where there are not [`Grid::bins`] squares.
    ///
    /// ```
    /// use seluvava::{Grid, NarrowTable, Refused};
    ///
    /// let grid = Grid::new(2, 2, 2)?;
    /// let squares = vec![1, 0, 0, 0, 0, 0, 0, 0]; // the first bin has no colour
    /// let table = NarrowTable::from_parts(grid, vec![0; 32], squares)?;
    /// assert_eq!(table.check(), Err(Refused::Unsound));
    /// # Ok::<(), Refused>(())
    /// ```
    pub fn from_parts(
        grid: Grid,
        sums: Vec<u32>,
        squares: Vec<u64>,
    ) -> Result<NarrowTable, Refused> {
        if sums.len() != 4 * grid.bins() {
            return Err(Refused::Length(Lent::Sums));
        }
        if squares.len() != grid.bins() {
            return Err(Refused::Length(Lent::Squares));
        }
        Ok(NarrowTable {
            grid,
            sums,
            squares,
        })
    }

    /// The grid of the table.
    #[must_use]
    pub fn grid(&self) -> Grid {
        self.grid
    }

    /// The weight and the sums of red, green and blue, four numbers per bin.
    #[must_use]
    pub fn sums(&self) -> &[u32] {
        &self.sums
    }

    /// The squares, one number per bin.
    #[must_use]
    pub fn squares(&self) -> &[u64] {
        &self.squares
    }

    /// The sums and the squares, without a copy.
    #[must_use]
    pub fn into_parts(self) -> (Vec<u32>, Vec<u64>) {
        (self.sums, self.squares)
    }

    /// Both lists, as a call reads them.
    fn lists(&self) -> sys::Narrow<'_> {
        sys::Narrow {
            sums: &self.sums,
            squares: &self.squares,
        }
    }

    /// And as a call changes them.
    fn lists_mut(&mut self) -> sys::NarrowMut<'_> {
        sys::NarrowMut {
            sums: &mut self.sums,
            squares: &mut self.squares,
        }
    }

    /// The weights of all bins together: how many pixels were loaded, each as often as its weight.
    ///
    /// For an unsound table it can be more than [`LARGEST_TOTAL`](NarrowTable::LARGEST_TOTAL).
    #[must_use]
    pub fn total(&self) -> u64 {
        self.sums.iter().step_by(4).map(|&n| u64::from(n)).sum()
    }

    /// Whether the table is sound, as [`Table::check`] asks of a table.
    ///
    /// # Errors
    ///
    /// [`Refused::Unsound`].
    pub fn check(&self) -> Result<(), Refused> {
        match self.cut_slowly(1) {
            Ok(_) | Err(Refused::Empty) => Ok(()),
            Err(refused) => Err(refused),
        }
    }

    /// Takes every colour out, so that the table can be filled anew.
    pub fn clear(&mut self) {
        self.sums.fill(0);
        self.squares.fill(0);
    }

    /// Adds colours, each once. No colours change nothing.
    ///
    /// # Errors
    ///
    /// [`Refused::Unsound`], [`Refused::NarrowTotal`].
    pub fn load(&mut self, colours: &[[u8; 3]]) -> Result<(), Refused> {
        self.load_bytes(colours.as_flattened())
    }

    /// Adds colours, each as often as its weight. A weight of 0 adds nothing.
    ///
    /// # Errors
    ///
    /// [`Refused::Weights`] where there is not one weight per colour, [`Refused::Unsound`], [`Refused::NarrowTotal`].
    ///
    /// ```
    /// use seluvava::{Grid, NarrowTable, Refused};
    ///
    /// let mut table = NarrowTable::new(Grid::rgb());
    /// table.load_weighted(&[[9, 9, 9]], &[16_843_008])?;
    /// assert_eq!(table.load_weighted(&[[9, 9, 9]], &[1]), Err(Refused::NarrowTotal));
    /// assert_eq!(table.total(), NarrowTable::LARGEST_TOTAL);
    /// # Ok::<(), Refused>(())
    /// ```
    pub fn load_weighted(&mut self, colours: &[[u8; 3]], weights: &[u32]) -> Result<(), Refused> {
        self.load_bytes_weighted(colours.as_flattened(), weights)
    }

    /// Adds the colours that bytes make, three to a colour, each once.
    ///
    /// # Errors
    ///
    /// [`Refused::StrayBytes`] where the last colour is not whole, and those of [`load`](NarrowTable::load).
    pub fn load_bytes(&mut self, colours: &[u8]) -> Result<(), Refused> {
        sys::narrow_load(self.grid, self.lists_mut(), colours, None)
    }

    /// Adds the colours that bytes make, three to a colour, each as often as its weight.
    ///
    /// # Errors
    ///
    /// [`Refused::StrayBytes`] where the last colour is not whole, and those of
    /// [`load_weighted`](NarrowTable::load_weighted).
    pub fn load_bytes_weighted(&mut self, colours: &[u8], weights: &[u32]) -> Result<(), Refused> {
        sys::narrow_load(self.grid, self.lists_mut(), colours, Some(weights))
    }

    /// Adds a second narrow table of the same grid, in any order and any tree as [`Table::merge`] does.
    ///
    /// # Errors
    ///
    /// [`Refused::OtherGrid`] where the grids differ, in any size; [`Refused::Unsound`] where either table is;
    /// [`Refused::NarrowTotal`].
    pub fn merge(&mut self, second: &NarrowTable) -> Result<(), Refused> {
        if second.grid != self.grid {
            return Err(Refused::OtherGrid);
        }
        sys::narrow_merge(self.grid, self.lists_mut(), second.lists())
    }

    /// Cuts the table down to at most k colours, as [`Table::cut`] does. The table stays as it is, and can be loaded
    /// further.
    ///
    /// # Errors
    ///
    /// Those of [`Table::cut`].
    pub fn cut(&self, k: usize) -> Result<Cut, Refused> {
        self.cut_with(&mut WorkTable::new(), k)
    }

    /// Cuts as [`cut`](NarrowTable::cut) does, in a work table that is kept. It takes 24 bytes a bin of it.
    ///
    /// # Errors
    ///
    /// Those of [`Table::cut`].
    pub fn cut_with(&self, work: &mut WorkTable, k: usize) -> Result<Cut, Refused> {
        let (grid, work) = (self.grid, work.for_narrow(self.grid));
        Cut::by(grid, |lent| {
            sys::narrow_cut(grid, k, self.lists(), work, lent)
        })
    }

    /// Cuts as [`cut`](NarrowTable::cut) does, without a work table, as [`Table::cut_slowly`]. The cut is the same, and
    /// so are the refusals.
    ///
    /// # Errors
    ///
    /// Those of [`Table::cut`].
    ///
    /// ```
    /// use seluvava::{Grid, NarrowTable};
    ///
    /// let mut table = NarrowTable::new(Grid::rgb());
    /// table.load(&[[0, 0, 0], [255, 255, 255], [255, 255, 255]])?;
    /// assert_eq!(table.cut_slowly(16)?, table.cut(16)?);
    /// # Ok::<(), seluvava::Refused>(())
    /// ```
    pub fn cut_slowly(&self, k: usize) -> Result<Cut, Refused> {
        let grid = self.grid;
        Cut::by(grid, |lent| {
            sys::narrow_cut_slowly(grid, k, self.lists(), lent)
        })
    }

    /// The [`Table`] of the same numbers, which takes totals up to 4,294,967,295.
    ///
    /// # Errors
    ///
    /// [`Refused::Unsound`], which no table gives that was made by loads and merges.
    pub fn widen(&self) -> Result<Table, Refused> {
        let mut table = Table::new(self.grid);
        sys::widen(self.grid, self.lists(), table.numbers_mut())?;
        Ok(table)
    }
}

/// The narrow table of the same numbers.
///
/// There is no call of the archive for it: the table is [checked](Table::check), and its numbers are copied.
///
/// ```
/// use seluvava::{Grid, NarrowTable, Refused, Table};
///
/// let mut table = Table::new(Grid::rgb());
/// table.load_weighted(&[[9, 9, 9]], &[16_843_008])?;
/// let narrow = NarrowTable::try_from(&table)?;
/// assert_eq!(narrow.widen()?, table);
///
/// table.load(&[[9, 9, 9]])?;
/// assert_eq!(NarrowTable::try_from(&table), Err(Refused::NarrowTotal));
/// # Ok::<(), Refused>(())
/// ```
impl TryFrom<&Table> for NarrowTable {
    type Error = Refused;

    /// # Errors
    ///
    /// [`Refused::Unsound`] where the table is; [`Refused::NarrowTotal`] where its total is above
    /// [`LARGEST_TOTAL`](NarrowTable::LARGEST_TOTAL).
    fn try_from(table: &Table) -> Result<NarrowTable, Refused> {
        table.check()?;
        if table.total() > NarrowTable::LARGEST_TOTAL {
            return Err(Refused::NarrowTotal);
        }
        let mut narrow = NarrowTable::new(table.grid());
        let bins = table.numbers().chunks_exact(5);
        let places = narrow.sums.chunks_exact_mut(4).zip(&mut narrow.squares);
        for (five, (sums, squares)) in bins.zip(places) {
            for (sum, &number) in sums.iter_mut().zip(five) {
                // No sum reaches 2^32 up to that total, so this refuses nothing.
                *sum = u32::try_from(number).map_err(|_| Refused::NarrowTotal)?;
            }
            *squares = five[4];
        }
        Ok(narrow)
    }
}
