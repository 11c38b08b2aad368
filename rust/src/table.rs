use crate::{Grid, Lent, Refused, sys};
use std::fmt;

/// The colours that were counted, by the bins of a grid.
///
/// Colours are loaded in as many batches as wanted, and tables of one grid can be merged, so that each worker has a
/// table of its own. As long as none is refused, the order of loads and merges makes no difference. [`cut`](Table::cut) then makes a palette.
///
/// A bin has five numbers, together: the weight of its colours, the sums of red, green and blue, and the sum of the
/// squares of all three. Bin (r, g, b) of a grid B1, B2, B3 is the one at place (r·B2 + g)·B3 + b. A
/// [`NarrowTable`](crate::NarrowTable) is smaller, and takes totals up to 16,843,008.
///
/// ```
/// use seluvava::{Grid, Table};
///
/// let mut table = Table::new(Grid::rgb());
/// table.load(&[[0, 0, 0], [255, 255, 255]])?;
/// table.load_weighted(&[[255, 255, 255]], &[2])?;
///
/// let mut other = Table::new(Grid::rgb());
/// other.load(&[[255, 0, 0]])?;
/// table.merge(&other)?;
/// assert_eq!(table.total(), 5);
/// # Ok::<(), seluvava::Refused>(())
/// ```
#[derive(Clone, PartialEq, Eq)]
pub struct Table {
    grid: Grid,
    numbers: Vec<u64>,
}

/// The numbers may be ten million: grid and total are printed in their place.
impl fmt::Debug for Table {
    fn fmt(&self, f: &mut fmt::Formatter<'_>) -> fmt::Result {
        f.debug_struct("Table")
            .field("grid", &self.grid.sizes())
            .field("total", &self.total())
            .finish_non_exhaustive()
    }
}

impl Table {
    /// A table with no colour in it.
    #[must_use]
    pub fn new(grid: Grid) -> Table {
        Table {
            grid,
            numbers: vec![0; grid.numbers()],
        }
    }

    /// A table of numbers that come from elsewhere, as from another machine.
    ///
    /// Only their length is looked at. Every call looks at the numbers themselves and refuses an unsound table with
    /// [`Refused::Unsound`]; [`check`](Table::check) does nothing else. A table is *sound* if the sums and squares of
    /// each bin are within the bounds that its weight sets, and all weights add up to at most 4,294,967,295. Loads and
    /// merges keep a table sound.
    ///
    /// # Errors
    ///
    /// [`Refused::Length`] of [`Lent::Numbers`] where there are not exactly [`Grid::numbers`] of them.
    ///
    /// ```
    /// use seluvava::{Grid, Refused, Table};
    ///
    /// let grid = Grid::new(2, 2, 2)?;
    /// let mut numbers = vec![0; grid.numbers()];
    /// numbers[4] = 1; // squares of the first bin, which has no colour
    /// let table = Table::from_numbers(grid, numbers)?;
    /// assert_eq!(table.check(), Err(Refused::Unsound));
    /// # Ok::<(), Refused>(())
    /// ```
    pub fn from_numbers(grid: Grid, numbers: Vec<u64>) -> Result<Table, Refused> {
        if numbers.len() != grid.numbers() {
            return Err(Refused::Length(Lent::Numbers));
        }
        Ok(Table { grid, numbers })
    }

    /// The grid of the table.
    #[must_use]
    pub fn grid(&self) -> Grid {
        self.grid
    }

    /// The numbers, five per bin.
    #[must_use]
    pub fn numbers(&self) -> &[u64] {
        &self.numbers
    }

    /// The numbers, for a call that changes them.
    pub(crate) fn numbers_mut(&mut self) -> &mut [u64] {
        &mut self.numbers
    }

    /// The numbers, five per bin, without a copy.
    #[must_use]
    pub fn into_numbers(self) -> Vec<u64> {
        self.numbers
    }

    /// The weights of all bins together: how many pixels were loaded, each as often as its weight.
    ///
    /// For an unsound table it can be more than 4,294,967,295; past [`u64::MAX`] it is that.
    #[must_use]
    pub fn total(&self) -> u64 {
        let weights = self.numbers.iter().step_by(5);
        weights.fold(0, |total, &weight| total.saturating_add(weight))
    }

    /// Whether the table is sound, as every call that is lent it asks before it does anything else.
    ///
    /// It is for a table that comes from elsewhere, before it is put beside others: a [merge](Table::merge) that is
    /// refused does not say which of the two tables is unsound. A table that was only loaded and merged is always
    /// sound. Soundness is no checksum: damage can pass.
    ///
    /// The archive has no call that does just this, so that it is asked of a slow cut into one colour, which reads the
    /// table twice. A byte a bin is allocated for that and dropped again.
    ///
    /// # Errors
    ///
    /// [`Refused::Unsound`].
    ///
    /// ```
    /// use seluvava::{Grid, Refused, Table};
    ///
    /// let mut table = Table::new(Grid::rgb());
    /// table.check()?;
    /// table.load(&[[255, 0, 0]])?;
    /// let mut numbers = table.into_numbers();
    /// numbers[0] = 1; // a pixel more in the first bin, and no sums of it
    /// numbers[1] = 99;
    /// assert_eq!(Table::from_numbers(Grid::rgb(), numbers)?.check(), Err(Refused::Unsound));
    /// # Ok::<(), Refused>(())
    /// ```
    pub fn check(&self) -> Result<(), Refused> {
        match self.cut_slowly(1) {
            Ok(_) | Err(Refused::Empty) => Ok(()),
            Err(refused) => Err(refused),
        }
    }

    /// Takes every colour out, so that the table can be filled anew.
    pub fn clear(&mut self) {
        self.numbers.fill(0);
    }

    /// Adds colours, each once. No colours change nothing.
    ///
    /// # Errors
    ///
    /// [`Refused::Unsound`], [`Refused::Total`].
    pub fn load(&mut self, colours: &[[u8; 3]]) -> Result<(), Refused> {
        self.load_bytes(colours.as_flattened())
    }

    /// Adds colours, each as often as its weight. A weight of 0 adds nothing.
    ///
    /// # Errors
    ///
    /// [`Refused::Weights`] where there is not one weight per colour, [`Refused::Unsound`], [`Refused::Total`].
    ///
    /// ```
    /// use seluvava::{Grid, Refused, Table};
    ///
    /// let mut table = Table::new(Grid::rgb());
    /// table.load_weighted(&[[9, 9, 9]], &[u32::MAX])?;
    /// assert_eq!(table.load_weighted(&[[9, 9, 9]], &[1]), Err(Refused::Total));
    /// assert_eq!(table.load_weighted(&[[9, 9, 9]], &[]), Err(Refused::Weights));
    /// # Ok::<(), Refused>(())
    /// ```
    pub fn load_weighted(&mut self, colours: &[[u8; 3]], weights: &[u32]) -> Result<(), Refused> {
        self.load_bytes_weighted(colours.as_flattened(), weights)
    }

    /// Adds the colours that bytes make, three to a colour, each once.
    ///
    /// # Errors
    ///
    /// [`Refused::StrayBytes`] where the last colour is not whole, and those of [`load`](Table::load).
    pub fn load_bytes(&mut self, colours: &[u8]) -> Result<(), Refused> {
        sys::load(self.grid, &mut self.numbers, colours, None)
    }

    /// Adds the colours that bytes make, three to a colour, each as often as its weight.
    ///
    /// # Errors
    ///
    /// [`Refused::StrayBytes`] where the last colour is not whole, and those of
    /// [`load_weighted`](Table::load_weighted).
    pub fn load_bytes_weighted(&mut self, colours: &[u8], weights: &[u32]) -> Result<(), Refused> {
        sys::load(self.grid, &mut self.numbers, colours, Some(weights))
    }

    /// Adds a second table of the same grid, number by number. Tables may be merged in any order and any tree: where
    /// none is refused, the sum is the same. An empty table changes nothing.
    ///
    /// # Errors
    ///
    /// [`Refused::OtherGrid`] where the grids differ, in any size; [`Refused::Unsound`] where either table is;
    /// [`Refused::Total`].
    pub fn merge(&mut self, second: &Table) -> Result<(), Refused> {
        if second.grid != self.grid {
            return Err(Refused::OtherGrid);
        }
        sys::merge(self.grid, &mut self.numbers, &second.numbers)
    }
}
