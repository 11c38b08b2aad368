use crate::{Grid, Refused, Table, sys};
use std::fmt;

/// What a second table has that a first has not, bin by bin.
///
/// The differences are the second table's numbers less the first's: in the other order each has the other sign, and
/// added to the first table's numbers they give the second's. None is 2^50 or more in size.
#[derive(Clone, PartialEq, Eq)]
pub struct Comparison {
    grid: Grid,
    differences: Vec<i64>,
    differing: usize,
    first: usize,
}

/// The differences may be ten million: grid and number of bins that differ are printed in their place.
impl fmt::Debug for Comparison {
    fn fmt(&self, f: &mut fmt::Formatter<'_>) -> fmt::Result {
        f.debug_struct("Comparison")
            .field("grid", &self.grid.sizes())
            .field("differing", &self.differing)
            .finish_non_exhaustive()
    }
}

/// A bin that differs, and by how much.
#[derive(Debug, Clone, Copy, PartialEq, Eq)]
pub struct BinDifference {
    /// The place of the bin.
    pub place: usize,
    /// The smallest red, green and blue of the colours that fall in the bin.
    pub low: [u8; 3],
    /// The largest of them.
    pub high: [u8; 3],
    /// How much more weight the second table has there.
    pub weight: i64,
    /// And how much larger its sums of red, green and blue are.
    pub sums: [i64; 3],
    /// And its sum of squares.
    pub squares: i64,
}

impl BinDifference {
    /// The bin at a place of a grid, with its five differences.
    fn at(grid: Grid, place: usize, differences: &[i64]) -> BinDifference {
        let &[weight, red, green, blue, squares] = differences else {
            unreachable!("a bin has five numbers");
        };
        let (low, high) = grid.colours_at(place);
        BinDifference {
            place,
            low,
            high,
            weight,
            sums: [red, green, blue],
            squares,
        }
    }
}

impl Comparison {
    /// The grid of both tables.
    #[must_use]
    pub fn grid(&self) -> Grid {
        self.grid
    }

    /// The differences, five per bin, in the order of a table's numbers.
    #[must_use]
    pub fn differences(&self) -> &[i64] {
        &self.differences
    }

    /// The differences, five per bin, without a copy.
    #[must_use]
    pub fn into_differences(self) -> Vec<i64> {
        self.differences
    }

    /// How many bins differ. A bin differs where one of its five numbers does.
    #[must_use]
    pub fn differing(&self) -> usize {
        self.differing
    }

    /// The place of the first bin that differs, if there is one.
    #[must_use]
    pub fn first(&self) -> Option<usize> {
        (self.differing > 0).then_some(self.first)
    }

    /// The bins that differ, in the order of their places, each with the range of its colours and its differences.
    ///
    /// ```
    /// use seluvava::{Grid, Table};
    ///
    /// let grid = Grid::new(4, 2, 8)?;
    /// let mut first = Table::new(grid);
    /// first.load(&[[100, 5, 9], [255, 255, 255]])?;
    /// let mut second = Table::new(grid);
    /// second.load(&[[255, 255, 255], [101, 6, 10], [100, 5, 9]])?;
    ///
    /// let compared = first.compare(&second)?;
    /// let bins: Vec<_> = compared.bins().collect();
    /// assert_eq!(bins.len(), 1);
    /// assert_eq!((bins[0].low, bins[0].high), ([64, 0, 0], [127, 127, 31]));
    /// assert_eq!((bins[0].weight, bins[0].sums), (1, [101, 6, 10]));
    /// # Ok::<(), seluvava::Refused>(())
    /// ```
    pub fn bins(&self) -> impl Iterator<Item = BinDifference> + '_ {
        self.differences
            .chunks_exact(5)
            .enumerate()
            .skip(self.first)
            .filter(|(_, differences)| differences.iter().any(|&difference| difference != 0))
            .take(self.differing)
            .map(|(place, differences)| BinDifference::at(self.grid, place, differences))
    }
}

impl Table {
    /// Compares a second table of the same grid with this one, bin by bin. Both stay as they are.
    ///
    /// # Errors
    ///
    /// [`Refused::OtherGrid`] where the grids differ, in any size; [`Refused::Unsound`] where either table is.
    ///
    /// ```
    /// use seluvava::{Grid, Table};
    ///
    /// let mut first = Table::new(Grid::rgb());
    /// first.load(&[[0, 0, 0], [255, 255, 255]])?;
    /// let mut second = first.clone();
    /// assert_eq!(first.compare(&second)?.first(), None);
    ///
    /// second.load(&[[255, 255, 255]])?;
    /// let compared = first.compare(&second)?;
    /// assert_eq!((compared.differing(), compared.first()), (1, Some(8_191)));
    /// assert_eq!(compared.differences()[5 * 8_191..], [1, 255, 255, 255, 195_075]);
    /// # Ok::<(), seluvava::Refused>(())
    /// ```
    pub fn compare(&self, second: &Table) -> Result<Comparison, Refused> {
        let grid = self.grid();
        if second.grid() != grid {
            return Err(Refused::OtherGrid);
        }
        let mut differences = vec![0; grid.numbers()];
        let (differing, first) =
            sys::compare(grid, self.numbers(), second.numbers(), &mut differences)?;
        Ok(Comparison {
            grid,
            differences,
            differing,
            first,
        })
    }
}
