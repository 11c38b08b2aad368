use crate::{Grid, Table, sys};
use std::fmt;

/// What a rescue kept of a table, and what it cleared and why.
#[derive(Clone, PartialEq, Eq)]
#[must_use = "it says how much of the table is lost"]
pub struct Rescue {
    grid: Grid,
    reasons: Vec<u8>,
}

/// The reasons may be two million: grid and numbers of bins are printed in their place.
impl fmt::Debug for Rescue {
    fn fmt(&self, f: &mut fmt::Formatter<'_>) -> fmt::Result {
        f.debug_struct("Rescue")
            .field("grid", &self.grid.sizes())
            .field("out_of_bounds", &self.out_of_bounds())
            .field("past_total", &self.past_total())
            .finish_non_exhaustive()
    }
}

/// Why a bin was cleared.
#[derive(Debug, Clone, Copy, PartialEq, Eq, Hash)]
pub enum Reason {
    /// Its sums or squares were not within the bounds that its weight sets, or its weight alone was above
    /// 4,294,967,295.
    OutOfBounds,
    /// It would have carried the total of the bins kept before it past 4,294,967,295.
    PastTotal,
}

impl Reason {
    /// The reason that a byte stands for; none where the bin was kept.
    fn of(byte: u8) -> Option<Reason> {
        match byte {
            0 => None,
            1 => Some(Reason::OutOfBounds),
            _ => Some(Reason::PastTotal),
        }
    }
}

/// A bin that was cleared: which colours are lost, and why.
#[derive(Debug, Clone, Copy, PartialEq, Eq)]
pub struct ClearedBin {
    /// The place of the bin.
    pub place: usize,
    /// The smallest red, green and blue of the colours that fall in the bin.
    pub low: [u8; 3],
    /// The largest of them.
    pub high: [u8; 3],
    /// Why it was cleared.
    pub reason: Reason,
}

impl Rescue {
    /// The grid of the table.
    #[must_use]
    pub fn grid(&self) -> Grid {
        self.grid
    }

    /// For each bin, by its place, 0 where it was kept, 1 where it was out of bounds, 2 where it did not fit the total.
    #[must_use]
    pub fn reasons(&self) -> &[u8] {
        &self.reasons
    }

    /// How many bins were kept, empty ones too.
    #[must_use]
    pub fn kept(&self) -> usize {
        self.with(0)
    }

    /// How many bins were cleared: none where the table was sound.
    #[must_use]
    pub fn cleared(&self) -> usize {
        self.reasons.len() - self.kept()
    }

    /// How many of them were out of bounds.
    #[must_use]
    pub fn out_of_bounds(&self) -> usize {
        self.with(1)
    }

    /// How many of them did not fit the total.
    #[must_use]
    pub fn past_total(&self) -> usize {
        self.with(2)
    }

    /// How many bins have this byte.
    fn with(&self, reason: u8) -> usize {
        self.reasons.iter().filter(|&&byte| byte == reason).count()
    }

    /// The bins that were cleared, in the order of their places, each with the range of its colours and the reason.
    ///
    /// ```
    /// use seluvava::{Grid, Reason, Table};
    ///
    /// let grid = Grid::new(4, 2, 8)?;
    /// let mut numbers = vec![0; grid.numbers()];
    /// numbers[5 * 16 + 1] = 1; // a sum of red in a bin that has no colour
    /// let mut table = Table::from_numbers(grid, numbers)?;
    ///
    /// let rescue = table.rescue();
    /// let bins: Vec<_> = rescue.bins().collect();
    /// assert_eq!(bins.len(), 1);
    /// assert_eq!((bins[0].low, bins[0].high), ([64, 0, 0], [127, 127, 31]));
    /// assert_eq!(bins[0].reason, Reason::OutOfBounds);
    /// # Ok::<(), seluvava::Refused>(())
    /// ```
    pub fn bins(&self) -> impl Iterator<Item = ClearedBin> + '_ {
        let reasons = self.reasons.iter().enumerate();
        reasons.filter_map(|(place, &byte)| {
            let reason = Reason::of(byte)?;
            let (low, high) = self.grid.colours_at(place);
            Some(ClearedBin {
                place,
                low,
                high,
                reason,
            })
        })
    }
}

impl Table {
    /// Clears what keeps the table from being sound, and says how much was kept and cleared, and why.
    ///
    /// The bins are walked in the order of their places. One whose numbers are not within its bounds is cleared, and so
    /// is one that would carry the total of those kept so far past 4,294,967,295; a lighter one after it may be kept.
    /// The others stay as they are. So a sound table is not changed, and afterwards every table is sound. Damage that
    /// stays within the bounds is not seen.
    ///
    /// ```
    /// use seluvava::{Grid, Refused, Table};
    ///
    /// let mut table = Table::new(Grid::rgb());
    /// table.load(&[[0, 0, 0], [255, 255, 255], [255, 255, 255]])?;
    /// assert_eq!(table.rescue().cleared(), 0);
    ///
    /// let mut numbers = table.into_numbers();
    /// numbers[0] ^= 1 << 40; // a bit of the weight of black is flipped
    /// let mut table = Table::from_numbers(Grid::rgb(), numbers)?;
    /// assert_eq!(table.load(&[]), Err(Refused::Unsound));
    ///
    /// let rescue = table.rescue();
    /// assert_eq!((rescue.kept(), rescue.cleared()), (8_191, 1));
    /// assert_eq!((rescue.out_of_bounds(), rescue.past_total()), (1, 0));
    /// assert_eq!(table.total(), 2);
    /// assert_eq!(table.load(&[]), Ok(()));
    /// # Ok::<(), Refused>(())
    /// ```
    pub fn rescue(&mut self) -> Rescue {
        let grid = self.grid();
        let mut reasons = vec![0; grid.bins()];
        sys::rescue(grid, self.numbers_mut(), &mut reasons)
            .expect("a table is as long as its grid says");
        Rescue { grid, reasons }
    }
}
