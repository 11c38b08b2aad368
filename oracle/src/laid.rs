//! A table to lend, in either layout: the same calls on it, held to the same five numbers of each bin.
use crate::{
    answer::Answer,
    buffer::{Buffer, Buffers, Differs, Place, fitting, same},
    calls::resize,
    case::Case,
    numbers::{self, LARGEST_TOTAL, bins},
    port::{Grid, Port},
    random::Random,
};

/// A table in either layout, as loads and merges make it.
pub trait Laid: Sized {
    /// The call that merges two.
    const MERGE: &'static str;

    /// The largest total, and what a load or a merge answers past it.
    const LARGEST: u128;
    const PAST: u8;

    /// An empty one.
    fn empty(grid: Grid, r: &mut Random) -> Self;

    /// One with these numbers, five a bin, or what its lists can hold of them. The lengths of its lists are off by so
    /// much; where it has one list alone, that is off by both.
    fn of_five(five: &[u64], off_by: [i64; 2], r: &mut Random) -> Self;

    /// The five numbers of each bin.
    fn five_each(&self) -> Vec<u64>;

    /// Its total by the rules; none where it is not sound, or its lists do not fit the grid.
    fn total(&self, grid: Grid) -> Option<u128>;

    /// What the rules say that a merge of a second one answers.
    fn said_of_merge(&self, grid: Grid, second: &Self) -> u8;

    /// Whether it has these numbers, five a bin, and nothing else has changed; without any, whether nothing has.
    fn holds(&mut self, name: &str, five: &[u64]) -> Result<(), Differs>;

    /// Loads colours; the number of that.
    fn load(
        &mut self,
        port: &dyn Port,
        grid: Grid,
        colours: &[u8],
        weighted: bool,
        weights: &[u32],
    ) -> u8;

    /// Merges a second one, which stays as it is; the number of that.
    fn merge(&mut self, port: &dyn Port, grid: Grid, second: &mut Self) -> Result<u8, Differs>;

    /// Cuts it as a case says, with a work table or slowly, and holds what comes of it to an answer. What was lent for
    /// that, all but the work table.
    fn cut(
        &mut self,
        port: &dyn Port,
        case: &Case,
        slow: bool,
        answer: &Answer,
        r: &mut Random,
    ) -> Result<Buffers, Differs>;
}

impl Laid for Buffer<u64> {
    const MERGE: &'static str = "merge";
    const LARGEST: u128 = LARGEST_TOTAL;
    const PAST: u8 = 7;

    fn empty(grid: Grid, r: &mut Random) -> Self {
        Buffer::zeros(5 * bins(grid), r)
    }

    fn of_five(five: &[u64], off_by: [i64; 2], r: &mut Random) -> Self {
        Buffer::of(&resized(five, off_by.iter().sum(), r), r)
    }

    fn five_each(&self) -> Vec<u64> {
        self.see().to_vec()
    }

    fn total(&self, grid: Grid) -> Option<u128> {
        let fits = self.see().len() == 5 * bins(grid);
        fits.then(|| numbers::sound(grid, self.see()))?
    }

    fn said_of_merge(&self, grid: Grid, second: &Self) -> u8 {
        numbers::merge(grid, self.see(), second.see())
    }

    fn holds(&mut self, name: &str, five: &[u64]) -> Result<(), Differs> {
        self.expect(name, 0, five)
    }

    fn load(
        &mut self,
        port: &dyn Port,
        grid: Grid,
        colours: &[u8],
        weighted: bool,
        weights: &[u32],
    ) -> u8 {
        port.load(grid, self.lend(), colours, weighted, weights)
    }

    fn merge(&mut self, port: &dyn Port, grid: Grid, second: &mut Self) -> Result<u8, Differs> {
        second.settle();
        let number = port.merge(grid, self.lend(), second.see());
        second.unchanged("the second table of a merge")?;
        Ok(number)
    }

    fn cut(
        &mut self,
        port: &dyn Port,
        case: &Case,
        slow: bool,
        answer: &Answer,
        r: &mut Random,
    ) -> Result<Buffers, Differs> {
        let lengths = fitting(case);
        let lengths = if slow { lengths.slowly() } else { lengths };
        let mut lent = Buffers::random(lengths, r);
        let answered = lent.cut(port, case.grid, case.k, self.see());
        self.unchanged("the table after a cut")?;
        same("what a cut answers", answer.of_call(), answered)?;
        lent.expect(answer)?;
        Ok(lent)
    }
}

/// A list, shorter or longer by so much.
pub fn resized<T: Place>(list: &[T], by: i64, r: &mut Random) -> Vec<T> {
    let mut list = list.to_vec();
    resize(&mut list, by, r);
    list
}
