//! Two tables compared, good or damaged, against the rules (Rules, Compare; Rules, Answers). The original has no such
//! call, so that every grid is one of the judge's here.
use crate::{
    buffer::{Buffer, Differs, same},
    calls::{off, resize, table_of},
    case::Case,
    damage::Damage,
    numbers,
    port::{Grid, Port},
    random::Random,
    tally::Tally,
};

/// Two tables, and how long a list is lent for their differences.
struct Nights {
    grid: Grid,
    first: Vec<u64>,
    second: Vec<u64>,
    list: usize,
}

/// What is to be told: "the five differences, second minus first" of each bin, "how many bins differ, and the place of
/// the first that does. If none differs, the place is the number of bins."
fn told(first: &[u64], second: &[u64]) -> (Vec<i64>, usize, usize) {
    let differences = first.iter().zip(second).map(|(&x, &y)| {
        let difference = i128::from(y) - i128::from(x);
        i64::try_from(difference).expect("numbers of sound tables")
    });
    let differ: Vec<usize> = (0..first.len() / 5)
        .filter(|p| first[5 * p..][..5] != second[5 * p..][..5])
        .collect();
    let place = differ.first().copied().unwrap_or(first.len() / 5);
    (differences.collect(), differ.len(), place)
}

impl Nights {
    fn damage(&mut self, d: &Damage, r: &mut Random) {
        let number = |list: &mut [u64]| {
            if let Some(n) = list.get_mut(d.place) {
                *n = n.wrapping_add_signed(d.value);
            }
        };
        match d.what {
            "number" => number(&mut self.first),
            "second-number" => number(&mut self.second),
            "size" => self.grid[d.place % 3] = d.value as usize,
            "table" => resize(&mut self.first, d.value, r),
            "second" => resize(&mut self.second, d.value, r),
            "differences" => self.list = off(self.list, d.value),
            other => unreachable!("{other}"),
        }
    }

    /// Compares the two, and then the first with the second.
    fn compare(&self, port: &dyn Port, r: &mut Random) -> Result<u8, Differs> {
        let number = self.one_way(port, &self.first, &self.second, r)?;
        let turned = self.one_way(port, &self.second, &self.first, r)?;
        same("the number of a comparison turned round", number, turned)?;
        Ok(number)
    }

    fn one_way(
        &self,
        port: &dyn Port,
        first: &[u64],
        second: &[u64],
        r: &mut Random,
    ) -> Result<u8, Differs> {
        let said = numbers::compare(self.grid, first, second, self.list);
        let mut one = Buffer::of(first, r);
        let mut two = Buffer::of(second, r);
        let mut list: Buffer<i64> = Buffer::random(self.list, r);
        let (number, differ, place) = port.compare(self.grid, one.see(), two.see(), list.lend());
        same("the number of a comparison", said, number)?;
        one.unchanged("the first table of a comparison")?;
        two.unchanged("the second table of a comparison")?;
        if number != 0 {
            list.unchanged("the list of a refused comparison")?;
            same("what a refused comparison tells", (0, 0), (differ, place))?;
            return Ok(number);
        }
        let (differences, differing, at) = told(first, second);
        list.expect("differences", 0, &differences)?;
        same("how many bins differ", differing, differ)?;
        same("the place of the first that differs", at, place)?;
        Ok(number)
    }
}

/// Compares the table of the first `split` colours with that of the colours from `from` on.
pub fn nights(
    port: &dyn Port,
    case: &Case,
    from: usize,
    split: usize,
    damages: &[Damage],
    tally: &mut Tally,
) -> Result<(), Differs> {
    let r = &mut Random(case.seed);
    let input = &case.input;
    let mut nights = Nights {
        grid: case.grid,
        first: table_of(case.grid, &input.colors[..split], &input.weights[..split]),
        second: table_of(case.grid, &input.colors[from..], &input.weights[from..]),
        list: 5 * case.bins(),
    };
    for d in damages {
        nights.damage(d, r);
    }
    let number = nights.compare(port, r)?;
    tally.count("compare", number);
    Ok(())
}
