//! Tables merged two by two in either order, with a table of zeros, and all of them in two trees (Rules, Merge; Rules,
//! Answers). "A merge adds a second table into a first, number by number", so that wherever the total fits the plain
//! sum of all tables has to come of every tree. The original has no such call, so that every grid is one of the judge's
//! here.
use crate::{
    buffer::{Buffer, Differs, same},
    calls::table_of,
    case::Case,
    damage::Damage,
    laid::Laid,
    narrow::{Table, narrow},
    numbers::{LARGEST_NARROW, bounds},
    port::{Grid, Port},
    random::Random,
    tally::Tally,
};

/// The table with other numbers in the bins of another: the same weights, and sums and squares anywhere in the bounds,
/// often at one of them. So it is sound, and mostly no colours make it.
pub fn other_numbers(grid: Grid, table: &[u64], r: &mut Random) -> Vec<u64> {
    let mut other = table.to_vec();
    for (place, five) in other.as_chunks_mut::<5>().0.iter_mut().enumerate() {
        let [n, others @ ..] = five;
        if *n == 0 {
            continue;
        }
        for (number, ends) in others.iter_mut().zip(bounds(grid, place)) {
            let [least, most] = ends.map(|end| *n * end);
            let any = r.from(least as usize, most as usize) as u64;
            *number = r.one_of(&[any, any, least, most]);
        }
    }
    other
}

/// A table of a case: the five numbers of each bin, by how much the lengths of its lists are off, and the colours and
/// weights that make it, where some do.
struct Given<'a> {
    five: Vec<u64>,
    off_by: [i64; 2],
    loaded: Option<(&'a [[u8; 3]], &'a [u32])>,
}

impl<'a> Given<'a> {
    fn of(five: Vec<u64>, loaded: Option<(&'a [[u8; 3]], &'a [u32])>) -> Self {
        Self {
            five,
            off_by: [0; 2],
            loaded,
        }
    }

    fn total(&self) -> u128 {
        let weights = self.five.iter().step_by(5);
        weights.map(|&n| u128::from(n)).sum()
    }

    fn damage(&mut self, what: &str, place: usize, value: i64) {
        match what {
            "number" => self.five[place] = self.five[place].wrapping_add_signed(value),
            "table" => self.off_by[place % 2] = value,
            other => unreachable!("{other}"),
        }
    }
}

/// A table that is lent, and the five numbers of each bin that it has to have.
struct Held<T> {
    table: T,
    five: Vec<u64>,
}

impl<T: Laid> Held<T> {
    fn of(given: &Given<'_>, r: &mut Random) -> Self {
        let table = T::of_five(&given.five, given.off_by, r);
        let five = table.five_each();
        Self { table, five }
    }
}

/// The plain sum of two tables.
fn sum(one: &[u64], two: &[u64]) -> Vec<u64> {
    one.iter().zip(two).map(|(n, m)| n + m).collect()
}

/// The merges of a case.
struct Merges<'a> {
    port: &'a dyn Port,
    grid: Grid,
    tables: Vec<Given<'a>>,
    zeros: Given<'a>,
}

impl Merges<'_> {
    /// What colours make is loaded by the port.
    fn load<T: Laid>(&self, r: &mut Random) -> Result<(), Differs> {
        for given in &self.tables {
            let Some((colors, weights)) = given.loaded else {
                continue;
            };
            let (said, later) = match weights.iter().map(|&w| u128::from(w)).sum::<u128>() {
                total if total > T::LARGEST => (T::PAST, Vec::new()),
                _ => (0, table_of(self.grid, colors, weights)),
            };
            let mut table = T::empty(self.grid, r);
            let number = table.load(self.port, self.grid, colors.as_flattened(), true, weights);
            same("the number of a load", said, number)?;
            table.holds("the table of a load", &later)?;
        }
        Ok(())
    }

    /// Merges a second table into a first. The answer is that of the rules; done, it leaves the plain sum, and refused,
    /// it leaves all as it was.
    fn merge<T: Laid>(
        &self,
        first: &mut Held<T>,
        second: &mut Held<T>,
        tally: &mut Tally,
    ) -> Result<u8, Differs> {
        let said = first.table.said_of_merge(self.grid, &second.table);
        let number = first.table.merge(self.port, self.grid, &mut second.table)?;
        tally.count(T::MERGE, number);
        same("the number of a merge", said, number)?;
        if number != 0 {
            first.table.holds("the table of a refused merge", &[])?;
            return Ok(number);
        }
        first.five = sum(&first.five, &second.five);
        first.table.holds("the table of a merge", &first.five)?;
        Ok(number)
    }

    /// One table merged into another, and that into the first: the same answer, and where it is 0 the same table, which
    /// is answered too.
    fn either_order<T: Laid>(
        &self,
        one: &Given<'_>,
        two: &Given<'_>,
        r: &mut Random,
        tally: &mut Tally,
    ) -> Result<Option<Held<T>>, Differs> {
        let [mut first, mut second] = [one, two].map(|given| Held::<T>::of(given, r));
        let number = self.merge(&mut first, &mut second, tally)?;
        let [mut turned, mut other] = [two, one].map(|given| Held::<T>::of(given, r));
        let again = self.merge(&mut turned, &mut other, tally)?;
        same("the number of a merge turned round", number, again)?;
        if number != 0 {
            return Ok(None);
        }
        turned
            .table
            .holds("the table of a merge turned round", &first.five)?;
        Ok(Some(first))
    }

    /// All tables merged in a random tree: any one into any other, until one is left or a merge is refused. The answer
    /// of the last merge, and the table that is left.
    fn tree<T: Laid>(&self, r: &mut Random, tally: &mut Tally) -> Result<(u8, Held<T>), Differs> {
        let mut left: Vec<Held<T>> = self.tables.iter().map(|given| Held::of(given, r)).collect();
        loop {
            let mut first = left.swap_remove(r.from(0, left.len() - 1));
            if left.is_empty() {
                return Ok((0, first));
            }
            let mut second = left.swap_remove(r.from(0, left.len() - 1));
            let number = self.merge(&mut first, &mut second, tally)?;
            if number != 0 {
                return Ok((number, first));
            }
            left.push(first);
        }
    }

    /// Two trees. Where all tables are sound the total decides whether a tree is refused, and where it is not each
    /// leaves the plain sum of all tables.
    fn trees<T: Laid>(&self, r: &mut Random, tally: &mut Tally) -> Result<(), Differs> {
        let leaves: Vec<Held<T>> = self.tables.iter().map(|given| Held::of(given, r)).collect();
        let trees = [self.tree::<T>(r, tally)?, self.tree(r, tally)?];
        let totals = leaves.iter().map(|x| x.table.total(self.grid));
        let Some(total) = totals.sum::<Option<u128>>() else {
            return Ok(());
        };
        for (number, mut last) in trees {
            if total > T::LARGEST {
                same("the number of a tree", T::PAST, number)?;
                continue;
            }
            same("the number of a tree", 0, number)?;
            let zeros = self.zeros.five.clone();
            let all = leaves.iter().fold(zeros, |so_far, x| sum(&so_far, &x.five));
            last.table.holds("the table of a tree", &all)?;
        }
        Ok(())
    }

    /// All of it in one layout.
    fn held<T: Laid>(&self, r: &mut Random, tally: &mut Tally) -> Result<(), Differs> {
        self.load::<T>(r)?;
        for (i, given) in self.tables.iter().enumerate() {
            let next = &self.tables[(i + 1) % self.tables.len()];
            self.either_order::<T>(given, next, r, tally)?;
            if let Some(mut same_table) = self.either_order::<T>(given, &self.zeros, r, tally)? {
                let before = Held::<T>::of(given, r).five;
                same_table
                    .table
                    .holds("a table merged with zeros", &before)?;
            }
        }
        self.trees::<T>(r, tally)
    }
}

/// Merges the tables of a case, in the wide layout and, where each has a total that a narrow table takes, in that one.
pub fn trees(
    port: &dyn Port,
    case: &Case,
    tables: &[[usize; 2]],
    damages: &[Damage],
    tally: &mut Tally,
) -> Result<(), Differs> {
    let (grid, r) = (case.grid, &mut Random(case.seed));
    let (mut given, mut start) = (Vec::with_capacity(tables.len()), 0);
    for &[kind, colours] in tables {
        let part = start..start + colours;
        start = part.end;
        let (colors, weights) = (&case.input.colors[part.clone()], &case.input.weights[part]);
        let table = table_of(grid, colors, weights);
        given.push(match kind {
            0 => Given::of(table, Some((colors, weights))),
            _ => Given::of(other_numbers(grid, &table, r), None),
        });
    }
    let fits_narrow = given.iter().all(|given| given.total() <= LARGEST_NARROW);
    let numbers = 5 * case.bins();
    for d in damages {
        if let Some(given) = given.get_mut(d.place / numbers) {
            given.damage(d.what, d.place % numbers, d.value);
        }
    }
    let merges = Merges {
        port,
        grid,
        tables: given,
        zeros: Given::of(vec![0; numbers], None),
    };
    merges.held::<Buffer<u64>>(r, tally)?;
    if fits_narrow {
        merges.held::<Table>(r, tally).map_err(narrow)?;
    }
    Ok(())
}
