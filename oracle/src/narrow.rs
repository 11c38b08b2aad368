//! Narrow tables beside the wide ones of the same numbers (Rules, Layouts; Rules, Answers): a whole input, and the
//! calls one by one, good or damaged.
use crate::{
    PaletteSize,
    answer::{Answer, Original, Told, original},
    batches::{merged, split},
    buffer::{Buffer, Buffers, Differs, fitting, same, slowly},
    calls::{add_one, off, resize, table_of},
    case::{Case, LIGHT},
    damage::Damage,
    laid::{Laid, resized},
    numbers::{self, LARGEST_NARROW, Lengths, bins, five_each},
    port::{CutAnswer, Grid, Narrow, NarrowMut, Port},
    random::Random,
    tally::Tally,
};

/// The two lists of a narrow table.
#[derive(Clone)]
struct Lists {
    sums: Vec<u32>,
    squares: Vec<u64>,
}

impl Lists {
    /// Those of a table of five numbers a bin, whose weights and sums are turned into 32 bits one by one.
    fn by(table: &[u64], turned: impl Fn(u64) -> u32) -> Self {
        let bins = table.as_chunks::<5>().0;
        let mut sums = Vec::with_capacity(4 * bins.len());
        for [four @ .., _] in bins {
            sums.extend_from_slice(&four.map(&turned));
        }
        Self {
            sums,
            squares: bins.iter().map(|five| five[4]).collect(),
        }
    }

    /// Those of a table that a narrow one can hold.
    fn of(table: &[u64]) -> Self {
        Self::by(table, |n| {
            u32::try_from(n).expect("no weight and no sum of a narrow table reaches 2^32")
        })
    }

    /// Something to lend, of any table: where a sum needs more than 32 bits, what they leave of it stands there.
    fn to_lend(table: &[u64]) -> Self {
        Self::by(table, |n| n as u32)
    }

    fn see(&self) -> Narrow<'_> {
        Narrow {
            sums: &self.sums,
            squares: &self.squares,
        }
    }

    /// Changes one of the five numbers of a bin, told by its place in a wide table.
    fn change(&mut self, place: usize, by: i64) {
        match place % 5 {
            4 => self
                .squares
                .iter_mut()
                .skip(place / 5)
                .take(1)
                .for_each(|n| *n = n.wrapping_add_signed(by)),
            j => {
                let sums = self.sums.iter_mut().skip(4 * (place / 5) + j);
                sums.take(1)
                    .for_each(|n| *n = n.wrapping_add_signed(by as i32));
            }
        }
    }
}

/// A narrow table to lend.
pub struct Table {
    sums: Buffer<u32>,
    squares: Buffer<u64>,
}

impl Table {
    fn of(lists: &Lists, r: &mut Random) -> Self {
        Self {
            sums: Buffer::of(&lists.sums, r),
            squares: Buffer::of(&lists.squares, r),
        }
    }

    fn random([sums, squares]: [usize; 2], r: &mut Random) -> Self {
        Self {
            sums: Buffer::random(sums, r),
            squares: Buffer::random(squares, r),
        }
    }

    fn see(&self) -> Narrow<'_> {
        Narrow {
            sums: self.sums.see(),
            squares: self.squares.see(),
        }
    }

    fn lend(&mut self) -> NarrowMut<'_> {
        NarrowMut {
            sums: self.sums.lend(),
            squares: self.squares.lend(),
        }
    }

    /// Whether the table has the five numbers of each bin that are said, and nothing else has changed.
    fn expect(&mut self, name: &str, table: &[u64]) -> Result<(), Differs> {
        let Lists { sums, squares } = Lists::of(table);
        self.sums.expect(&format!("{name}, its sums"), 0, &sums)?;
        self.squares
            .expect(&format!("{name}, its squares"), 0, &squares)
    }

    fn unchanged(&mut self, name: &str) -> Result<(), Differs> {
        self.expect(name, &[])
    }
}

impl Laid for Table {
    const MERGE: &'static str = "narrow_merge";
    const LARGEST: u128 = LARGEST_NARROW;
    const PAST: u8 = 15;

    fn empty(grid: Grid, r: &mut Random) -> Self {
        Self {
            sums: Buffer::zeros(4 * bins(grid), r),
            squares: Buffer::zeros(bins(grid), r),
        }
    }

    fn of_five(five: &[u64], [off_sums, off_squares]: [i64; 2], r: &mut Random) -> Self {
        let Lists { sums, squares } = Lists::to_lend(five);
        let lists = Lists {
            sums: resized(&sums, off_sums, r),
            squares: resized(&squares, off_squares, r),
        };
        Self::of(&lists, r)
    }

    fn five_each(&self) -> Vec<u64> {
        five_each(self.see())
    }

    fn total(&self, grid: Grid) -> Option<u128> {
        let fits = [self.sums.see().len(), self.squares.see().len()] == both(grid);
        fits.then(|| numbers::narrow_sound(grid, self.see()))?
    }

    fn said_of_merge(&self, grid: Grid, second: &Self) -> u8 {
        numbers::narrow_merge(grid, self.see(), second.see())
    }

    fn holds(&mut self, name: &str, five: &[u64]) -> Result<(), Differs> {
        self.expect(name, five)
    }

    fn load(
        &mut self,
        port: &dyn Port,
        grid: Grid,
        colours: &[u8],
        weighted: bool,
        weights: &[u32],
    ) -> u8 {
        port.narrow_load(grid, self.lend(), colours, weighted, weights)
    }

    fn merge(&mut self, port: &dyn Port, grid: Grid, second: &mut Self) -> Result<u8, Differs> {
        second.sums.settle();
        second.squares.settle();
        let number = port.narrow_merge(grid, self.lend(), second.see());
        second.unchanged("the second table of a merge")?;
        Ok(number)
    }

    fn cut(
        &mut self,
        port: &dyn Port,
        case: &Case,
        slow: bool,
        answer: &Answer,
        r: &mut Random,
    ) -> Result<Buffers, Differs> {
        let cutting = Cutting {
            port,
            grid: case.grid,
            k: case.k,
            work: (!slow).then_some(both(case.grid)),
            lengths: fitting(case),
        };
        cutting.held(self, 0, Some(answer), r)
    }
}

/// The lengths of both lists of a narrow table.
fn both(grid: Grid) -> [usize; 2] {
    [4 * bins(grid), bins(grid)]
}

/// How a narrow table is cut: with a work table of these lengths, or slowly.
struct Cutting<'a> {
    port: &'a dyn Port,
    grid: Grid,
    k: usize,
    work: Option<[usize; 2]>,
    lengths: Lengths,
}

impl Cutting<'_> {
    /// Cuts, and holds the answer and every lent place to the number and, where the cut is done, to what the original
    /// says. What was lent, all but the work table.
    fn held(
        &self,
        table: &mut Table,
        said: u8,
        answer: Option<&Answer>,
        r: &mut Random,
    ) -> Result<Buffers, Differs> {
        let mut lent = Buffers::random(self.lengths.slowly(), r);
        let mut work = self.work.map(|lengths| Table::random(lengths, r));
        let to_work_in = work.as_mut().map(Table::lend);
        let answered = lent.narrow_cut(self.port, self.grid, self.k, table.see(), to_work_in);
        table.unchanged("the table after a cut")?;
        same("the number of a cut", said, answered.number)?;
        if said != 0 {
            same(
                "what a refused cut answers",
                CutAnswer::refused(said),
                answered,
            )?;
            lent.unchanged()?;
            if let Some(work) = &mut work {
                work.unchanged("the work table of a refused cut")?;
            }
        } else if let Some(answer) = answer {
            same("what a cut answers", answer.of_call(), answered)?;
            lent.expect(answer)?;
            if let Some(work) = &mut work {
                work.expect("the work table", &answer.moments)?;
            }
        }
        Ok(lent)
    }
}

/// What differs, told of the narrow layout.
pub fn narrow(differs: Differs) -> Differs {
    format!("narrow, {differs}")
}

/// A whole input in the narrow layout: "Up to there loading, merging and cutting give exactly what the wide layout
/// gives", which is what the original told. Past the limit the load is refused; whether it was done is answered.
pub fn beside(
    port: &dyn Port,
    case: &Case,
    batches: usize,
    told: Option<&Told>,
    r: &mut Random,
) -> Result<bool, Differs> {
    whole(port, case, batches, told, r).map_err(narrow)
}

fn whole(
    port: &dyn Port,
    case: &Case,
    batches: usize,
    told: Option<&Told>,
    r: &mut Random,
) -> Result<bool, Differs> {
    let (grid, input) = (case.grid, &case.input);
    let mut table = Table::empty(grid, r);
    let number = table.load(
        port,
        grid,
        input.colors.as_flattened(),
        true,
        &input.weights,
    );
    if u128::from(input.total()) > LARGEST_NARROW {
        same("the number of a load", 15, number)?;
        table.unchanged("the table of a refused load")?;
        return Ok(false);
    }
    same("the number of a load", 0, number)?;
    let said = told.map_or(&[][..], |t| &t.table);
    table.expect("the table", said)?;
    if batches > 0 {
        let mut other: Table = merged(port, grid, &split(input, batches, r), r)?;
        other.expect("the table of the batches", said)?;
    }
    let mut cutting = Cutting {
        port,
        grid,
        k: case.k,
        work: Some(both(grid)),
        lengths: fitting(case),
    };
    let (number, answer) = told.map_or((8, None), |t| (0, Some(&t.answer)));
    cutting.held(&mut table, number, answer, r)?;
    if bins(grid) <= LIGHT {
        cutting.work = None;
        cutting
            .held(&mut table, number, answer, r)
            .map_err(slowly)?;
    }
    let mut wide = Buffer::random(5 * bins(grid), r);
    let number = port.widen(grid, table.see(), wide.lend());
    same("the number of a widening", 0, number)?;
    table.unchanged("the table after a widening")?;
    wide.expect("the widened table", 0, &five_each(table.see()))?;
    Ok(true)
}

/// The calls of a case, with all that they are given.
struct Calls {
    grid: Grid,
    k: usize,
    table: Lists,
    second: Lists,
    colours: Vec<u8>,
    weights: Vec<u32>,
    weighted: bool,
    work: [usize; 2],
    lengths: Lengths,
    wide: usize,
}

impl Calls {
    fn new(case: &Case, split: usize) -> Self {
        let (first, second) = case.input.colors.split_at(split);
        let (first_weights, weights) = case.input.weights.split_at(split);
        Self {
            grid: case.grid,
            k: case.k,
            table: Lists::to_lend(&table_of(case.grid, first, first_weights)),
            second: Lists::to_lend(&table_of(case.grid, second, weights)),
            colours: second.as_flattened().to_vec(),
            weights: weights.to_vec(),
            weighted: true,
            work: both(case.grid),
            lengths: fitting(case),
            wide: 5 * case.bins(),
        }
    }

    fn damage(&mut self, d: &Damage, r: &mut Random) {
        let lengths = &mut self.lengths;
        match d.what {
            "number" => self.table.change(d.place, d.value),
            "second-number" => self.second.change(d.place, d.value),
            "size" => self.grid[d.place % 3] = d.value as usize,
            "k" => self.k = d.value as usize,
            "sums" => resize(&mut self.table.sums, d.value, r),
            "squares" => resize(&mut self.table.squares, d.value, r),
            "second-sums" => resize(&mut self.second.sums, d.value, r),
            "second-squares" => resize(&mut self.second.squares, d.value, r),
            "work-sums" => self.work[0] = off(self.work[0], d.value),
            "work-squares" => self.work[1] = off(self.work[1], d.value),
            "wide" => self.wide = off(self.wide, d.value),
            "palette" => lengths.palette = off(lengths.palette, d.value),
            "counts" => lengths.counts = off(lengths.counts, d.value),
            "remainders" => lengths.remainders = off(lengths.remainders, d.value),
            "map" => lengths.map = off(lengths.map, d.value),
            "boxes" => lengths.boxes = off(lengths.boxes, d.value),
            "spreads" => lengths.spreads = off(lengths.spreads, d.value),
            "colour-bytes" => resize(&mut self.colours, d.value, r),
            "weights" => resize(&mut self.weights, d.value, r),
            "weighted" => self.weighted = false,
            other => unreachable!("{other}"),
        }
    }

    /// Loads, and where that is done also into the wide table of the same numbers.
    fn load(&self, port: &dyn Port, r: &mut Random) -> Result<u8, Differs> {
        let Self {
            grid,
            colours,
            weighted,
            weights,
            ..
        } = self;
        let said = numbers::narrow_load(*grid, self.table.see(), colours.len(), *weighted, weights);
        let mut table = Table::of(&self.table, r);
        let number = table.load(port, *grid, colours, *weighted, weights);
        same("the number of a load", said, number)?;
        if number != 0 {
            table.unchanged("the table of a refused load")?;
            return Ok(number);
        }
        let before = five_each(self.table.see());
        let mut later = before.clone();
        for (i, &color) in colours.as_chunks::<3>().0.iter().enumerate() {
            let w = if *weighted { weights[i] } else { 1 };
            add_one(*grid, &mut later, color, w.into());
        }
        table.expect("the table of a load", &later)?;
        let mut wide = Buffer::of(&before, r);
        let number = port.load(*grid, wide.lend(), colours, *weighted, weights);
        same("the number of a load of the wide table", 0, number)?;
        wide.expect("the wide table of a load", 0, &later)?;
        Ok(number)
    }

    /// Merges, and where that is done also the wide tables of the same numbers.
    fn merge(&self, port: &dyn Port, r: &mut Random) -> Result<u8, Differs> {
        let (table, second) = (self.table.see(), self.second.see());
        let said = numbers::narrow_merge(self.grid, table, second);
        let (mut one, mut two) = (Table::of(&self.table, r), Table::of(&self.second, r));
        let number = one.merge(port, self.grid, &mut two)?;
        same("the number of a merge", said, number)?;
        if number != 0 {
            one.unchanged("the table of a refused merge")?;
            return Ok(number);
        }
        let (before, more) = (five_each(table), five_each(second));
        let later: Vec<u64> = before.iter().zip(&more).map(|(a, b)| a + b).collect();
        one.expect("the table of a merge", &later)?;
        let mut wide = Buffer::of(&before, r);
        let number = port.merge(self.grid, wide.lend(), &more);
        same("the number of a merge of the wide tables", 0, number)?;
        wide.expect("the wide table of a merge", 0, &later)?;
        Ok(number)
    }

    /// What the original says of the table, where it has the grid.
    fn answer(&self) -> Option<Answer> {
        let Original { of_table, .. } = original(self.grid)?;
        Some(of_table(
            &five_each(self.table.see()),
            PaletteSize::new(self.k)?,
        ))
    }

    fn cut(&self, port: &dyn Port, slow: bool, r: &mut Random) -> Result<u8, Differs> {
        let work = (!slow).then_some(self.work);
        let said = numbers::narrow_cut(self.grid, self.k, self.table.see(), work, self.lengths);
        let cutting = Cutting {
            port,
            grid: self.grid,
            k: self.k,
            work,
            lengths: self.lengths,
        };
        let answer = if said == 0 { self.answer() } else { None };
        cutting.held(&mut Table::of(&self.table, r), said, answer.as_ref(), r)?;
        Ok(said)
    }

    /// The same without a work table, where the table is that of a light grid.
    fn cut_slowly(&self, port: &dyn Port, r: &mut Random) -> Result<Option<u8>, Differs> {
        if self.table.squares.len() > LIGHT {
            return Ok(None);
        }
        self.cut(port, true, r).map(Some).map_err(slowly)
    }

    /// Widens, and where that is done cuts: "widening a narrow table then cutting is the same as cutting it".
    fn widen(&self, port: &dyn Port, r: &mut Random) -> Result<u8, Differs> {
        let said = numbers::widen(self.grid, self.table.see(), self.wide);
        let mut table = Table::of(&self.table, r);
        let mut wide: Buffer<u64> = Buffer::random(self.wide, r);
        let number = port.widen(self.grid, table.see(), wide.lend());
        same("the number of a widening", said, number)?;
        table.unchanged("the table after a widening")?;
        if number != 0 {
            wide.unchanged("the wide table of a refused widening")?;
            return Ok(number);
        }
        wide.expect("the widened table", 0, &five_each(self.table.see()))?;
        let total = numbers::sound(self.grid, wide.see());
        let narrow_total = numbers::narrow_sound(self.grid, table.see());
        same("the total of a widened table", narrow_total, total)?;
        let said = numbers::cut(self.grid, self.k, wide.see(), self.lengths);
        let mut lent = Buffers::random(self.lengths, r);
        let answered = lent.cut(port, self.grid, self.k, wide.see());
        same("the number of a widened table's cut", said, answered.number)?;
        if said != 0 {
            lent.unchanged()?;
        } else if let Some(answer) = self.answer() {
            same(
                "what a widened table's cut answers",
                answer.of_call(),
                answered,
            )?;
            lent.expect(&answer)?;
        }
        Ok(number)
    }
}

/// Makes the calls of a case: each answer has to be the rules', a refusal has to change nothing, and a call that is
/// done has to leave what the wide layout has.
pub fn narrow_calls(
    port: &dyn Port,
    case: &Case,
    split: usize,
    damages: &[Damage],
    tally: &mut Tally,
) -> Result<(), Differs> {
    let r = &mut Random(case.seed);
    let mut calls = Calls::new(case, split);
    for d in damages {
        calls.damage(d, r);
    }
    let mut made = || -> Result<_, Differs> {
        Ok([
            ("narrow_load", Some(calls.load(port, r)?)),
            ("narrow_merge", Some(calls.merge(port, r)?)),
            ("narrow_cut", Some(calls.cut(port, false, r)?)),
            ("narrow_cut_slowly", calls.cut_slowly(port, r)?),
            ("widen", Some(calls.widen(port, r)?)),
        ])
    };
    for (call, number) in made().map_err(narrow)? {
        if let Some(number) = number {
            tally.count(call, number);
        }
    }
    Ok(())
}
