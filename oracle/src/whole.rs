//! A whole input against the original, in every way that the port can be given it.
use crate::{
    PaletteCounts, PaletteSize,
    answer::{BoxSpread, Told, original},
    batches::{Batch, merged, split},
    buffer::{Buffer, Buffers, Differs, fitting, same, slowly},
    case::{Case, LIGHT},
    narrow::beside,
    numbers::Lengths,
    port::{Band, CutAnswer, Grid, Port},
    random::Random,
    tally::Tally,
};

/// One whole case on one port.
struct Whole<'a> {
    port: &'a dyn Port,
    case: &'a Case,
    r: Random,
}

impl Whole<'_> {
    /// The table of the whole input, loaded with weights; none where the total is too large, which the original's
    /// constructor has to find too.
    fn load(&mut self) -> Result<Option<Buffer<u64>>, Differs> {
        let input = &self.case.input;
        let mut table = Buffer::zeros(5 * self.case.bins(), &mut self.r);
        let colours = input.colors.as_flattened();
        let number = self
            .port
            .load(self.case.grid, table.lend(), colours, true, &input.weights);
        if input.total() <= u64::from(u32::MAX) {
            same("the number of a load", 0, number)?;
            return Ok(Some(table));
        }
        let counts = PaletteCounts::new(input.colors.clone(), input.weights.clone());
        same("the original takes the weights", false, counts.is_ok())?;
        same("the number of a load", 7, number)?;
        table.unchanged("the table of a refused load")?;
        Ok(None)
    }

    /// The same table, loaded pixel by pixel.
    fn load_pixels(&mut self, table: &[u64]) -> Result<(), Differs> {
        let batch = Batch::of_pixels(&self.case.input, &mut self.r);
        let mut other = Buffer::zeros(table.len(), &mut self.r);
        batch.load(self.port, self.case.grid, &mut other)?;
        other.expect("the table of the pixels", 0, table)
    }

    /// The same table, from the input shuffled, split and merged.
    fn load_batches(&mut self, count: usize, table: &[u64]) -> Result<(), Differs> {
        let batches = split(&self.case.input, count, &mut self.r);
        let mut other: Buffer<u64> = merged(self.port, self.case.grid, &batches, &mut self.r)?;
        other.expect("the table of the batches", 0, table)
    }

    /// The cut of the table, as the original says, or refused where there is nothing to cut.
    fn cut(
        &mut self,
        lengths: Lengths,
        table: &mut Buffer<u64>,
        told: Option<&Told>,
    ) -> Result<Buffers, Differs> {
        let mut lent = Buffers::random(lengths, &mut self.r);
        let (grid, k) = (self.case.grid, self.case.k);
        let answered = lent.cut(self.port, grid, k, table.see());
        table.unchanged("the table after a cut")?;
        let occupied = table.see().iter().step_by(5).filter(|&&n| n > 0).count();
        same(
            "as many boxes as the smaller of k and the occupied bins",
            k.min(occupied),
            answered.boxes,
        )?;
        let expected = told.map_or(CutAnswer::refused(8), |t| t.answer.of_call());
        same("what a cut answers", expected, answered)?;
        match told {
            Some(told) => lent.expect(&told.answer)?,
            None => lent.unchanged()?,
        }
        Ok(lent)
    }

    /// Mapping and painting a band of the frame by what the cut has left.
    fn frame(&mut self, lent: &Buffers, told: &Told, frame: &[[u8; 3]]) -> Result<(), Differs> {
        let Case { grid, band, .. } = *self.case;
        let Band { first, pixels } = band;
        let boxes = told.answer.boxes.len();
        let map = lent.map.see();
        let mut pixels_lent = Buffer::of(frame.as_flattened(), &mut self.r);
        let mut indices = Buffer::random(frame.len(), &mut self.r);
        let number = self
            .port
            .map(grid, map, boxes, pixels_lent.see(), indices.lend(), band);
        same("the number of a map", 0, number)?;
        let said = &told.frame.indices[first..first + pixels];
        indices.expect("indices", first, said)?;

        let palette = &lent.palette.see()[..3 * boxes];
        let number = self
            .port
            .paint(grid, map, palette, pixels_lent.lend(), band);
        same("the number of a paint", 0, number)?;
        let said = &told.frame.painted[first..first + pixels];
        pixels_lent.expect("painted frame", 3 * first, said.as_flattened())
    }
}

/// Runs a whole case.
pub fn whole(
    port: &dyn Port,
    case: &Case,
    by_pixels: bool,
    batches: usize,
    tally: &mut Tally,
) -> Result<(), Differs> {
    let judge = original(case.grid).ok_or("the judge does not have this grid")?;
    let k = PaletteSize::new(case.k).ok_or("the judge does not have this k")?;
    let r = Random(case.seed);
    let mut run = Whole { port, case, r };
    let Some(mut table) = run.load()? else {
        tally.too_heavy += 1;
        beside(port, case, 0, None, &mut run.r)?;
        return Ok(());
    };
    let frame = case.frame_pixels();
    let told = (judge.told)(&case.input, k, by_pixels, &frame);
    let said = told.as_ref().map_or(&[][..], |t| &t.table);
    table.expect("the table", 0, said)?;
    if by_pixels {
        tally.by_pixels += 1;
        run.load_pixels(table.see())?;
    }
    if batches > 0 {
        tally.by_batches += 1;
        run.load_batches(batches, table.see())?;
    }
    let lengths = fitting(case);
    let lent = run.cut(lengths, &mut table, told.as_ref())?;
    if case.bins() <= LIGHT {
        tally.slowly += 1;
        run.cut(lengths.slowly(), &mut table, told.as_ref())
            .map_err(slowly)?;
    }
    let narrow = beside(port, case, batches, told.as_ref(), &mut run.r)?;
    tally.narrow += usize::from(narrow);
    let Some(told) = told else {
        tally.of_total_0 += 1;
        return Ok(());
    };
    count(case, &told, tally);
    run.frame(&lent, &told, &frame)
}

/// The five numbers of a box, by its bins.
fn sums_of(table: &[u64], [_, b2, b3]: Grid, x: &BoxSpread) -> [u64; 5] {
    let mut sums = [0; 5];
    for r in x.min[0]..x.max[0] {
        for g in x.min[1]..x.max[1] {
            for b in x.min[2]..x.max[2] {
                let [r, g, b] = [r, g, b].map(usize::from);
                let place = (r * b2 + g) * b3 + b;
                for (s, n) in sums.iter_mut().zip(&table[5 * place..]) {
                    *s += n;
                }
            }
        }
    }
    sums
}

/// Whether a box has the spread 0.0 in place of a computed one above 0, and whether that one is wrong, since the exact
/// one is 0.
fn put_back(table: &[u64], grid: Grid, x: &BoxSpread) -> [bool; 2] {
    if x.spread != 0.0 || (0..3).all(|d| x.max[d] - x.min[d] == 1) {
        return [false; 2];
    }
    let sums = sums_of(table, grid, x);
    let [n, c1, c2, c3, squares] = sums.map(|s| s as f64);
    let above = squares - (c1 * c1 + c2 * c2 + c3 * c3) / n > 0.0;
    let [n, c1, c2, c3, squares] = sums.map(u128::from);
    [above, above && n * squares == c1 * c1 + c2 * c2 + c3 * c3]
}

/// Counts a case by its sort. Boxes that were put back are looked for in small grids alone.
fn count(case: &Case, told: &Told, tally: &mut Tally) {
    let boxes = &told.answer.boxes;
    tally.boxes += boxes.len();
    tally.wide += usize::from(case.input.total() >= 16_843_009);
    tally.negative += usize::from(boxes.iter().any(|b| b.spread < 0.0));
    if case.bins() <= 512 {
        let found = |which: usize| {
            let one = |x| put_back(&told.table, case.grid, x)[which];
            usize::from(boxes.iter().any(one))
        };
        tally.put_back += found(0);
        tally.falsely_positive += found(1);
    }
}
