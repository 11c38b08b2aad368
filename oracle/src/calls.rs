//! The six calls one by one, good or damaged, against the answers of the rules (Rules, Answers).
use crate::{
    PaletteCounts, PaletteSize,
    answer::{Original, original},
    buffer::{Buffer, Buffers, Differs, Place, fitting, same, slowly},
    case::{Case, LIGHT},
    damage::Damage,
    numbers::{self, Lengths},
    original::palette_counts::CreatePaletteCountsErrorReason as Reason,
    port::{Band, CutAnswer, Grid, Port},
    random::Random,
    tally::Tally,
};

/// The table of colours and weights, by Rules, Load; totals may be any.
pub fn table_of(grid: Grid, colors: &[[u8; 3]], weights: &[u32]) -> Vec<u64> {
    let mut table = vec![0; 5 * numbers::bins(grid)];
    add(grid, &mut table, colors, weights);
    table
}

fn add(grid: Grid, table: &mut [u64], colors: &[[u8; 3]], weights: &[u32]) {
    for (&color, &w) in colors.iter().zip(weights) {
        add_one(grid, table, color, w.into());
    }
}

/// Adds a colour of any weight.
pub fn add_one(grid: Grid, table: &mut [u64], color: [u8; 3], w: u64) {
    let place = numbers::place(grid, color);
    let numbers = &mut table[5 * place..5 * place + 5];
    for (n, more) in numbers.iter_mut().zip(numbers::added(color, w)) {
        *n = n.wrapping_add(more);
    }
}

/// The six calls of a case, with all that they are given.
struct Calls {
    grid: Grid,
    k: usize,
    table: Vec<u64>,
    second: Vec<u64>,
    colours: Vec<u8>,
    weights: Vec<u32>,
    weighted: bool,
    lengths: Lengths,
    map: Vec<u8>,
    palette: Vec<u8>,
    told_colours: usize,
    frame: Vec<u8>,
    indices: usize,
    band: Band,
}

/// A length off by so much, but not below 0.
pub fn off(length: usize, by: i64) -> usize {
    length.saturating_add_signed(by as isize)
}

pub fn resize<T: Place>(list: &mut Vec<T>, by: i64, r: &mut Random) {
    list.resize_with(off(list.len(), by), || T::of(r.draw()));
}

impl Calls {
    fn new(case: &Case, split: usize, r: &mut Random) -> Self {
        let (first, second) = case.input.colors.split_at(split);
        let (first_weights, weights) = case.input.weights.split_at(split);
        let frame = case.frame_pixels();
        Self {
            grid: case.grid,
            k: case.k,
            table: table_of(case.grid, first, first_weights),
            second: table_of(case.grid, second, weights),
            colours: second.as_flattened().to_vec(),
            weights: weights.to_vec(),
            weighted: true,
            lengths: fitting(case),
            map: (0..case.bins())
                .map(|_| r.from(0, case.k - 1) as u8)
                .collect(),
            palette: (0..3 * case.k).map(|_| r.draw() as u8).collect(),
            told_colours: case.k,
            indices: frame.len(),
            frame: frame.into_flattened(),
            band: case.band,
        }
    }

    fn damage(&mut self, d: &Damage, r: &mut Random) {
        let number = |list: &mut [u64]| {
            if let Some(n) = list.get_mut(d.place) {
                *n = n.wrapping_add_signed(d.value);
            }
        };
        let lengths = &mut self.lengths;
        match d.what {
            "number" => number(&mut self.table),
            "second-number" => number(&mut self.second),
            "entry" => {
                if let Some(entry) = self.map.get_mut(d.place) {
                    *entry = d.value as u8;
                }
            }
            "size" => self.grid[d.place % 3] = d.value as usize,
            "k" => self.k = d.value as usize,
            "table" => resize(&mut self.table, d.value, r),
            "second" => resize(&mut self.second, d.value, r),
            "work" => lengths.work = lengths.work.map(|n| off(n, d.value)),
            "palette" => lengths.palette = off(lengths.palette, d.value),
            "counts" => lengths.counts = off(lengths.counts, d.value),
            "remainders" => lengths.remainders = off(lengths.remainders, d.value),
            "map" => {
                resize(&mut self.map, d.value, r);
                lengths.map = off(lengths.map, d.value);
            }
            "boxes" => lengths.boxes = off(lengths.boxes, d.value),
            "spreads" => lengths.spreads = off(lengths.spreads, d.value),
            "colour-bytes" => resize(&mut self.colours, d.value, r),
            "weights" => resize(&mut self.weights, d.value, r),
            "weighted" => self.weighted = false,
            "frame" => resize(&mut self.frame, d.value, r),
            "indices" => self.indices = off(self.indices, d.value),
            "paint-palette" => resize(&mut self.palette, d.value, r),
            "colours" => self.told_colours = d.value as usize,
            "first" => self.band.first = d.value as usize,
            "pixels" => self.band.pixels = d.value as usize,
            other => unreachable!("{other}"),
        }
    }

    fn load(&self, port: &dyn Port, r: &mut Random) -> Result<u8, Differs> {
        let bytes = self.colours.len();
        let said = numbers::load(self.grid, &self.table, bytes, self.weighted, &self.weights);
        let mut table = Buffer::of(&self.table, r);
        let colours = &self.colours;
        let number = port.load(
            self.grid,
            table.lend(),
            colours,
            self.weighted,
            &self.weights,
        );
        same("the number of a load", said, number)?;
        let (colors, rest) = colours.as_chunks::<3>();
        if self.weighted && rest.is_empty() && self.table.iter().all(|&n| n == 0) {
            self.constructor(colors, said)?;
        }
        if number != 0 {
            table.unchanged("the table of a refused load")?;
            return Ok(number);
        }
        let mut later = self.table.clone();
        let ones = vec![1; colors.len()];
        let weights = if self.weighted { &self.weights } else { &ones };
        add(self.grid, &mut later, colors, weights);
        table.expect("the table of a load", 0, &later)?;
        Ok(number)
    }

    /// What the port refuses of a whole input with 4 or 7 the original's constructor refuses too.
    fn constructor(&self, colors: &[[u8; 3]], number: u8) -> Result<(), Differs> {
        let made = PaletteCounts::new(colors.to_vec(), self.weights.clone());
        let reason = made.err().map(|e| e.reason);
        let expected = match number {
            0 => None,
            4 => Some(Reason::LengthMismatch),
            7 => Some(Reason::Overflow),
            _ => return Ok(()),
        };
        same("what the original's constructor refuses", expected, reason)
    }

    fn merge(&self, port: &dyn Port, r: &mut Random) -> Result<u8, Differs> {
        let said = numbers::merge(self.grid, &self.table, &self.second);
        let mut table = Buffer::of(&self.table, r);
        let mut second = Buffer::of(&self.second, r);
        let number = port.merge(self.grid, table.lend(), second.see());
        same("the number of a merge", said, number)?;
        second.unchanged("the second table of a merge")?;
        if number != 0 {
            table.unchanged("the table of a refused merge")?;
            return Ok(number);
        }
        let pairs = self.table.iter().zip(&self.second);
        let later: Vec<u64> = pairs.map(|(a, b)| a + b).collect();
        table.expect("the table of a merge", 0, &later)?;
        Ok(number)
    }

    fn cut(&self, port: &dyn Port, lengths: Lengths, r: &mut Random) -> Result<u8, Differs> {
        let said = numbers::cut(self.grid, self.k, &self.table, lengths);
        let mut table = Buffer::of(&self.table, r);
        let mut lent = Buffers::random(lengths, r);
        let answered = lent.cut(port, self.grid, self.k, table.see());
        let CutAnswer { number, .. } = answered;
        table.unchanged("the table after a cut")?;
        same("the number of a cut", said, number)?;
        if number != 0 {
            same(
                "what a refused cut answers",
                CutAnswer::refused(number),
                answered,
            )?;
            lent.unchanged()?;
        } else if let Some(Original { of_table, .. }) = original(self.grid) {
            let answer = of_table(&self.table, PaletteSize::new(self.k).ok_or("k")?);
            same("what a cut answers", answer.of_call(), answered)?;
            lent.expect(&answer)?;
        }
        Ok(number)
    }

    /// The same without a work table, where the table is that of a light grid.
    fn cut_slowly(&self, port: &dyn Port, r: &mut Random) -> Result<Option<u8>, Differs> {
        if self.table.len() > 5 * LIGHT {
            return Ok(None);
        }
        let number = self.cut(port, self.lengths.slowly(), r);
        number.map(Some).map_err(slowly)
    }

    /// The index of each pixel of the band.
    fn band_indices(&self) -> Vec<u8> {
        let pixels = &self.frame.as_chunks::<3>().0[self.band.first..][..self.band.pixels];
        let at = |&color| self.map[numbers::place(self.grid, color)];
        pixels.iter().map(at).collect()
    }

    fn map(&self, port: &dyn Port, r: &mut Random) -> Result<u8, Differs> {
        let said = numbers::map(
            self.grid,
            &self.map,
            self.told_colours,
            self.frame.len(),
            self.indices,
            self.band,
        );
        let mut indices = Buffer::random(self.indices, r);
        let number = port.map(
            self.grid,
            &self.map,
            self.told_colours,
            &self.frame,
            indices.lend(),
            self.band,
        );
        same("the number of a map", said, number)?;
        if number == 0 {
            indices.expect("indices", self.band.first, &self.band_indices())?;
        }
        indices.unchanged("the indices of a refused map")?;
        Ok(number)
    }

    fn paint(&self, port: &dyn Port, r: &mut Random) -> Result<u8, Differs> {
        let (bytes, frame) = (self.palette.len(), self.frame.len());
        let said = numbers::paint(self.grid, &self.map, bytes, frame, self.band);
        let mut frame = Buffer::of(&self.frame, r);
        let number = port.paint(self.grid, &self.map, &self.palette, frame.lend(), self.band);
        same("the number of a paint", said, number)?;
        if number == 0 {
            let palette = self.palette.as_chunks::<3>().0;
            let indices = self.band_indices();
            let painted: Vec<[u8; 3]> = indices.iter().map(|&i| palette[usize::from(i)]).collect();
            frame.expect("painted frame", 3 * self.band.first, painted.as_flattened())?;
        }
        frame.unchanged("the frame of a refused paint")?;
        Ok(number)
    }
}

/// Makes the calls of a case: each answer has to be the rules', a refusal has to change nothing, and a call that is
/// done has to leave what it says.
pub fn calls(
    port: &dyn Port,
    case: &Case,
    split: usize,
    damages: &[Damage],
    tally: &mut Tally,
) -> Result<(), Differs> {
    let r = &mut Random(case.seed);
    let mut calls = Calls::new(case, split, r);
    for d in damages {
        calls.damage(d, r);
    }
    let sizes = port.sizes(calls.grid);
    same("bins and numbers", numbers::sizes(calls.grid), sizes)?;
    let answered = [
        ("load", Some(calls.load(port, r)?)),
        ("merge", Some(calls.merge(port, r)?)),
        ("cut", Some(calls.cut(port, calls.lengths, r)?)),
        ("cut_slowly", calls.cut_slowly(port, r)?),
        ("map", Some(calls.map(port, r)?)),
        ("paint", Some(calls.paint(port, r)?)),
    ];
    for (call, number) in answered {
        if let Some(number) = number {
            tally.count(call, number);
        }
    }
    Ok(())
}
