//! An input shuffled, split into batches, and made one table again by loads and merges.
use crate::{
    answer::Input,
    buffer::{Differs, same},
    laid::Laid,
    port::{Grid, Port},
    random::Random,
};

/// A part of an input: colours with weights, or pixels without.
pub struct Batch {
    colors: Vec<[u8; 3]>,
    weights: Vec<u32>,
    weighted: bool,
}

impl Batch {
    /// An input as pixels. The weights that are lent with them do not count.
    pub fn of_pixels(input: &Input, r: &mut Random) -> Self {
        Self {
            colors: input.pixels(),
            weights: (0..r.from(0, 3)).map(|_| r.draw() as u32).collect(),
            weighted: false,
        }
    }

    pub fn load(&self, port: &dyn Port, grid: Grid, table: &mut impl Laid) -> Result<(), Differs> {
        let colours = self.colors.as_flattened();
        let number = table.load(port, grid, colours, self.weighted, &self.weights);
        same("the number of a batch's load", 0, number)
    }
}

/// The colours in another order, some of them twice with the weight shared.
fn shuffled(input: &Input, r: &mut Random) -> Vec<([u8; 3], u32)> {
    let mut parts = Vec::new();
    for (&color, &w) in input.colors.iter().zip(&input.weights) {
        let first = match r.once_in(3) {
            true => r.from(0, w as usize) as u32,
            false => w,
        };
        parts.push((color, first));
        if first < w {
            parts.push((color, w - first));
        }
    }
    r.shuffle(&mut parts);
    parts
}

/// The input shuffled and split into so many batches, which may be empty. Every other one of little weight is pixels.
pub fn split(input: &Input, count: usize, r: &mut Random) -> Vec<Batch> {
    let parts = shuffled(input, r);
    let mut ends: Vec<usize> = (1..count).map(|_| r.from(0, parts.len())).collect();
    ends.push(parts.len());
    ends.sort_unstable();
    let mut start = 0;
    let mut batches = Vec::with_capacity(count);
    for end in ends {
        let (colors, weights) = parts[start..end].iter().copied().unzip();
        start = end;
        let part = Input { colors, weights };
        batches.push(if part.total() <= 300 && r.once_in(2) {
            Batch::of_pixels(&part, r)
        } else {
            Batch {
                colors: part.colors,
                weights: part.weights,
                weighted: true,
            }
        });
    }
    batches
}

/// The table of the batches: the last loaded into that of the others, or two tables merged, in a random tree.
pub fn merged<T: Laid>(
    port: &dyn Port,
    grid: Grid,
    batches: &[Batch],
    r: &mut Random,
) -> Result<T, Differs> {
    let [before @ .., last] = batches else {
        return Ok(T::empty(grid, r));
    };
    if before.is_empty() || r.once_in(3) {
        let mut table = merged(port, grid, before, r)?;
        last.load(port, grid, &mut table)?;
        return Ok(table);
    }
    let middle = r.from(1, before.len());
    let mut first: T = merged(port, grid, &batches[..middle], r)?;
    let mut second = merged(port, grid, &batches[middle..], r)?;
    if r.once_in(2) {
        std::mem::swap(&mut first, &mut second);
    }
    let number = first.merge(port, grid, &mut second)?;
    same("the number of a merge", 0, number)?;
    Ok(first)
}
