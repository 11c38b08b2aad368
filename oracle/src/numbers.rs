//! What a call answers, from docs/RULES.md (Rules, Grid; Rules, Sound; Rules, Layouts; Rules, Answers; Rules, Lengths)
//! and from nothing else. What a call is lent counts here by its length, unless its contents decide.
use crate::port::{Band, Grid, Narrow, Recorded};

const SIZES: [usize; 7] = [2, 4, 8, 16, 32, 64, 128];

/// The largest total of a sound table.
pub const LARGEST_TOTAL: u128 = 4_294_967_295;

/// And of a narrow one, which "takes totals up to 16,843,008".
pub const LARGEST_NARROW: u128 = 16_843_008;

/// Not "a grid size not among the seven".
fn is_grid(grid: Grid) -> bool {
    grid.iter().all(|b| SIZES.contains(b))
}

pub fn bins(grid: Grid) -> usize {
    grid.iter().product()
}

/// How many bins a grid has and how many numbers its table, or twice 0.
pub fn sizes(grid: Grid) -> (usize, usize) {
    if is_grid(grid) {
        (bins(grid), 5 * bins(grid))
    } else {
        (0, 0)
    }
}

/// "The bin of component c at size B is c shifted right by 7, 6, 5, 4, 3, 2, 1 places in that order."
pub fn bin(size: usize, c: u8) -> usize {
    let which = SIZES.iter().position(|&b| b == size).expect("a size");
    usize::from(c) >> (7 - which)
}

/// "Bin (r, g, b) stands at place (r·B2 + g)·B3 + b."
pub fn place([b1, b2, b3]: Grid, [r, g, b]: [u8; 3]) -> usize {
    (bin(b1, r) * b2 + bin(b2, g)) * b3 + bin(b3, b)
}

/// What a colour "adds w to n, w·c to each sum, w·(c1²+c2²+c3²) to the squares of its bin".
pub fn added(color: [u8; 3], w: impl Into<u64>) -> [u64; 5] {
    let w = w.into();
    let [c1, c2, c3] = color.map(u64::from);
    [w, w * c1, w * c2, w * c3, w * (c1 * c1 + c2 * c2 + c3 * c3)]
}

/// Of the four numbers behind the weight of a bin, in their order, the least and the most that it may be for each 1 of
/// the weight: of a sum "low and high", "the smallest and largest value of that component that fall in the bin", and of
/// the squares "the sum of the three squared lows" and "the sum of the three squared highs".
pub fn bounds(grid: Grid, place: usize) -> [[u64; 2]; 4] {
    let [_, b2, b3] = grid;
    let bins = [place / (b2 * b3), place / b3 % b2, place % b3];
    let [c1, c2, c3] = [0, 1, 2].map(|d| {
        let values = 256 / grid[d];
        let low = (bins[d] * values) as u64;
        [low, low + values as u64 - 1]
    });
    let squares = [0, 1].map(|end| [c1, c2, c3].map(|c| c[end] * c[end]).iter().sum());
    [c1, c2, c3, squares]
}

/// "A bin keeps its bounds if every component sum lies between n·low and n·high, where low and high are the smallest
/// and largest value of that component that fall in the bin, and the squares lie between n times the sum of the three
/// squared lows and n times the sum of the three squared highs."
pub fn keeps_bounds(grid: Grid, place: usize, five: &[u64]) -> bool {
    // Most bins of a table are empty, and a large one is looked at often.
    if five == [0; 5] {
        return true;
    }
    let [n, others @ ..] = [0, 1, 2, 3, 4].map(|j| u128::from(five[j]));
    let bounds = bounds(grid, place).map(|ends| ends.map(u128::from));
    let mut pairs = others.into_iter().zip(bounds);
    pairs.all(|(number, [least, most])| n * least <= number && number <= n * most)
}

/// The total of a sound table; none if it is not sound.
pub fn sound(grid: Grid, table: &[u64]) -> Option<u128> {
    sound_up_to(LARGEST_TOTAL, grid, table)
}

/// The same where another total is the largest.
fn sound_up_to(largest: u128, grid: Grid, table: &[u64]) -> Option<u128> {
    let mut total = 0;
    for (place, five) in table.chunks_exact(5).enumerate() {
        if !keeps_bounds(grid, place, five) {
            return None;
        }
        total += u128::from(five[0]);
    }
    (total <= largest).then_some(total)
}

/// The five numbers of each bin of a narrow table: "weight and sums as four 32-bit numbers a bin, squares apart as
/// 64-bit".
pub fn five_each(table: Narrow<'_>) -> Vec<u64> {
    let mut five = Vec::with_capacity(5 * table.squares.len());
    for (sums, &squares) in table.sums.chunks_exact(4).zip(table.squares) {
        five.extend_from_slice(&[0, 1, 2, 3].map(|j| u64::from(sums[j])));
        five.push(squares);
    }
    five
}

/// "both lists of exact length": 4·bins numbers and bins numbers.
fn fits(grid: Grid, [sums, squares]: [usize; 2]) -> bool {
    sums == 4 * bins(grid) && squares == bins(grid)
}

fn lengths(table: Narrow<'_>) -> [usize; 2] {
    [table.sums.len(), table.squares.len()]
}

/// The total of a sound narrow table, whose lists fit the grid; none if it is not sound.
pub fn narrow_sound(grid: Grid, table: Narrow<'_>) -> Option<u128> {
    sound_up_to(LARGEST_NARROW, grid, &five_each(table))
}

/// "The lowest answer from 1 to 9 that applies is given": tests with their answers, in order.
fn lowest(tests: &[(&dyn Fn() -> bool, u8)]) -> u8 {
    tests
        .iter()
        .find(|(applies, _)| applies())
        .map_or(0, |(_, number)| *number)
}

pub fn load(grid: Grid, table: &[u64], colours: usize, weighted: bool, weights: &[u32]) -> u8 {
    batch([1, 1], grid, table, colours, weighted, weights)
}

/// "An interval is a whole number from 1 to 4,096"
fn is_interval(interval: u32) -> bool {
    (1..=4096).contains(&interval)
}

/// What beginning with an interval answers, and reloading to it.
pub fn interval(interval: u32) -> u8 {
    lowest(&[(&|| !is_interval(interval), 13)])
}

/// What a batch answers; a load is one at interval 1. "10 to 14 come before 1, in that order"
pub fn batch(
    [in_force, interval]: [u32; 2],
    grid: Grid,
    table: &[u64],
    colours: usize,
    weighted: bool,
    weights: &[u32],
) -> u8 {
    let n = colours / 3;
    let batch = || match weighted {
        true => weights.iter().map(|&w| scaled(interval, w)).sum(),
        false => n as u128 * scaled(interval, 1),
    };
    lowest(&[
        (&|| !is_interval(interval), 13),
        (&|| interval != in_force, 14),
        (&|| !is_grid(grid), 1),
        (&|| !colours.is_multiple_of(3), 3),
        (&|| weighted && weights.len() != n, 4),
        (&|| table.len() != 5 * bins(grid), 5),
        (&|| sound(grid, table).is_none(), 6),
        (
            &|| sound(grid, table).is_some_and(|total| total + batch() > LARGEST_TOTAL),
            7,
        ),
    ])
}

/// What a narrow load answers: "15, in the place of 7".
pub fn narrow_load(
    grid: Grid,
    table: Narrow<'_>,
    colours: usize,
    weighted: bool,
    weights: &[u32],
) -> u8 {
    let n = colours / 3;
    let batch = || match weighted {
        true => weights.iter().map(|&w| u128::from(w)).sum(),
        false => n as u128,
    };
    let total = || narrow_sound(grid, table);
    lowest(&[
        (&|| !is_grid(grid), 1),
        (&|| !colours.is_multiple_of(3), 3),
        (&|| weighted && weights.len() != n, 4),
        (&|| !fits(grid, lengths(table)), 5),
        (&|| total().is_none(), 6),
        (
            &|| total().is_some_and(|t| t + batch() > LARGEST_NARROW),
            15,
        ),
    ])
}

pub fn narrow_merge(grid: Grid, table: Narrow<'_>, second: Narrow<'_>) -> u8 {
    let totals = || narrow_sound(grid, table).zip(narrow_sound(grid, second));
    lowest(&[
        (&|| !is_grid(grid), 1),
        (&|| !fits(grid, lengths(table)), 5),
        (&|| !fits(grid, lengths(second)), 5),
        (&|| totals().is_none(), 6),
        (
            &|| totals().is_some_and(|(a, b)| a + b > LARGEST_NARROW),
            15,
        ),
    ])
}

/// "widen 1, 5, 6": what the wide list holds is not looked at.
pub fn widen(grid: Grid, table: Narrow<'_>, wide: usize) -> u8 {
    lowest(&[
        (&|| !is_grid(grid), 1),
        (&|| !fits(grid, lengths(table)), 5),
        (&|| wide != 5 * bins(grid), 5),
        (&|| narrow_sound(grid, table).is_none(), 6),
    ])
}

/// "each weight multiplied by the interval"
pub fn scaled(interval: u32, weight: u32) -> u128 {
    u128::from(interval) * u128::from(weight)
}

/// What a replay answers as a whole, with so many bytes for answers: "13 on its first interval, then 1, 5 and 6".
pub fn replay(first: u32, grid: Grid, table: &[u64], recorded: Recorded<'_>, answers: usize) -> u8 {
    let (entries, rest) = recorded.entries.as_chunks::<3>();
    let colours = || entries.iter().map(|e| u128::from(e[2])).sum::<u128>();
    lowest(&[
        (&|| !is_interval(first), 13),
        (&|| !is_grid(grid), 1),
        (&|| table.len() != 5 * bins(grid), 5),
        (&|| !rest.is_empty(), 5),
        (&|| entries.iter().any(|e| ![0, 1].contains(&e[0])), 5),
        (&|| entries.iter().any(|e| e[0] == 0 && e[2] != 0), 5),
        (&|| recorded.colours.len() as u128 != 3 * colours(), 5),
        (&|| recorded.weights.len() as u128 != colours(), 5),
        (&|| answers < entries.len(), 5),
        (&|| sound(grid, table).is_none(), 6),
    ])
}

pub fn merge(grid: Grid, table: &[u64], second: &[u64]) -> u8 {
    let totals = || sound(grid, table).zip(sound(grid, second));
    lowest(&[
        (&|| !is_grid(grid), 1),
        (&|| table.len() != 5 * bins(grid), 5),
        (&|| second.len() != 5 * bins(grid), 5),
        (&|| totals().is_none(), 6),
        (&|| totals().is_some_and(|(a, b)| a + b > LARGEST_TOTAL), 7),
    ])
}

pub fn compare(grid: Grid, first: &[u64], second: &[u64], differences: usize) -> u8 {
    lowest(&[
        (&|| !is_grid(grid), 1),
        (&|| first.len() != 5 * bins(grid), 5),
        (&|| second.len() != 5 * bins(grid), 5),
        (&|| differences != 5 * bins(grid), 5),
        (&|| sound(grid, first).is_none(), 6),
        (&|| sound(grid, second).is_none(), 6),
    ])
}

pub fn rescue(grid: Grid, table: usize, reasons: usize) -> u8 {
    lowest(&[
        (&|| !is_grid(grid), 1),
        (&|| table != 5 * bins(grid) || reasons != bins(grid), 5),
    ])
}

/// The lengths of what a cut is lent to write. A slow cut has no work table.
#[derive(Clone, Copy, Debug)]
pub struct Lengths {
    pub work: Option<usize>,
    pub palette: usize,
    pub counts: usize,
    pub remainders: usize,
    pub map: usize,
    pub boxes: usize,
    pub spreads: usize,
}

impl Lengths {
    /// The same for a slow cut.
    pub fn slowly(self) -> Self {
        Self { work: None, ..self }
    }
}

/// What a cut answers, and a slow one: its refusals are the same but for the length of the work table.
pub fn cut(grid: Grid, k: usize, table: &[u64], lent: Lengths) -> u8 {
    let long = |n: usize| n == 5 * bins(grid);
    let tables = || long(table.len()) && lent.work.is_none_or(long);
    cut_of(grid, k, &tables, lent, &|| sound(grid, table))
}

/// The same in the narrow layout, whose work table has two lists. The one of `lent` is not looked at.
pub fn narrow_cut(
    grid: Grid,
    k: usize,
    table: Narrow<'_>,
    work: Option<[usize; 2]>,
    lent: Lengths,
) -> u8 {
    let long = |n: [usize; 2]| fits(grid, n);
    let tables = || long(lengths(table)) && work.is_none_or(long);
    cut_of(grid, k, &tables, lent, &|| narrow_sound(grid, table))
}

/// A cut in either layout, by whether its tables are as long as they have to be, and by the total of its sound table.
fn cut_of(
    grid: Grid,
    k: usize,
    tables: &dyn Fn() -> bool,
    lent: Lengths,
    total: &dyn Fn() -> Option<u128>,
) -> u8 {
    lowest(&[
        (&|| !is_grid(grid), 1),
        (&|| !(1..=256).contains(&k), 2),
        (&|| !tables(), 5),
        (&|| lent.palette < 3 * k, 5),
        (&|| lent.counts < k, 5),
        (&|| lent.remainders < 3 * k, 5),
        (&|| lent.map != bins(grid), 5),
        (&|| lent.boxes < 6 * k, 5),
        (&|| lent.spreads < k, 5),
        (&|| total().is_none(), 6),
        (&|| total() == Some(0), 8),
    ])
}

fn reaches_past(band: Band, pixels: usize) -> bool {
    band.first
        .checked_add(band.pixels)
        .is_none_or(|end| end > pixels)
}

fn all_below(map: &[u8], colours: usize) -> bool {
    map.iter().all(|&entry| usize::from(entry) < colours)
}

pub fn map(grid: Grid, map: &[u8], colours: usize, frame: usize, indices: usize, band: Band) -> u8 {
    lowest(&[
        (&|| !is_grid(grid), 1),
        (&|| !frame.is_multiple_of(3), 3),
        (&|| map.len() != bins(grid), 5),
        (&|| !(1..=256).contains(&colours), 5),
        (&|| indices != frame / 3, 5),
        (&|| reaches_past(band, frame / 3), 5),
        (&|| !all_below(map, colours), 9),
    ])
}

pub fn paint(grid: Grid, map: &[u8], palette: usize, frame: usize, band: Band) -> u8 {
    lowest(&[
        (&|| !is_grid(grid), 1),
        (&|| !frame.is_multiple_of(3), 3),
        (&|| map.len() != bins(grid), 5),
        (
            &|| !(3..=768).contains(&palette) || !palette.is_multiple_of(3),
            5,
        ),
        (&|| reaches_past(band, frame / 3), 5),
        (&|| !all_below(map, palette / 3), 9),
    ])
}

pub fn nearest(palette: usize, answers: usize) -> u8 {
    lowest(&[
        (&|| !(3..=768).contains(&palette), 5),
        (&|| !palette.is_multiple_of(3), 5),
        (&|| answers < palette / 3, 5),
    ])
}
