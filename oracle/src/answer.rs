//! Asks the original for its answer to a whole input.
use crate::{
    IndexedColorMap, PaletteCounts, PaletteSize,
    model::boxes_and_rounds,
    original::u8::{BinnerU8x3, WuU8x3},
    port::CutAnswer,
};

/// A box with its spread.
#[derive(Clone, Copy, Debug)]
pub struct BoxSpread {
    pub min: [u8; 3],
    pub max: [u8; 3],
    pub spread: f64,
}

impl PartialEq for BoxSpread {
    /// Spreads are held to each other bit for bit.
    fn eq(&self, other: &Self) -> bool {
        (self.min, self.max, self.spread.to_bits())
            == (other.min, other.max, other.spread.to_bits())
    }
}

/// All that the original says of one input, with how many rounds its loop has and what its means leave of its sums.
#[derive(Clone, Debug, PartialEq)]
pub struct Answer {
    pub moments: Vec<u64>,
    pub boxes: Vec<BoxSpread>,
    pub rounds: usize,
    pub palette: Vec<[u8; 3]>,
    pub counts: Vec<u32>,
    pub remainders: Vec<[u32; 3]>,
    pub map: Vec<u8>,
}

impl Answer {
    /// What has to come of the same table with all its numbers multiplied by 2^`power`: counts, remainders, spreads and
    /// moments are multiplied too, and all else stays.
    pub fn doubled(&self, power: usize) -> Self {
        let times = |n: u32| n * (1 << power);
        Self {
            moments: self.moments.iter().map(|n| n * (1 << power)).collect(),
            boxes: self
                .boxes
                .iter()
                .map(|&b| BoxSpread {
                    spread: b.spread * (1_u64 << power) as f64,
                    ..b
                })
                .collect(),
            counts: self.counts.iter().map(|&n| times(n)).collect(),
            remainders: self
                .remainders
                .iter()
                .map(|three| three.map(times))
                .collect(),
            ..self.clone()
        }
    }

    /// What a call answers that finds the same.
    pub fn of_call(&self) -> CutAnswer {
        CutAnswer {
            number: 0,
            boxes: self.boxes.len(),
            rounds: self.rounds,
        }
    }
}

/// What becomes of a frame: the index of each pixel, and the frame painted.
#[derive(Clone, Debug, PartialEq)]
pub struct Frame {
    pub indices: Vec<u8>,
    pub painted: Vec<[u8; 3]>,
}

/// All that the original says of one input and one frame, with its histogram before the moments are made.
#[derive(Clone, Debug)]
pub struct Told {
    pub table: Vec<u64>,
    pub answer: Answer,
    pub frame: Frame,
}

/// A whole input: colours with their weights.
#[derive(Clone, Debug, Default, PartialEq)]
pub struct Input {
    pub colors: Vec<[u8; 3]>,
    pub weights: Vec<u32>,
}

impl Input {
    pub fn total(&self) -> u64 {
        self.weights.iter().map(|&w| u64::from(w)).sum()
    }

    /// Each colour as often as its weight says.
    pub fn pixels(&self) -> Vec<[u8; 3]> {
        let pairs = self.colors.iter().zip(&self.weights);
        pairs
            .flat_map(|(&c, &w)| std::iter::repeat_n(c, w as usize))
            .collect()
    }
}

fn shift(size: usize) -> u32 {
    8 - size.ilog2()
}

/// How often the loop takes out the top. The original does not count it: the loop of the rules is run over its moments,
/// and has to end with its boxes.
fn rounds_of(grid: [usize; 3], moments: &[u64], k: PaletteSize, boxes: &[BoxSpread]) -> usize {
    let (again, rounds) = boxes_and_rounds(grid, moments, k.into());
    let again = again.iter().map(|x| BoxSpread {
        min: x.min.map(|bin| bin as u8),
        max: x.max.map(|bin| bin as u8),
        spread: x.spread,
    });
    assert!(again.eq(boxes.iter().copied()), "the loop of the rules");
    rounds
}

/// What one run of the original says, by all of its ways out, which have to agree; and what becomes of a frame.
fn of_run<const B1: usize, const B2: usize, const B3: usize>(
    run: &WuU8x3<[u8; 3], B1, B2, B3>,
    k: PaletteSize,
    frame: &[[u8; 3]],
) -> (Answer, Frame) {
    let boxes = run.boxes(k).into_iter().map(|b| BoxSpread {
        min: b.0.min,
        max: b.0.max,
        spread: b.1,
    });
    let (boxes, moments) = (boxes.collect::<Vec<_>>(), run.moments());
    let (color_map, counts) = run.color_map_and_counts(k);
    let palette = run.palette(k);
    assert!(run.palette_and_counts(k) == (palette.clone(), counts.clone()));
    assert!(*color_map.palette() == *palette);

    let mut map = Vec::with_capacity(B1 * B2 * B3);
    for r in 0..B1 {
        for g in 0..B2 {
            for b in 0..B3 {
                let color = [r << shift(B1), g << shift(B2), b << shift(B3)].map(|c| c as u8);
                map.push(color_map.palette_index(&color));
            }
        }
    }
    let answer = Answer {
        rounds: rounds_of([B1, B2, B3], &moments, k, &boxes),
        moments,
        boxes,
        palette: palette.to_vec(),
        counts: counts.to_vec(),
        remainders: run.remainders(k),
        map,
    };
    let indices = frame.iter().map(|c| color_map.palette_index(c)).collect();
    let mut painted = frame.to_vec();
    color_map.map_slice_in_place(&mut painted);
    (answer, Frame { indices, painted })
}

/// What the original makes of a whole input and a frame: with weights and, where it is asked to, also pixel by pixel,
/// and the two have to agree. There is nothing where the total is 0.
fn told<const B1: usize, const B2: usize, const B3: usize>(
    input: &Input,
    k: PaletteSize,
    by_pixels: bool,
    frame: &[[u8; 3]],
) -> Option<Told> {
    let binner = BinnerU8x3::<B1, B2, B3>::new();
    let counts = PaletteCounts::new(input.colors.clone(), input.weights.clone()).expect("counts");
    let with = of_run(&WuU8x3::run_palette_counts(&counts, binner)?, k, frame);
    if by_pixels {
        let run = WuU8x3::run_slice(&input.pixels(), binner).expect("pixels");
        assert!(of_run(&run, k, frame) == with, "with and without weights");
    }
    let table = WuU8x3::<_, B1, B2, B3>::table(&input.colors, &input.weights, counts.total_count());
    let (answer, frame) = with;
    Some(Told {
        table,
        answer,
        frame,
    })
}

/// What the original says of the histogram with the numbers of a table.
fn of_table<const B1: usize, const B2: usize, const B3: usize>(
    table: &[u64],
    k: PaletteSize,
) -> Answer {
    of_run(&WuU8x3::<_, B1, B2, B3>::of_table(table), k, &[]).0
}

/// The histogram and the answer, with weights and, where the total is not above `pixels`, without: the two have to
/// agree. There is none where the total is 0.
fn of_grid<const B1: usize, const B2: usize, const B3: usize>(
    input: &Input,
    k: PaletteSize,
    pixels: u64,
) -> Option<(Vec<u64>, Answer)> {
    let told = told::<B1, B2, B3>(input, k, input.total() <= pixels, &[])?;
    Some((told.table, told.answer))
}

/// The original at one grid.
#[derive(Clone, Copy)]
pub struct Original {
    pub of_grid: OfGrid,
    pub told: Tell,
    pub of_table: fn(&[u64], PaletteSize) -> Answer,
}

impl Original {
    fn at<const B1: usize, const B2: usize, const B3: usize>() -> Self {
        Self {
            of_grid: of_grid::<B1, B2, B3>,
            told: told::<B1, B2, B3>,
            of_table: of_table::<B1, B2, B3>,
        }
    }
}

pub type Tell = fn(&Input, PaletteSize, bool, &[[u8; 3]]) -> Option<Told>;
pub type OfGrid = fn(&Input, PaletteSize, u64) -> Option<(Vec<u64>, Answer)>;

/// The grids of the judge: all 343, where the package is built with `all-grids`.
#[cfg(feature = "all-grids")]
mod grids {
    use super::Original;

    macro_rules! by_size {
        ($size: expr, $function: ident $(, $earlier: ident)*) => {
            match $size {
                2 => $function::<$($earlier,)* 2>,
                4 => $function::<$($earlier,)* 4>,
                8 => $function::<$($earlier,)* 8>,
                16 => $function::<$($earlier,)* 16>,
                32 => $function::<$($earlier,)* 32>,
                64 => $function::<$($earlier,)* 64>,
                128 => $function::<$($earlier,)* 128>,
                _ => return None,
            }
        };
    }

    fn of_three<const B1: usize, const B2: usize, const B3: usize>() -> Original {
        Original::at::<B1, B2, B3>()
    }

    fn of_two<const B1: usize, const B2: usize>(b3: usize) -> Option<Original> {
        let with_three: fn() -> Original = by_size!(b3, of_three, B1, B2);
        Some(with_three())
    }

    fn of_one<const B1: usize>(b2: usize, b3: usize) -> Option<Original> {
        let with_two: fn(usize) -> Option<Original> = by_size!(b2, of_two, B1);
        with_two(b3)
    }

    /// The original at a grid, if its sizes are among the seven.
    pub fn original([b1, b2, b3]: [usize; 3]) -> Option<Original> {
        let with_one: fn(usize, usize) -> Option<Original> = by_size!(b1, of_one);
        with_one(b2, b3)
    }
}

/// The grids of the judge: a quick set with each of the seven sizes in each dimension.
#[cfg(not(feature = "all-grids"))]
mod grids {
    use super::Original;

    macro_rules! quick {
        ($($b1: literal $b2: literal $b3: literal,)*) => {
            /// The original at a grid, if it is one of the set.
            pub fn original(grid: [usize; 3]) -> Option<Original> {
                match grid {
                    $([$b1, $b2, $b3] => Some(Original::at::<$b1, $b2, $b3>()),)*
                    _ => None,
                }
            }
        };
    }

    quick! {
        2 2 2, 2 2 4, 2 4 2, 4 2 2, 2 4 8, 8 4 2, 4 4 4, 8 2 4, 4 8 8, 8 8 8, 16 4 8, 2 16 2,
        4 2 16, 2 2 32, 4 32 4, 32 2 8, 64 2 4, 2 64 2, 4 2 64, 128 2 2, 2 128 2, 2 2 128, 16 32 16,
    }
}

pub use grids::*;

/// The original's answer at a grid of the judge.
pub fn at_grid(grid: [usize; 3]) -> Option<OfGrid> {
    original(grid).map(|o| o.of_grid)
}

/// The grids of the judge that have at most so many bins.
pub fn grids(most: usize) -> Vec<[usize; 3]> {
    let sizes = [2, 4, 8, 16, 32, 64, 128];
    let all = (0..343).map(|i| [sizes[i / 49], sizes[i / 7 % 7], sizes[i % 7]]);
    all.filter(|g| g.iter().product::<usize>() <= most && original(*g).is_some())
        .collect()
}
