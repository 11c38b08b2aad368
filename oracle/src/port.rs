//! The calls of a port. The runner knows a port by these alone, so that another can stand in the library's place.

pub type Grid = [usize; 3];

/// What a cut is lent to write beside a work table: six bytes a box, and each spread as the bits of a double.
pub struct Lent<'a> {
    pub palette: &'a mut [u8],
    pub counts: &'a mut [u32],
    pub remainders: &'a mut [u32],
    pub map: &'a mut [u8],
    pub boxes: &'a mut [u8],
    pub spreads: &'a mut [u64],
}

/// A narrow table to read: weight and sums of each bin, and its squares apart.
#[derive(Clone, Copy)]
pub struct Narrow<'a> {
    pub sums: &'a [u32],
    pub squares: &'a [u64],
}

/// A narrow table to write.
pub struct NarrowMut<'a> {
    pub sums: &'a mut [u32],
    pub squares: &'a mut [u64],
}

/// A band of a frame: its first pixel and how many.
#[derive(Clone, Copy, Debug, Default, PartialEq, Eq)]
pub struct Band {
    pub first: usize,
    pub pixels: usize,
}

/// What a cut answers: its number, and how many boxes and rounds there are.
#[derive(Clone, Copy, Debug, PartialEq, Eq)]
pub struct CutAnswer {
    pub number: u8,
    pub boxes: usize,
    pub rounds: usize,
}

impl CutAnswer {
    /// "A refused cut hands back its answer, zero boxes, zero rounds"
    pub fn refused(number: u8) -> Self {
        Self {
            number,
            boxes: 0,
            rounds: 0,
        }
    }
}

/// What a replay reads: entries as numbers, and the colours and weights of all batches.
#[derive(Clone, Copy)]
pub struct Recorded<'a> {
    pub entries: &'a [u32],
    pub colours: &'a [u8],
    pub weights: &'a [u32],
}

/// Each call answers its number; a cut its boxes and rounds too, a comparison how many bins differ and the place of the
/// first that does, what begins, reloads and replays the interval then in force, and a header its width, its height and
/// the place of the first pixel.
pub trait Port {
    /// How many bins a grid has and how many numbers its table, or twice 0 where a size is refused.
    fn sizes(&self, grid: Grid) -> (usize, usize);

    fn load(
        &self,
        grid: Grid,
        table: &mut [u64],
        colours: &[u8],
        weighted: bool,
        weights: &[u32],
    ) -> u8;

    fn ppm_header(&self, file: &[u8]) -> (u8, [usize; 3]);

    fn load_ppm(&self, grid: Grid, table: &mut [u64], file: &[u8]) -> u8;

    fn merge(&self, grid: Grid, table: &mut [u64], second: &[u64]) -> u8;

    fn compare(
        &self,
        grid: Grid,
        first: &[u64],
        second: &[u64],
        differences: &mut [i64],
    ) -> (u8, usize, usize);

    fn rescue(&self, grid: Grid, table: &mut [u64], reasons: &mut [u8]) -> u8;

    fn begin(&self, interval: u32) -> (u8, u32);

    fn reload(&self, in_force: u32, interval: u32) -> (u8, u32);

    /// `intervals` are the one in force and the batch's own.
    fn batch(
        &self,
        intervals: [u32; 2],
        grid: Grid,
        table: &mut [u64],
        colours: &[u8],
        weighted: bool,
        weights: &[u32],
    ) -> u8;

    fn replay(
        &self,
        first: u32,
        grid: Grid,
        table: &mut [u64],
        recorded: Recorded<'_>,
        answers: &mut [u8],
    ) -> (u8, u32);

    fn cut(
        &self,
        grid: Grid,
        k: usize,
        table: &[u64],
        work: &mut [u64],
        lent: Lent<'_>,
    ) -> CutAnswer;

    /// A cut without a work table.
    fn cut_slowly(&self, grid: Grid, k: usize, table: &[u64], lent: Lent<'_>) -> CutAnswer;

    fn narrow_load(
        &self,
        grid: Grid,
        table: NarrowMut<'_>,
        colours: &[u8],
        weighted: bool,
        weights: &[u32],
    ) -> u8;

    fn narrow_merge(&self, grid: Grid, table: NarrowMut<'_>, second: Narrow<'_>) -> u8;

    fn narrow_cut(
        &self,
        grid: Grid,
        k: usize,
        table: Narrow<'_>,
        work: NarrowMut<'_>,
        lent: Lent<'_>,
    ) -> CutAnswer;

    fn narrow_cut_slowly(
        &self,
        grid: Grid,
        k: usize,
        table: Narrow<'_>,
        lent: Lent<'_>,
    ) -> CutAnswer;

    /// The wide table of a narrow one.
    fn widen(&self, grid: Grid, table: Narrow<'_>, wide: &mut [u64]) -> u8;

    fn map(
        &self,
        grid: Grid,
        map: &[u8],
        colours: usize,
        frame: &[u8],
        indices: &mut [u8],
        band: Band,
    ) -> u8;

    fn paint(&self, grid: Grid, map: &[u8], palette: &[u8], frame: &mut [u8], band: Band) -> u8;

    fn nearest(&self, palette: &[u8], answers: &mut [u8]) -> u8;
}
