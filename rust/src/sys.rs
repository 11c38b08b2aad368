//! The calls of the archive, each behind a function on slices. No other module has `unsafe`.
//!
//! `include/seluvava.h` asks three things of a caller, and slices give each of them:
//!
//! - A pointer is aligned for its type and has that many elements behind it: it goes with the length of its slice. An
//!   empty slice's pointer is not looked at.
//! - No buffer that is not const overlaps another one lent to the same call: it is lent by `&mut`, and no other
//!   reference points there. Const ones are lent by `&`; they may overlap each other.
//! - Nobody else writes to a buffer, or reads one that is not const, before the call returns: so long lasts the borrow.
use crate::{Grid, Refused, ppm};
use seluvava_sys::{
    CutAnswer, Session, SessionAnswer, seluvava_batch, seluvava_begin, seluvava_bins,
    seluvava_compare, seluvava_cut, seluvava_cut_slowly, seluvava_load, seluvava_load_ppm,
    seluvava_map, seluvava_merge, seluvava_narrow_cut, seluvava_narrow_cut_slowly,
    seluvava_narrow_load, seluvava_narrow_merge, seluvava_nearest, seluvava_paint,
    seluvava_ppm_header, seluvava_reload, seluvava_replay, seluvava_rescue, seluvava_table_len,
    seluvava_version, seluvava_widen,
};

/// The version of the archive.
pub fn version() -> u32 {
    // SAFETY: nothing is lent.
    unsafe { seluvava_version() }
}

/// The bins of a grid, or 0 where it is refused.
pub fn bins([b1, b2, b3]: [usize; 3]) -> usize {
    // SAFETY: nothing is lent.
    unsafe { seluvava_bins(b1, b2, b3) }
}

/// The numbers of a table, or 0 where its grid is refused.
pub fn numbers([b1, b2, b3]: [usize; 3]) -> usize {
    // SAFETY: nothing is lent.
    unsafe { seluvava_table_len(b1, b2, b3) }
}

/// Adds a batch of colours to a table, with weights where they are given.
pub fn load(
    grid: Grid,
    table: &mut [u64],
    colours: &[u8],
    weights: Option<&[u32]>,
) -> Result<(), Refused> {
    let [b1, b2, b3] = grid.sizes();
    let weighted = weights.is_some();
    let weights = weights.unwrap_or_default();
    // SAFETY: pointers and lengths are those of slices, and `table` is the only one that is written.
    let number = unsafe {
        seluvava_load(
            b1,
            b2,
            b3,
            table.as_mut_ptr(),
            table.len(),
            colours.as_ptr(),
            colours.len(),
            weighted,
            weights.as_ptr(),
            weights.len(),
        )
    };
    Refused::unless_done(number)
}

/// Reads the header of a PPM.
pub fn ppm_header(file: &[u8]) -> Result<ppm::Header, Refused> {
    // SAFETY: pointer and length are those of a slice, and nothing is written.
    let answer = unsafe { seluvava_ppm_header(file.as_ptr(), file.len()) };
    Refused::unless_done(answer.number)?;
    Ok(ppm::Header {
        width: answer.width,
        height: answer.height,
        pixels: answer.pixels,
    })
}

/// Adds the pixels of a PPM to a table.
pub fn load_ppm(grid: Grid, table: &mut [u64], file: &[u8]) -> Result<(), Refused> {
    let [b1, b2, b3] = grid.sizes();
    // SAFETY: pointers and lengths are those of slices, and `table` is the only one that is written.
    let number = unsafe {
        seluvava_load_ppm(
            b1,
            b2,
            b3,
            table.as_mut_ptr(),
            table.len(),
            file.as_ptr(),
            file.len(),
        )
    };
    Refused::unless_done(number)
}

/// Adds a second table into a first.
pub fn merge(grid: Grid, table: &mut [u64], second: &[u64]) -> Result<(), Refused> {
    let [b1, b2, b3] = grid.sizes();
    // SAFETY: pointers and lengths are those of slices, and `table` is the only one that is written.
    let number = unsafe {
        seluvava_merge(
            b1,
            b2,
            b3,
            table.as_mut_ptr(),
            table.len(),
            second.as_ptr(),
            second.len(),
        )
    };
    Refused::unless_done(number)
}

/// Writes the differences of two tables, and answers how many bins differ and the place of the first that does.
pub fn compare(
    grid: Grid,
    first: &[u64],
    second: &[u64],
    differences: &mut [i64],
) -> Result<(usize, usize), Refused> {
    let [b1, b2, b3] = grid.sizes();
    // SAFETY: pointers and lengths are those of slices, and `differences` is the only one that is written.
    let answer = unsafe {
        seluvava_compare(
            b1,
            b2,
            b3,
            first.as_ptr(),
            first.len(),
            second.as_ptr(),
            second.len(),
            differences.as_mut_ptr(),
            differences.len(),
        )
    };
    Refused::unless_done(answer.number)?;
    Ok((answer.differ, answer.first))
}

/// Clears what keeps a table from being sound, and writes the reason of each bin.
pub fn rescue(grid: Grid, table: &mut [u64], reasons: &mut [u8]) -> Result<(), Refused> {
    let [b1, b2, b3] = grid.sizes();
    // SAFETY: pointers and lengths are those of slices; both are written, each lent by a `&mut` of its own.
    let number = unsafe {
        seluvava_rescue(
            b1,
            b2,
            b3,
            table.as_mut_ptr(),
            table.len(),
            reasons.as_mut_ptr(),
            reasons.len(),
        )
    };
    Refused::unless_done(number)
}

/// The interval in force of a session that was not refused.
fn in_force(answer: SessionAnswer) -> Result<u32, Refused> {
    Refused::unless_done(answer.number)?;
    Ok(answer.session.interval)
}

/// Begins a session; the interval then in force.
pub fn begin(interval: u32) -> Result<u32, Refused> {
    // SAFETY: nothing is lent.
    in_force(unsafe { seluvava_begin(interval) })
}

/// Reloads a session; the interval then in force.
pub fn reload(session: u32, interval: u32) -> Result<u32, Refused> {
    // SAFETY: nothing is lent.
    in_force(unsafe { seluvava_reload(Session { interval: session }, interval) })
}

/// Adds a batch that was sampled at an interval, with weights where they are given.
pub fn batch(
    session: u32,
    interval: u32,
    grid: Grid,
    table: &mut [u64],
    colours: &[u8],
    weights: Option<&[u32]>,
) -> Result<(), Refused> {
    let [b1, b2, b3] = grid.sizes();
    let weighted = weights.is_some();
    let weights = weights.unwrap_or_default();
    // SAFETY: pointers and lengths are those of slices, and `table` is the only one that is written.
    let number = unsafe {
        seluvava_batch(
            Session { interval: session },
            interval,
            b1,
            b2,
            b3,
            table.as_mut_ptr(),
            table.len(),
            colours.as_ptr(),
            colours.len(),
            weighted,
            weights.as_ptr(),
            weights.len(),
        )
    };
    Refused::unless_done(number)
}

/// What a replay reads.
pub struct Recorded<'a> {
    pub entries: &'a [u32],
    pub colours: &'a [u8],
    pub weights: &'a [u32],
}

/// Replays a recorded list; the interval then in force.
pub fn replay(
    first: u32,
    grid: Grid,
    table: &mut [u64],
    recorded: &Recorded<'_>,
    answers: &mut [u8],
) -> Result<u32, Refused> {
    let [b1, b2, b3] = grid.sizes();
    let Recorded {
        entries,
        colours,
        weights,
    } = *recorded;
    // SAFETY: pointers and lengths are those of slices; `table` and `answers` are written, each lent by a `&mut` of its
    // own.
    in_force(unsafe {
        seluvava_replay(
            first,
            b1,
            b2,
            b3,
            table.as_mut_ptr(),
            table.len(),
            entries.as_ptr(),
            entries.len(),
            colours.as_ptr(),
            colours.len(),
            weights.as_ptr(),
            weights.len(),
            answers.as_mut_ptr(),
            answers.len(),
        )
    })
}

/// What a cut writes, beside a work table.
pub struct Lent<'a> {
    pub palette: &'a mut [[u8; 3]],
    pub counts: &'a mut [u32],
    pub remainders: &'a mut [[u32; 3]],
    pub map: &'a mut [u8],
    /// Of each box the first bin and the end of its bins, for red, green and blue.
    pub boxes: &'a mut [[u8; 6]],
    pub spreads: &'a mut [f64],
}

/// How many boxes and rounds a cut has that is done.
pub struct Done {
    pub boxes: usize,
    pub rounds: usize,
}

/// The boxes and rounds of a cut that was not refused.
fn done(answer: CutAnswer) -> Result<Done, Refused> {
    Refused::unless_done(answer.number)?;
    Ok(Done {
        boxes: answer.boxes,
        rounds: answer.rounds,
    })
}

/// Makes the call of a cut. After k stand the slices that it reads and works in, and what every cut writes comes last.
macro_rules! cut_by {
    ($call: ident, $grid: ident, $k: ident, $lent: ident, $($read: ident),*; $($written: ident),*) => {{
        let [b1, b2, b3] = $grid.sizes();
        let palette = $lent.palette.as_flattened_mut();
        let remainders = $lent.remainders.as_flattened_mut();
        let boxes = $lent.boxes.as_flattened_mut();
        // SAFETY: pointers and lengths are those of slices; what is read is not written, and each slice that is written
        // is borrowed mutably.
        done(unsafe {
            $call(
                b1,
                b2,
                b3,
                $k,
                $($read.as_ptr(), $read.len(),)*
                $($written.as_mut_ptr(), $written.len(),)*
                palette.as_mut_ptr(),
                palette.len(),
                $lent.counts.as_mut_ptr(),
                $lent.counts.len(),
                remainders.as_mut_ptr(),
                remainders.len(),
                $lent.map.as_mut_ptr(),
                $lent.map.len(),
                boxes.as_mut_ptr(),
                boxes.len(),
                $lent.spreads.as_mut_ptr(),
                $lent.spreads.len(),
            )
        })
    }};
}

/// Cuts a table into at most k boxes.
pub fn cut(
    grid: Grid,
    k: usize,
    table: &[u64],
    work: &mut [u64],
    lent: Lent<'_>,
) -> Result<Done, Refused> {
    cut_by!(seluvava_cut, grid, k, lent, table; work)
}

/// Cuts a table into at most k boxes, without a work table.
pub fn cut_slowly(grid: Grid, k: usize, table: &[u64], lent: Lent<'_>) -> Result<Done, Refused> {
    cut_by!(seluvava_cut_slowly, grid, k, lent, table;)
}

/// A narrow table: weight and sums of each bin, and its squares apart.
#[derive(Clone, Copy)]
pub struct Narrow<'a> {
    pub sums: &'a [u32],
    pub squares: &'a [u64],
}

/// A narrow table that is written.
pub struct NarrowMut<'a> {
    pub sums: &'a mut [u32],
    pub squares: &'a mut [u64],
}

/// Adds a batch of colours to a narrow table, with weights where they are given.
pub fn narrow_load(
    grid: Grid,
    NarrowMut { sums, squares }: NarrowMut<'_>,
    colours: &[u8],
    weights: Option<&[u32]>,
) -> Result<(), Refused> {
    let [b1, b2, b3] = grid.sizes();
    let weighted = weights.is_some();
    let weights = weights.unwrap_or_default();
    // SAFETY: pointers and lengths are those of slices; `sums` and `squares` are written, each lent by a `&mut` of its
    // own.
    let number = unsafe {
        seluvava_narrow_load(
            b1,
            b2,
            b3,
            sums.as_mut_ptr(),
            sums.len(),
            squares.as_mut_ptr(),
            squares.len(),
            colours.as_ptr(),
            colours.len(),
            weighted,
            weights.as_ptr(),
            weights.len(),
        )
    };
    Refused::unless_done(number)
}

/// Adds a second narrow table into a first.
pub fn narrow_merge(
    grid: Grid,
    NarrowMut { sums, squares }: NarrowMut<'_>,
    second: Narrow<'_>,
) -> Result<(), Refused> {
    let [b1, b2, b3] = grid.sizes();
    // SAFETY: pointers and lengths are those of slices; `sums` and `squares` are written, each lent by a `&mut` of its
    // own.
    let number = unsafe {
        seluvava_narrow_merge(
            b1,
            b2,
            b3,
            sums.as_mut_ptr(),
            sums.len(),
            squares.as_mut_ptr(),
            squares.len(),
            second.sums.as_ptr(),
            second.sums.len(),
            second.squares.as_ptr(),
            second.squares.len(),
        )
    };
    Refused::unless_done(number)
}

/// Cuts a narrow table into at most k boxes.
pub fn narrow_cut(
    grid: Grid,
    k: usize,
    Narrow { sums, squares }: Narrow<'_>,
    work: NarrowMut<'_>,
    lent: Lent<'_>,
) -> Result<Done, Refused> {
    let (work_sums, work_squares) = (work.sums, work.squares);
    cut_by!(seluvava_narrow_cut, grid, k, lent, sums, squares; work_sums, work_squares)
}

/// Cuts a narrow table into at most k boxes, without a work table.
pub fn narrow_cut_slowly(
    grid: Grid,
    k: usize,
    Narrow { sums, squares }: Narrow<'_>,
    lent: Lent<'_>,
) -> Result<Done, Refused> {
    cut_by!(seluvava_narrow_cut_slowly, grid, k, lent, sums, squares;)
}

/// Writes the wide table of a narrow one.
pub fn widen(
    grid: Grid,
    Narrow { sums, squares }: Narrow<'_>,
    table: &mut [u64],
) -> Result<(), Refused> {
    let [b1, b2, b3] = grid.sizes();
    // SAFETY: pointers and lengths are those of slices, and `table` is the only one that is written.
    let number = unsafe {
        seluvava_widen(
            b1,
            b2,
            b3,
            sums.as_ptr(),
            sums.len(),
            squares.as_ptr(),
            squares.len(),
            table.as_mut_ptr(),
            table.len(),
        )
    };
    Refused::unless_done(number)
}

/// Pixels of a frame that follow each other.
pub struct Band {
    pub first: usize,
    pub pixels: usize,
}

/// Writes the index of each pixel of a band into the same band of the index buffer.
pub fn map(
    grid: Grid,
    map: &[u8],
    palette_colours: usize,
    frame: &[u8],
    indices: &mut [u8],
    band: Band,
) -> Result<(), Refused> {
    let [b1, b2, b3] = grid.sizes();
    // SAFETY: pointers and lengths are those of slices, and `indices` is the only one that is written.
    let number = unsafe {
        seluvava_map(
            b1,
            b2,
            b3,
            map.as_ptr(),
            map.len(),
            palette_colours,
            frame.as_ptr(),
            frame.len(),
            indices.as_mut_ptr(),
            indices.len(),
            band.first,
            band.pixels,
        )
    };
    Refused::unless_done(number)
}

/// Writes the palette's colour at each pixel's index in the place of the pixel, for a band.
pub fn paint(
    grid: Grid,
    map: &[u8],
    palette: &[[u8; 3]],
    frame: &mut [u8],
    band: Band,
) -> Result<(), Refused> {
    let [b1, b2, b3] = grid.sizes();
    let palette = palette.as_flattened();
    // SAFETY: pointers and lengths are those of slices, and `frame` is the only one that is written.
    let number = unsafe {
        seluvava_paint(
            b1,
            b2,
            b3,
            map.as_ptr(),
            map.len(),
            palette.as_ptr(),
            palette.len(),
            frame.as_mut_ptr(),
            frame.len(),
            band.first,
            band.pixels,
        )
    };
    Refused::unless_done(number)
}

/// Writes the number of the terminal's nearest colour for each colour of a palette.
pub fn nearest(palette: &[[u8; 3]], answers: &mut [u8]) -> Result<(), Refused> {
    let palette = palette.as_flattened();
    // SAFETY: pointers and lengths are those of slices, and `answers` is the only one that is written.
    let number = unsafe {
        seluvava_nearest(
            palette.as_ptr(),
            palette.len(),
            answers.as_mut_ptr(),
            answers.len(),
        )
    };
    Refused::unless_done(number)
}
