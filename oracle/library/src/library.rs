//! The port: the exported calls of the static library.
use oracle::port::{Band, CutAnswer, Grid, Lent, Narrow, NarrowMut, Port, Recorded};
use seluvava_sys::{
    CutAnswer as Answer, Session, SessionAnswer, seluvava_batch, seluvava_begin, seluvava_bins,
    seluvava_compare, seluvava_cut, seluvava_cut_slowly, seluvava_load, seluvava_load_ppm,
    seluvava_map, seluvava_merge, seluvava_narrow_cut, seluvava_narrow_cut_slowly,
    seluvava_narrow_load, seluvava_narrow_merge, seluvava_nearest, seluvava_paint,
    seluvava_ppm_header, seluvava_reload, seluvava_replay, seluvava_rescue, seluvava_table_len,
    seluvava_widen,
};
use std::ptr;

/// Where a list starts. An empty one is handed on as a caller in C may have it: as NULL.
fn start<T>(list: &[T]) -> *const T {
    if list.is_empty() {
        ptr::null()
    } else {
        list.as_ptr()
    }
}

fn start_mut<T>(list: &mut [T]) -> *mut T {
    if list.is_empty() {
        ptr::null_mut()
    } else {
        list.as_mut_ptr()
    }
}

fn told(answer: SessionAnswer) -> (u8, u32) {
    (answer.number, answer.session.interval)
}

fn cut_told(answer: Answer) -> CutAnswer {
    CutAnswer {
        number: answer.number,
        boxes: answer.boxes,
        rounds: answer.rounds,
    }
}

/// Makes the call of a cut: after k stand the lists that it reads and works in, and what every cut writes comes last.
macro_rules! cut_by {
    ($call: ident, $grid: ident, $k: ident, $lent: ident, $($read: expr),*; $($written: expr),*) => {{
        let [b1, b2, b3] = $grid;
        cut_told(unsafe {
            $call(
                b1,
                b2,
                b3,
                $k,
                $(start($read), $read.len(),)*
                $(start_mut($written), $written.len(),)*
                start_mut($lent.palette),
                $lent.palette.len(),
                start_mut($lent.counts),
                $lent.counts.len(),
                start_mut($lent.remainders),
                $lent.remainders.len(),
                start_mut($lent.map),
                $lent.map.len(),
                start_mut($lent.boxes),
                $lent.boxes.len(),
                start_mut($lent.spreads).cast(),
                $lent.spreads.len(),
            )
        })
    }};
}

pub struct Library;

// Each pointer goes with the length of its list, and no two lists overlap.
impl Port for Library {
    fn sizes(&self, [b1, b2, b3]: Grid) -> (usize, usize) {
        unsafe { (seluvava_bins(b1, b2, b3), seluvava_table_len(b1, b2, b3)) }
    }

    fn load(
        &self,
        [b1, b2, b3]: Grid,
        table: &mut [u64],
        colours: &[u8],
        weighted: bool,
        weights: &[u32],
    ) -> u8 {
        unsafe {
            seluvava_load(
                b1,
                b2,
                b3,
                start_mut(table),
                table.len(),
                start(colours),
                colours.len(),
                weighted,
                start(weights),
                weights.len(),
            )
        }
    }

    fn ppm_header(&self, file: &[u8]) -> (u8, [usize; 3]) {
        let answer = unsafe { seluvava_ppm_header(start(file), file.len()) };
        (answer.number, [answer.width, answer.height, answer.pixels])
    }

    fn load_ppm(&self, [b1, b2, b3]: Grid, table: &mut [u64], file: &[u8]) -> u8 {
        unsafe {
            seluvava_load_ppm(
                b1,
                b2,
                b3,
                start_mut(table),
                table.len(),
                start(file),
                file.len(),
            )
        }
    }

    fn merge(&self, [b1, b2, b3]: Grid, table: &mut [u64], second: &[u64]) -> u8 {
        unsafe {
            seluvava_merge(
                b1,
                b2,
                b3,
                start_mut(table),
                table.len(),
                start(second),
                second.len(),
            )
        }
    }

    fn compare(
        &self,
        [b1, b2, b3]: Grid,
        first: &[u64],
        second: &[u64],
        differences: &mut [i64],
    ) -> (u8, usize, usize) {
        let answer = unsafe {
            seluvava_compare(
                b1,
                b2,
                b3,
                start(first),
                first.len(),
                start(second),
                second.len(),
                start_mut(differences),
                differences.len(),
            )
        };
        (answer.number, answer.differ, answer.first)
    }

    fn rescue(&self, [b1, b2, b3]: Grid, table: &mut [u64], reasons: &mut [u8]) -> u8 {
        unsafe {
            seluvava_rescue(
                b1,
                b2,
                b3,
                start_mut(table),
                table.len(),
                start_mut(reasons),
                reasons.len(),
            )
        }
    }

    fn begin(&self, interval: u32) -> (u8, u32) {
        told(unsafe { seluvava_begin(interval) })
    }

    fn reload(&self, in_force: u32, interval: u32) -> (u8, u32) {
        told(unsafe { seluvava_reload(Session { interval: in_force }, interval) })
    }

    fn batch(
        &self,
        [in_force, interval]: [u32; 2],
        [b1, b2, b3]: Grid,
        table: &mut [u64],
        colours: &[u8],
        weighted: bool,
        weights: &[u32],
    ) -> u8 {
        unsafe {
            seluvava_batch(
                Session { interval: in_force },
                interval,
                b1,
                b2,
                b3,
                start_mut(table),
                table.len(),
                start(colours),
                colours.len(),
                weighted,
                start(weights),
                weights.len(),
            )
        }
    }

    fn replay(
        &self,
        first: u32,
        [b1, b2, b3]: Grid,
        table: &mut [u64],
        recorded: Recorded<'_>,
        answers: &mut [u8],
    ) -> (u8, u32) {
        let Recorded {
            entries,
            colours,
            weights,
        } = recorded;
        told(unsafe {
            seluvava_replay(
                first,
                b1,
                b2,
                b3,
                start_mut(table),
                table.len(),
                start(entries),
                entries.len(),
                start(colours),
                colours.len(),
                start(weights),
                weights.len(),
                start_mut(answers),
                answers.len(),
            )
        })
    }

    fn cut(
        &self,
        grid: Grid,
        k: usize,
        table: &[u64],
        work: &mut [u64],
        lent: Lent<'_>,
    ) -> CutAnswer {
        cut_by!(seluvava_cut, grid, k, lent, table; work)
    }

    fn cut_slowly(&self, grid: Grid, k: usize, table: &[u64], lent: Lent<'_>) -> CutAnswer {
        cut_by!(seluvava_cut_slowly, grid, k, lent, table;)
    }

    fn narrow_load(
        &self,
        [b1, b2, b3]: Grid,
        table: NarrowMut<'_>,
        colours: &[u8],
        weighted: bool,
        weights: &[u32],
    ) -> u8 {
        unsafe {
            seluvava_narrow_load(
                b1,
                b2,
                b3,
                start_mut(table.sums),
                table.sums.len(),
                start_mut(table.squares),
                table.squares.len(),
                start(colours),
                colours.len(),
                weighted,
                start(weights),
                weights.len(),
            )
        }
    }

    fn narrow_merge(&self, [b1, b2, b3]: Grid, table: NarrowMut<'_>, second: Narrow<'_>) -> u8 {
        unsafe {
            seluvava_narrow_merge(
                b1,
                b2,
                b3,
                start_mut(table.sums),
                table.sums.len(),
                start_mut(table.squares),
                table.squares.len(),
                start(second.sums),
                second.sums.len(),
                start(second.squares),
                second.squares.len(),
            )
        }
    }

    fn narrow_cut(
        &self,
        grid: Grid,
        k: usize,
        table: Narrow<'_>,
        work: NarrowMut<'_>,
        lent: Lent<'_>,
    ) -> CutAnswer {
        cut_by!(seluvava_narrow_cut, grid, k, lent, table.sums, table.squares; work.sums, work.squares)
    }

    fn narrow_cut_slowly(
        &self,
        grid: Grid,
        k: usize,
        table: Narrow<'_>,
        lent: Lent<'_>,
    ) -> CutAnswer {
        cut_by!(seluvava_narrow_cut_slowly, grid, k, lent, table.sums, table.squares;)
    }

    fn widen(&self, [b1, b2, b3]: Grid, table: Narrow<'_>, wide: &mut [u64]) -> u8 {
        unsafe {
            seluvava_widen(
                b1,
                b2,
                b3,
                start(table.sums),
                table.sums.len(),
                start(table.squares),
                table.squares.len(),
                start_mut(wide),
                wide.len(),
            )
        }
    }

    fn map(
        &self,
        [b1, b2, b3]: Grid,
        map: &[u8],
        colours: usize,
        frame: &[u8],
        indices: &mut [u8],
        band: Band,
    ) -> u8 {
        unsafe {
            seluvava_map(
                b1,
                b2,
                b3,
                start(map),
                map.len(),
                colours,
                start(frame),
                frame.len(),
                start_mut(indices),
                indices.len(),
                band.first,
                band.pixels,
            )
        }
    }

    fn paint(
        &self,
        [b1, b2, b3]: Grid,
        map: &[u8],
        palette: &[u8],
        frame: &mut [u8],
        band: Band,
    ) -> u8 {
        unsafe {
            seluvava_paint(
                b1,
                b2,
                b3,
                start(map),
                map.len(),
                start(palette),
                palette.len(),
                start_mut(frame),
                frame.len(),
                band.first,
                band.pixels,
            )
        }
    }

    fn nearest(&self, palette: &[u8], answers: &mut [u8]) -> u8 {
        unsafe {
            seluvava_nearest(
                start(palette),
                palette.len(),
                start_mut(answers),
                answers.len(),
            )
        }
    }
}
