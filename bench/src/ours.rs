//! Our side: the calls of the archive, on tables that stay from run to run.
use crate::{
    narrow::{Narrow, Table},
    ppm::Ppm,
    recording::Recording,
    rescue::Rescue,
    side::{Answer, Lent, MOST, Operation, Side, Sizes, touch},
    terminal::Terminal,
};
use seluvava_sys::{
    CutAnswer, seluvava_bins, seluvava_compare, seluvava_cut, seluvava_cut_slowly, seluvava_load,
    seluvava_map, seluvava_merge, seluvava_narrow_cut, seluvava_paint, seluvava_table_len,
};

/// Adds a frame to a table, with weights where any are given.
pub fn load([b1, b2, b3]: Sizes, table: &mut [u64], frame: &[[u8; 3]], weights: Option<&[u32]>) {
    let colours = frame.as_flattened();
    let given = weights.unwrap_or_default();
    let number = unsafe {
        seluvava_load(
            b1,
            b2,
            b3,
            table.as_mut_ptr(),
            table.len(),
            colours.as_ptr(),
            colours.len(),
            weights.is_some(),
            given.as_ptr(),
            given.len(),
        )
    };
    assert_eq!(number, 0, "load");
}

pub fn merge([b1, b2, b3]: Sizes, table: &mut [u64], second: &[u64]) {
    let number = unsafe {
        seluvava_merge(
            b1,
            b2,
            b3,
            table.as_mut_ptr(),
            table.len(),
            second.as_ptr(),
            second.len(),
        )
    };
    assert_eq!(number, 0, "merge");
}

/// Writes the differences of two tables; how many bins differ, and the place of the first that does.
fn compare(
    [b1, b2, b3]: Sizes,
    first: &[u64],
    second: &[u64],
    differences: &mut [i64],
) -> (usize, usize) {
    let answer = unsafe {
        seluvava_compare(
            b1,
            b2,
            b3,
            first.as_ptr(),
            first.len(),
            second.as_ptr(),
            second.len(),
            differences.as_mut_ptr(),
            differences.len(),
        )
    };
    assert_eq!(answer.number, 0, "compare");
    (answer.differ, answer.first)
}

/// Makes the call of a cut. After k stand the lists that it reads and works in, and what every cut writes comes last.
macro_rules! cut_by {
    ($call: ident, $cut: ident, $sizes: ident, $k: ident, $($read: ident),*; $($written: ident),*) => {{
        let [b1, b2, b3] = $sizes;
        let answer = unsafe {
            $call(
                b1,
                b2,
                b3,
                $k,
                $($read.as_ptr(), $read.len(),)*
                $($written.as_mut_ptr(), $written.len(),)*
                $cut.palette.as_mut_ptr(),
                $cut.palette.len(),
                $cut.counts.as_mut_ptr(),
                $cut.counts.len(),
                $cut.remainders.as_mut_ptr(),
                $cut.remainders.len(),
                $cut.map.as_mut_ptr(),
                $cut.map.len(),
                $cut.boxes.as_mut_ptr(),
                $cut.boxes.len(),
                $cut.spreads.as_mut_ptr(),
                $cut.spreads.len(),
            )
        };
        $cut.done(answer);
    }};
}

/// What a cut writes.
#[derive(Default)]
pub struct Cut {
    work: Vec<u64>,
    palette: Vec<u8>,
    counts: Vec<u32>,
    remainders: Vec<u32>,
    map: Vec<u8>,
    boxes: Vec<u8>,
    spreads: Vec<f64>,
    found: usize,
    rounds: usize,
}

impl Cut {
    pub fn new([b1, b2, b3]: Sizes) -> Self {
        let (numbers, bins) =
            unsafe { (seluvava_table_len(b1, b2, b3), seluvava_bins(b1, b2, b3)) };
        Self {
            work: vec![0; numbers],
            palette: vec![0; 3 * MOST],
            counts: vec![0; MOST],
            remainders: vec![0; 3 * MOST],
            map: vec![0; bins],
            boxes: vec![0; 6 * MOST],
            spreads: vec![0.0; MOST],
            found: 0,
            rounds: 0,
        }
    }

    /// Something wrong in every place.
    pub fn reset(&mut self) {
        self.work.fill(u64::MAX);
        self.palette.fill(0xa5);
        self.counts.fill(u32::MAX);
        self.remainders.fill(u32::MAX);
        self.map.fill(0xa5);
        self.boxes.fill(0xa5);
        self.spreads.fill(-1.0);
        (self.found, self.rounds) = (0, 0);
    }

    fn done(&mut self, answer: CutAnswer) {
        assert_eq!(answer.number, 0, "cut");
        (self.found, self.rounds) = (answer.boxes, answer.rounds);
    }

    pub fn run(&mut self, sizes: Sizes, k: usize, table: &[u64]) {
        let work = &mut self.work;
        cut_by!(seluvava_cut, self, sizes, k, table; work);
    }

    fn run_slowly(&mut self, sizes: Sizes, k: usize, table: &[u64]) {
        cut_by!(seluvava_cut_slowly, self, sizes, k, table;);
    }

    /// Cuts a narrow table, with a narrow work table.
    pub fn run_narrow(&mut self, sizes: Sizes, k: usize, table: &Table, work: &mut Table) {
        let (sums, squares) = (&table.sums, &table.squares);
        let (work_sums, work_squares) = (&mut work.sums, &mut work.squares);
        cut_by!(seluvava_narrow_cut, self, sizes, k, sums, squares; work_sums, work_squares);
    }

    /// The moments that a cut has left.
    #[cfg(feature = "original")]
    pub fn moments(&self) -> &[u64] {
        &self.work
    }

    /// Adds what the original's cut tells too: counts, palette and map.
    pub fn answer_original(&self, answer: &mut Answer) {
        let counts = &self.counts[..self.found];
        answer.numbers.extend(counts.iter().map(|&n| u64::from(n)));
        answer.bytes.extend(self.colours());
        answer.bytes.extend(&self.map);
    }

    /// Adds all that was told and written but for the work table, also past the boxes.
    pub fn answer(&self, answer: &mut Answer) {
        let words = [&self.counts, &self.remainders].into_iter().flatten();
        answer
            .numbers
            .extend([self.found, self.rounds].map(|n| n as u64));
        answer.numbers.extend(words.map(|&n| u64::from(n)));
        answer
            .numbers
            .extend(self.spreads.iter().map(|s| s.to_bits()));
        let bytes = [&self.palette, &self.boxes, &self.map];
        answer.bytes.extend(bytes.into_iter().flatten());
    }

    fn map(&self, [b1, b2, b3]: Sizes, lent: &mut Lent) {
        let frame = lent.frame.as_flattened();
        let number = unsafe {
            seluvava_map(
                b1,
                b2,
                b3,
                self.map.as_ptr(),
                self.map.len(),
                self.found,
                frame.as_ptr(),
                frame.len(),
                lent.indices.as_mut_ptr(),
                lent.indices.len(),
                0,
                lent.indices.len(),
            )
        };
        assert_eq!(number, 0, "map");
    }

    fn paint(&self, [b1, b2, b3]: Sizes, lent: &mut Lent) {
        let palette = self.colours();
        let frame = lent.painted.as_flattened_mut();
        let number = unsafe {
            seluvava_paint(
                b1,
                b2,
                b3,
                self.map.as_ptr(),
                self.map.len(),
                palette.as_ptr(),
                palette.len(),
                frame.as_mut_ptr(),
                frame.len(),
                0,
                lent.indices.len(),
            )
        };
        assert_eq!(number, 0, "paint");
    }

    fn colours(&self) -> &[u8] {
        &self.palette[..3 * self.found]
    }
}

pub struct Ours {
    sizes: Sizes,
    /// What loads and merges write.
    table: Vec<u64>,
    /// What is cut: the frame's table.
    loaded: Vec<u64>,
    /// What is merged into that, or compared with it: the table of the frame with weights.
    second: Vec<u64>,
    differences: Vec<i64>,
    told: (usize, usize),
    rescue: Rescue,
    recording: Recording,
    ppm: Ppm,
    terminal: Terminal,
    narrow: Narrow,
    cut: Cut,
    /// What maps and paints read.
    kept: Cut,
}

impl Ours {
    pub fn new(sizes: Sizes, lent: &Lent) -> Self {
        let mut kept = Cut::new(sizes);
        let mut loaded = vec![0; kept.work.len()];
        let mut second = loaded.clone();
        load(sizes, &mut loaded, &lent.frame, None);
        load(sizes, &mut second, &lent.frame, Some(&lent.weights));
        kept.run(sizes, MOST, &loaded);
        let (table, cut) = (loaded.clone(), Cut::new(sizes));
        Self {
            sizes,
            table,
            differences: vec![0; loaded.len()],
            told: (0, 0),
            rescue: Rescue::new(sizes, loaded.clone()),
            recording: Recording::new(),
            ppm: Ppm::new(&lent.frame),
            terminal: Terminal::new(&lent.frame),
            narrow: Narrow::new(sizes, lent),
            loaded,
            second,
            cut,
            kept,
        }
    }

    /// Drops a table and a cut, then makes others, as a caller does who keeps none. What is dropped is of the run
    /// before, since what a run has left is compared after it.
    fn make_anew(&mut self) {
        let numbers = self.table.len();
        (self.table, self.cut) = Default::default();
        (self.table, self.cut) = (vec![0; numbers], Cut::new(self.sizes));
    }
}

impl Side for Ours {
    fn prepare(&mut self, operation: Operation) {
        match operation {
            Operation::Load | Operation::LoadWeighted => self.table.fill(0),
            Operation::LoadPpm => {
                self.table.fill(0);
                self.ppm.prepare();
            }
            Operation::Replay => {
                self.table.fill(0);
                self.recording.prepare();
            }
            Operation::Merge => {
                touch(&self.second);
                self.table.copy_from_slice(&self.loaded);
            }
            Operation::Compare => {
                self.differences.fill(i64::MIN);
                touch(&self.loaded);
                touch(&self.second);
            }
            Operation::Rescue { damaged } => self.rescue.prepare(damaged),
            Operation::Moments | Operation::Cut(_) | Operation::CutSlowly(_) => {
                self.cut.reset();
                touch(&self.loaded);
            }
            Operation::Narrow(call, _) => self.narrow.prepare(call),
            Operation::Map | Operation::Paint => touch(&self.kept.map),
            Operation::Nearest => self.terminal.prepare(),
            Operation::Whole { anew: false } => {
                self.table.fill(u64::MAX);
                self.cut.reset();
            }
            Operation::Whole { anew: true } => {}
        }
    }

    fn run(&mut self, operation: Operation, lent: &mut Lent) {
        let sizes = self.sizes;
        match operation {
            Operation::Load => load(sizes, &mut self.table, &lent.frame, None),
            Operation::LoadWeighted => {
                load(sizes, &mut self.table, &lent.frame, Some(&lent.weights));
            }
            Operation::LoadPpm => self.ppm.load(sizes, &mut self.table),
            Operation::Merge => merge(sizes, &mut self.table, &self.second),
            Operation::Compare => {
                self.told = compare(sizes, &self.loaded, &self.second, &mut self.differences);
            }
            Operation::Rescue { .. } => self.rescue.run(),
            Operation::Replay => self.recording.replay(sizes, &mut self.table, lent),
            Operation::Moments => self.cut.run(sizes, 1, &self.loaded),
            Operation::Cut(k) => self.cut.run(sizes, k, &self.loaded),
            Operation::CutSlowly(k) => self.cut.run_slowly(sizes, k, &self.loaded),
            Operation::Narrow(call, _) => self.narrow.run(call, lent),
            Operation::Map => self.kept.map(sizes, lent),
            Operation::Paint => self.kept.paint(sizes, lent),
            Operation::Nearest => self.terminal.by_call(),
            Operation::Whole { anew } => {
                if anew {
                    self.make_anew();
                } else {
                    self.table.fill(0);
                }
                load(sizes, &mut self.table, &lent.frame, None);
                self.cut.run(sizes, MOST, &self.table);
                self.cut.map(sizes, lent);
            }
        }
    }

    fn answer(&mut self, operation: Operation, answer: &mut Answer) {
        match operation {
            Operation::Load | Operation::LoadWeighted | Operation::LoadPpm | Operation::Merge => {
                answer.numbers.extend(&self.table);
            }
            Operation::Compare => answer.compared(&self.differences, self.told),
            Operation::Rescue { .. } => self.rescue.answer(answer),
            Operation::Replay => {
                self.recording.check();
                answer.numbers.extend(&self.table);
            }
            Operation::Moments => answer.numbers.extend(&self.cut.work),
            Operation::Cut(_) | Operation::Whole { .. } => self.cut.answer_original(answer),
            Operation::CutSlowly(_) => self.cut.answer(answer),
            Operation::Narrow(call, beside) => self.narrow.answer(call, beside, answer),
            Operation::Nearest => self.terminal.answer(answer),
            Operation::Map | Operation::Paint => {}
        }
    }
}
