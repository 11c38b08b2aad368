//! The narrow layout: our side, and the wide one that it is held to beside the original.
#[cfg(feature = "original")]
use crate::ours::{load, merge};
use crate::{
    ours::Cut,
    side::{Answer, Beside, Lent, NarrowCall, Sizes, touch},
};
use seluvava_sys::{seluvava_bins, seluvava_narrow_load, seluvava_narrow_merge};

/// A narrow table: weight and sums of each bin, and its squares apart.
#[derive(Clone)]
pub struct Table {
    pub sums: Vec<u32>,
    pub squares: Vec<u64>,
}

impl Table {
    fn new([b1, b2, b3]: Sizes) -> Self {
        let bins = unsafe { seluvava_bins(b1, b2, b3) };
        Self {
            sums: vec![0; 4 * bins],
            squares: vec![0; bins],
        }
    }

    fn fill(&mut self, sum: u32, squares: u64) {
        self.sums.fill(sum);
        self.squares.fill(squares);
    }

    fn copy(&mut self, other: &Table) {
        self.sums.copy_from_slice(&other.sums);
        self.squares.copy_from_slice(&other.squares);
    }

    fn touch(&self) {
        touch(&self.sums);
        touch(&self.squares);
    }

    /// Adds the five numbers of each bin.
    fn answer(&self, answer: &mut Answer) {
        let bins = self.sums.as_chunks::<4>().0.iter().zip(&self.squares);
        for (sums, &squares) in bins {
            answer.numbers.extend(sums.map(u64::from));
            answer.numbers.push(squares);
        }
    }

    fn load(&mut self, [b1, b2, b3]: Sizes, frame: &[[u8; 3]], weights: Option<&[u32]>) {
        let colours = frame.as_flattened();
        let given = weights.unwrap_or_default();
        let number = unsafe {
            seluvava_narrow_load(
                b1,
                b2,
                b3,
                self.sums.as_mut_ptr(),
                self.sums.len(),
                self.squares.as_mut_ptr(),
                self.squares.len(),
                colours.as_ptr(),
                colours.len(),
                weights.is_some(),
                given.as_ptr(),
                given.len(),
            )
        };
        assert_eq!(number, 0, "narrow load");
    }

    fn merge(&mut self, [b1, b2, b3]: Sizes, second: &Table) {
        let number = unsafe {
            seluvava_narrow_merge(
                b1,
                b2,
                b3,
                self.sums.as_mut_ptr(),
                self.sums.len(),
                self.squares.as_mut_ptr(),
                self.squares.len(),
                second.sums.as_ptr(),
                second.sums.len(),
                second.squares.as_ptr(),
                second.squares.len(),
            )
        };
        assert_eq!(number, 0, "narrow merge");
    }
}

/// Our side, on tables that stay from run to run.
pub struct Narrow {
    sizes: Sizes,
    /// What loads and merges write.
    table: Table,
    /// What is cut: the frame's table.
    loaded: Table,
    /// What is merged into that: the table of the frame with weights.
    second: Table,
    work: Table,
    cut: Cut,
}

impl Narrow {
    pub fn new(sizes: Sizes, lent: &Lent) -> Self {
        let table = Table::new(sizes);
        let (mut loaded, mut second) = (table.clone(), table.clone());
        loaded.load(sizes, &lent.frame, None);
        second.load(sizes, &lent.frame, Some(&lent.weights));
        Self {
            sizes,
            work: table.clone(),
            table,
            loaded,
            second,
            cut: Cut::new(sizes),
        }
    }

    pub fn prepare(&mut self, call: NarrowCall) {
        match call {
            NarrowCall::Load => self.table.fill(0, 0),
            NarrowCall::Merge => {
                self.second.touch();
                self.table.copy(&self.loaded);
            }
            NarrowCall::Cut(_) => {
                self.work.fill(u32::MAX, u64::MAX);
                self.cut.reset();
                self.loaded.touch();
            }
        }
    }

    pub fn run(&mut self, call: NarrowCall, lent: &Lent) {
        let sizes = self.sizes;
        match call {
            NarrowCall::Load => self.table.load(sizes, &lent.frame, None),
            NarrowCall::Merge => self.table.merge(sizes, &self.second),
            NarrowCall::Cut(k) => self.cut.run_narrow(sizes, k, &self.loaded, &mut self.work),
        }
    }

    pub fn answer(&self, call: NarrowCall, beside: Beside, answer: &mut Answer) {
        match (call, beside) {
            (NarrowCall::Load | NarrowCall::Merge, _) => self.table.answer(answer),
            (NarrowCall::Cut(_), Beside::Original) => self.cut.answer_original(answer),
            (NarrowCall::Cut(_), Beside::Wide) => {
                self.work.answer(answer);
                self.cut.answer(answer);
            }
        }
    }
}

/// The same in the wide layout.
#[cfg(feature = "original")]
pub struct Wide {
    sizes: Sizes,
    table: Vec<u64>,
    loaded: Vec<u64>,
    second: Vec<u64>,
    cut: Cut,
}

#[cfg(feature = "original")]
impl Wide {
    pub fn new(sizes: Sizes, lent: &Lent) -> Self {
        let cut = Cut::new(sizes);
        let table = vec![0; cut.moments().len()];
        let (mut loaded, mut second) = (table.clone(), table.clone());
        load(sizes, &mut loaded, &lent.frame, None);
        load(sizes, &mut second, &lent.frame, Some(&lent.weights));
        Self {
            sizes,
            table,
            loaded,
            second,
            cut,
        }
    }

    pub fn prepare(&mut self, call: NarrowCall) {
        match call {
            NarrowCall::Load => self.table.fill(0),
            NarrowCall::Merge => {
                touch(&self.second);
                self.table.copy_from_slice(&self.loaded);
            }
            NarrowCall::Cut(_) => {
                self.cut.reset();
                touch(&self.loaded);
            }
        }
    }

    pub fn run(&mut self, call: NarrowCall, lent: &Lent) {
        let sizes = self.sizes;
        match call {
            NarrowCall::Load => load(sizes, &mut self.table, &lent.frame, None),
            NarrowCall::Merge => merge(sizes, &mut self.table, &self.second),
            NarrowCall::Cut(k) => self.cut.run(sizes, k, &self.loaded),
        }
    }

    pub fn answer(&self, call: NarrowCall, answer: &mut Answer) {
        match call {
            NarrowCall::Load | NarrowCall::Merge => answer.numbers.extend(&self.table),
            NarrowCall::Cut(_) => {
                answer.numbers.extend(self.cut.moments());
                self.cut.answer(answer);
            }
        }
    }
}
