//! Buffers to lend, which tell whether a call left in them what it should.
use crate::{
    answer::{Answer, BoxSpread},
    case::Case,
    numbers::Lengths,
    port::{CutAnswer, Grid, Lent, Narrow, NarrowMut, Port},
    random::Random,
};
use std::fmt::Debug;

/// What differs, in words.
pub type Differs = String;

/// What a buffer has in its places.
pub trait Place: Copy + PartialEq + Debug {
    fn of(n: u64) -> Self;
}

macro_rules! place {
    ($($type: ty)*) => {
        $(impl Place for $type {
            fn of(n: u64) -> Self {
                n as $type
            }
        })*
    };
}

place!(u8 u32 u64 i64);

/// How many places stand before and after what is lent.
const ABOUT: usize = 8;

/// A buffer to lend, with random places about it, and what it all was before.
pub struct Buffer<T> {
    old: Vec<T>,
    now: Vec<T>,
}

impl<T: Place> Buffer<T> {
    fn with(contents: impl ExactSizeIterator<Item = T>, r: &mut Random) -> Self {
        let mut old = Vec::with_capacity(contents.len() + 2 * ABOUT);
        old.extend((0..ABOUT).map(|_| T::of(r.draw())));
        old.extend(contents);
        old.extend((0..ABOUT).map(|_| T::of(r.draw())));
        let now = old.clone();
        Self { old, now }
    }

    pub fn of(contents: &[T], r: &mut Random) -> Self {
        Self::with(contents.iter().copied(), r)
    }

    pub fn zeros(length: usize, r: &mut Random) -> Self {
        Self::with((0..length).map(|_| T::of(0)), r)
    }

    pub fn random(length: usize, r: &mut Random) -> Self {
        let mut inside = Random(r.draw());
        Self::with((0..length).map(|_| T::of(inside.draw())), r)
    }

    pub fn lend(&mut self) -> &mut [T] {
        let end = self.now.len() - ABOUT;
        &mut self.now[ABOUT..end]
    }

    pub fn see(&self) -> &[T] {
        &self.now[ABOUT..self.now.len() - ABOUT]
    }

    /// Whether the places from `first` on are as said, and all others as before, also those about what was lent.
    /// What is there now counts as before from then on.
    pub fn expect(&mut self, name: &str, first: usize, said: &[T]) -> Result<(), Differs> {
        let at = ABOUT + first;
        self.old[at..at + said.len()].copy_from_slice(said);
        if self.old == self.now {
            return Ok(());
        }
        let place = (0..self.now.len())
            .find(|&i| self.old[i] != self.now[i])
            .expect("a place");
        Err(format!(
            "{name}: place {} of {}: {:?} is expected, {:?} is there",
            place as i64 - ABOUT as i64,
            self.now.len() - 2 * ABOUT,
            self.old[place],
            self.now[place]
        ))
    }

    pub fn unchanged(&mut self, name: &str) -> Result<(), Differs> {
        self.expect(name, 0, &[])
    }

    /// Lets what was lent count as before.
    pub fn settle(&mut self) {
        let lent = ABOUT..self.now.len() - ABOUT;
        self.old[lent.clone()].copy_from_slice(&self.now[lent]);
    }
}

pub fn same<T: PartialEq + Debug>(name: &str, expected: T, answered: T) -> Result<(), Differs> {
    if expected == answered {
        return Ok(());
    }
    Err(format!(
        "{name}: {expected:?} is expected, {answered:?} is answered"
    ))
}

/// What differs, told of a slow cut.
pub fn slowly(differs: Differs) -> Differs {
    format!("slowly, {differs}")
}

/// What a cut is lent; where there is no work table, it is a slow one.
pub struct Buffers {
    pub work: Option<Buffer<u64>>,
    pub palette: Buffer<u8>,
    pub counts: Buffer<u32>,
    pub remainders: Buffer<u32>,
    pub map: Buffer<u8>,
    pub boxes: Buffer<u8>,
    pub spreads: Buffer<u64>,
}

impl Buffers {
    pub fn random(lengths: Lengths, r: &mut Random) -> Self {
        Self {
            work: lengths.work.map(|n| Buffer::random(n, r)),
            palette: Buffer::random(lengths.palette, r),
            counts: Buffer::random(lengths.counts, r),
            remainders: Buffer::random(lengths.remainders, r),
            map: Buffer::random(lengths.map, r),
            boxes: Buffer::random(lengths.boxes, r),
            spreads: Buffer::random(lengths.spreads, r),
        }
    }

    /// The work table, where there is one, and all else that a cut writes.
    fn lend(&mut self) -> (Option<&mut [u64]>, Lent<'_>) {
        let lent = Lent {
            palette: self.palette.lend(),
            counts: self.counts.lend(),
            remainders: self.remainders.lend(),
            map: self.map.lend(),
            boxes: self.boxes.lend(),
            spreads: self.spreads.lend(),
        };
        (self.work.as_mut().map(Buffer::lend), lent)
    }

    pub fn cut(&mut self, port: &dyn Port, grid: Grid, k: usize, table: &[u64]) -> CutAnswer {
        match self.lend() {
            (Some(work), lent) => port.cut(grid, k, table, work, lent),
            (None, lent) => port.cut_slowly(grid, k, table, lent),
        }
    }

    /// A cut in the narrow layout, whose work table stands apart; where there is none, it is a slow one.
    pub fn narrow_cut(
        &mut self,
        port: &dyn Port,
        grid: Grid,
        k: usize,
        table: Narrow<'_>,
        work: Option<NarrowMut<'_>>,
    ) -> CutAnswer {
        let (_, lent) = self.lend();
        match work {
            Some(work) => port.narrow_cut(grid, k, table, work, lent),
            None => port.narrow_cut_slowly(grid, k, table, lent),
        }
    }

    /// What a cut that is done has left, as an answer.
    pub fn left(&self, answered: CutAnswer) -> Answer {
        let n = answered.boxes;
        let boxes = self.boxes.see().as_chunks::<6>().0.iter();
        let boxes = boxes.zip(self.spreads.see()).take(n);
        Answer {
            moments: self
                .work
                .as_ref()
                .map_or(Vec::new(), |work| work.see().to_vec()),
            boxes: boxes
                .map(|(ends, &spread)| BoxSpread {
                    min: [0, 2, 4].map(|i| ends[i]),
                    max: [1, 3, 5].map(|i| ends[i]),
                    spread: f64::from_bits(spread),
                })
                .collect(),
            rounds: answered.rounds,
            palette: self.palette.see().as_chunks().0[..n].to_vec(),
            counts: self.counts.see()[..n].to_vec(),
            remainders: self.remainders.see().as_chunks().0[..n].to_vec(),
            map: self.map.see().to_vec(),
        }
    }

    pub fn unchanged(&mut self) -> Result<(), Differs> {
        if let Some(work) = &mut self.work {
            work.unchanged("the work table of a refused cut")?;
        }
        self.palette.unchanged("the palette of a refused cut")?;
        self.counts.unchanged("the counts of a refused cut")?;
        self.remainders
            .unchanged("the remainders of a refused cut")?;
        self.map.unchanged("the map of a refused cut")?;
        self.boxes.unchanged("the boxes of a refused cut")?;
        self.spreads.unchanged("the spreads of a refused cut")
    }

    pub fn expect(&mut self, answer: &Answer) -> Result<(), Differs> {
        let mut boxes = Vec::with_capacity(6 * answer.boxes.len());
        for b in &answer.boxes {
            boxes.extend((0..3).flat_map(|d| [b.min[d], b.max[d]]));
        }
        let spreads: Vec<u64> = answer.boxes.iter().map(|b| b.spread.to_bits()).collect();
        self.boxes.expect("boxes", 0, &boxes)?;
        self.spreads.expect("spreads, as bits", 0, &spreads)?;
        self.palette
            .expect("palette", 0, answer.palette.as_flattened())?;
        self.counts.expect("counts", 0, &answer.counts)?;
        self.remainders
            .expect("remainders", 0, answer.remainders.as_flattened())?;
        self.map.expect("map", 0, &answer.map)?;
        match &mut self.work {
            Some(work) => work.expect("work table", 0, &answer.moments),
            None => Ok(()),
        }
    }
}

/// The lengths that fit a case, with the places too many that it says.
pub fn fitting(case: &Case) -> Lengths {
    Lengths {
        work: Some(5 * case.bins()),
        palette: 3 * case.k + case.spare[0],
        counts: case.k + case.spare[1],
        remainders: 3 * case.k + case.spare[1],
        map: case.bins(),
        boxes: 6 * case.k + case.spare[2],
        spreads: case.k + case.spare[3],
    }
}
