//! What is timed, and what a side has to do for it.
use crate::inputs::{Colour, Input};
use std::{fmt, hint::black_box};

pub type Sizes = [usize; 3];

#[derive(Clone, Copy, PartialEq, Eq)]
pub enum Operation {
    Load,
    LoadWeighted,
    /// The frame as a PPM file; the other side is a load of its bare triples.
    LoadPpm,
    Merge,
    Compare,
    /// Of a sound table, beside the test that it is sound; or of a damaged one, beside that of a sound one.
    Rescue {
        damaged: bool,
    },
    /// A recorded list; the other side is one load of the same colours.
    Replay,
    Moments,
    Cut(usize),
    /// A cut without a work table; the other side is our own cut.
    CutSlowly(usize),
    Map,
    Paint,
    /// The numbers of 256 colours in a terminal; the other side is a plain loop.
    Nearest,
    /// A call of the narrow layout.
    Narrow(NarrowCall, Beside),
    /// From pixels to indices. Our side makes its tables anew in the run, or was lent them.
    Whole {
        anew: bool,
    },
}

/// What is timed of the narrow layout.
#[derive(Clone, Copy, PartialEq, Eq)]
pub enum NarrowCall {
    Load,
    Merge,
    Cut(usize),
}

impl NarrowCall {
    /// The same in the wide layout.
    pub fn wide(self) -> Operation {
        match self {
            NarrowCall::Load => Operation::Load,
            NarrowCall::Merge => Operation::Merge,
            NarrowCall::Cut(k) => Operation::Cut(k),
        }
    }
}

/// What a call of the narrow layout is held to: the original, whose sums have 32 bits too, or our own wide call.
#[derive(Clone, Copy, PartialEq, Eq)]
pub enum Beside {
    Original,
    Wide,
}

pub const OPERATIONS: [Operation; 26] = [
    Operation::Load,
    Operation::LoadWeighted,
    Operation::LoadPpm,
    Operation::Merge,
    Operation::Compare,
    Operation::Rescue { damaged: false },
    Operation::Rescue { damaged: true },
    Operation::Replay,
    Operation::Moments,
    Operation::Cut(16),
    Operation::Cut(256),
    Operation::CutSlowly(16),
    Operation::CutSlowly(256),
    Operation::Narrow(NarrowCall::Load, Beside::Original),
    Operation::Narrow(NarrowCall::Load, Beside::Wide),
    Operation::Narrow(NarrowCall::Merge, Beside::Original),
    Operation::Narrow(NarrowCall::Merge, Beside::Wide),
    Operation::Narrow(NarrowCall::Cut(16), Beside::Original),
    Operation::Narrow(NarrowCall::Cut(16), Beside::Wide),
    Operation::Narrow(NarrowCall::Cut(256), Beside::Original),
    Operation::Narrow(NarrowCall::Cut(256), Beside::Wide),
    Operation::Map,
    Operation::Paint,
    Operation::Nearest,
    Operation::Whole { anew: false },
    Operation::Whole { anew: true },
];

/// The most colours of a palette: what is mapped and painted with.
pub const MOST: usize = 256;

impl fmt::Display for Operation {
    fn fmt(&self, f: &mut fmt::Formatter<'_>) -> fmt::Result {
        match self {
            Operation::Load => f.write_str("load"),
            Operation::LoadWeighted => f.write_str("load with weights"),
            Operation::LoadPpm => f.write_str("load a PPM"),
            Operation::Merge => f.write_str("merge"),
            Operation::Compare => f.write_str("compare"),
            Operation::Rescue { damaged: false } => f.write_str("rescue of a sound table"),
            Operation::Rescue { damaged: true } => f.write_str("rescue of a damaged table"),
            Operation::Replay => f.write_str("replay"),
            Operation::Moments => f.write_str("moments (ours: cut, k = 1)"),
            Operation::Cut(k) => write!(f, "cut, k = {k}"),
            Operation::CutSlowly(k) => write!(f, "cut slowly, k = {k}"),
            Operation::Narrow(call, Beside::Original) => write!(f, "narrow {}", call.wide()),
            Operation::Narrow(call, Beside::Wide) => {
                write!(f, "narrow {}, beside the wide one", call.wide())
            }
            Operation::Map => f.write_str("map"),
            Operation::Paint => f.write_str("paint"),
            Operation::Nearest => f.write_str("nearest"),
            Operation::Whole { anew: false } => {
                f.write_str("pixels to indices, our table lent and cleared")
            }
            Operation::Whole { anew: true } => {
                f.write_str("pixels to indices, our tables made anew")
            }
        }
    }
}

/// What all sides are lent in turn.
pub struct Lent {
    pub frame: Vec<Colour>,
    pub weights: Vec<u32>,
    pub indices: Vec<u8>,
    pub painted: Vec<Colour>,
}

impl Lent {
    pub fn new(input: &Input) -> Self {
        Self {
            frame: input.frame.clone(),
            weights: input.weights.clone(),
            indices: vec![0; input.frame.len()],
            painted: input.frame.clone(),
        }
    }

    /// As before any run: the indices are wrong, nothing is painted, and what is read has just been read.
    pub fn reset(&mut self, operation: Operation) {
        match operation {
            Operation::Load | Operation::Narrow(NarrowCall::Load, _) => touch(&self.frame),
            Operation::LoadWeighted | Operation::Replay => {
                touch(&self.frame);
                touch(&self.weights);
            }
            Operation::Map | Operation::Whole { .. } => {
                touch(&self.frame);
                self.indices.fill(0xa5);
            }
            Operation::Paint => self.painted.copy_from_slice(&self.frame),
            Operation::LoadPpm
            | Operation::Merge
            | Operation::Compare
            | Operation::Rescue { .. }
            | Operation::Moments
            | Operation::Cut(_)
            | Operation::CutSlowly(_)
            | Operation::Narrow(NarrowCall::Merge | NarrowCall::Cut(_), _)
            | Operation::Nearest => {}
        }
    }

    /// Adds what a run left in what it was lent.
    pub fn answer(&self, operation: Operation, answer: &mut Answer) {
        match operation {
            Operation::Map | Operation::Whole { .. } => answer.bytes.extend(&self.indices),
            Operation::Paint => answer.bytes.extend(self.painted.as_flattened()),
            _ => {}
        }
    }
}

/// Reads a part, so that every side finds it as near to the processor as the others do.
pub fn touch<T: Copy>(part: &[T]) {
    for &x in part.iter().step_by((64 / size_of::<T>()).max(1)) {
        black_box(x);
    }
}

/// What a run has left behind.
#[derive(Default, PartialEq)]
pub struct Answer {
    pub numbers: Vec<u64>,
    pub bytes: Vec<u8>,
}

impl Answer {
    pub fn clear(&mut self) {
        self.numbers.clear();
        self.bytes.clear();
    }

    /// Adds what a comparison wrote and told.
    pub fn compared(&mut self, differences: &[i64], (differ, first): (usize, usize)) {
        self.numbers.extend(differences.iter().map(|&d| d as u64));
        self.numbers.extend([differ as u64, first as u64]);
    }
}

pub trait Side {
    /// Puts what a run reads back to its start, and something wrong where it writes. Not timed.
    fn prepare(&mut self, operation: Operation);
    /// The run, which is timed.
    fn run(&mut self, operation: Operation, lent: &mut Lent);
    /// Adds what the run left, but for what it was lent. Not timed.
    fn answer(&mut self, operation: Operation, answer: &mut Answer);
}
