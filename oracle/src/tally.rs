//! What a run of cases has seen.

/// How many cases there were, and of what sort.
#[derive(Clone, Debug, Default)]
pub struct Tally {
    pub cases: usize,
    pub boxes: usize,
    pub slowly: usize,
    pub narrow: usize,
    pub of_total_0: usize,
    pub too_heavy: usize,
    pub by_pixels: usize,
    pub by_batches: usize,
    pub wide: usize,
    pub negative: usize,
    pub put_back: usize,
    pub falsely_positive: usize,
    /// Of the calls made one by one, of the entries of replays and of the bins of rescues, how many answered each
    /// number.
    pub numbers: [[usize; 16]; CALLS.len()],
}

/// The calls whose numbers are counted.
pub const CALLS: [&str; 22] = [
    "load",
    "merge",
    "cut",
    "cut_slowly",
    "map",
    "paint",
    "compare",
    "rescue",
    "bins",
    "begin",
    "reload",
    "batch",
    "replay",
    "entries",
    "ppm_header",
    "load_ppm",
    "nearest",
    "narrow_load",
    "narrow_merge",
    "narrow_cut",
    "narrow_cut_slowly",
    "widen",
];

impl Tally {
    /// Counts a number that a call answered.
    pub fn count(&mut self, call: &str, number: u8) {
        let call = CALLS.iter().position(|c| *c == call).expect("a call");
        self.numbers[call][usize::from(number)] += 1;
    }
}
