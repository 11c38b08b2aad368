//! Two tables compared by a plain loop in Rust, after the tests that the rules ask for (Rules, Sound), and what a
//! rescue has to leave: the original has no such calls.
use crate::side::{Answer, Sizes, touch};

/// The largest total of a sound table.
const LARGEST_TOTAL: u64 = 4_294_967_295;

/// The smallest and the largest value of a component that fall in a bin.
fn span(size: usize, bin: usize) -> (u64, u64) {
    let values = 256 / size;
    let low = (bin * values) as u64;
    (low, low + values as u64 - 1)
}

/// Whether a bin keeps its bounds, with a weight that fits a table alone. So light, no product wraps.
fn keeps_bounds(spans: [(u64, u64); 3], &[n, s1, s2, s3, squares]: &[u64; 5]) -> bool {
    if n > LARGEST_TOTAL {
        return false;
    }
    let [red, green, blue] = spans;
    let within = |sum, (low, high)| n * low <= sum && sum <= n * high;
    let lows = spans.iter().map(|s| s.0 * s.0).sum();
    let highs = spans.iter().map(|s| s.1 * s.1).sum();
    let sums = within(s1, red) && within(s2, green) && within(s3, blue);
    sums && within(squares, (lows, highs))
}

/// Whether a table is sound.
fn is_sound([b1, b2, b3]: Sizes, table: &[u64]) -> bool {
    let mut total = 0;
    let mut cells = table.as_chunks::<5>().0.iter();
    for r in 0..b1 {
        let red = span(b1, r);
        for g in 0..b2 {
            let green = span(b2, g);
            for (b, cell) in cells.by_ref().take(b3).enumerate() {
                if !keeps_bounds([red, green, span(b3, b)], cell) {
                    return false;
                }
                total += cell[0];
            }
        }
    }
    total <= LARGEST_TOTAL
}

/// What a rescue has to leave of a table, and its reasons (Rules, Rescue).
pub fn rescued([b1, b2, b3]: Sizes, table: &[u64]) -> (Vec<u64>, Vec<u8>) {
    let (mut table, mut reasons) = (table.to_vec(), Vec::new());
    let mut total = 0;
    for (place, cell) in table.as_chunks_mut::<5>().0.iter_mut().enumerate() {
        let bins = [place / (b2 * b3), place / b3 % b2, place % b3];
        let spans = [span(b1, bins[0]), span(b2, bins[1]), span(b3, bins[2])];
        let reason = match keeps_bounds(spans, cell) {
            false => 1,
            true if total + cell[0] > LARGEST_TOTAL => 2,
            true => 0,
        };
        match reason {
            0 => total += cell[0],
            _ => cell.fill(0),
        }
        reasons.push(reason);
    }
    (table, reasons)
}

/// Two tables, and what a comparison of them writes and tells.
pub struct Plain {
    sizes: Sizes,
    first: Vec<u64>,
    second: Vec<u64>,
    differences: Vec<i64>,
    told: (usize, usize),
}

impl Plain {
    pub fn new(sizes: Sizes, first: Vec<u64>, second: Vec<u64>) -> Self {
        Self {
            sizes,
            differences: vec![0; first.len()],
            first,
            second,
            told: (0, 0),
        }
    }

    /// The frame's table without weights.
    pub fn first(&self) -> &[u64] {
        &self.first
    }

    pub fn prepare(&mut self) {
        self.differences.fill(i64::MIN);
        touch(&self.first);
        touch(&self.second);
    }

    pub fn run(&mut self) {
        assert!(is_sound(self.sizes, &self.first), "the first table");
        assert!(is_sound(self.sizes, &self.second), "the second table");
        let (mut differ, mut first) = (0, None);
        let tables = self.first.as_chunks::<5>().0.iter();
        let pairs = tables.zip(self.second.as_chunks::<5>().0);
        let lists = self.differences.as_chunks_mut::<5>().0;
        for (place, ((a, b), list)) in pairs.zip(lists).enumerate() {
            for j in 0..5 {
                list[j] = b[j] as i64 - a[j] as i64;
            }
            if a != b {
                differ += 1;
                first.get_or_insert(place);
            }
        }
        self.told = (differ, first.unwrap_or(self.first.len() / 5));
    }

    pub fn answer(&self, answer: &mut Answer) {
        answer.compared(&self.differences, self.told);
    }
}
