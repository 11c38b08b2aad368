//! The steps of a run one by one, for who times them, on the histogram of narrow sums that the original takes for
//! fewer than 16,843,009 pixels.
use super::{BinnerU8x3, Hist, Histogram3, Stats, WuU8x3, WuU8x3ColorMap};

pub type Narrow<const B1: usize, const B2: usize, const B3: usize> =
    Histogram3<Stats<u32, 3, u64>, B1, B2, B3>;

impl<const B1: usize, const B2: usize, const B3: usize> WuU8x3<[u8; 3], B1, B2, B3> {
    /// The histogram of a run. It holds the moments, or what they are to be made of.
    pub fn narrow(&mut self) -> &mut Narrow<B1, B2, B3> {
        match &mut self.hist {
            Hist::U32(hist) => hist,
            Hist::U64(_) => panic!("too many pixels for narrow sums"),
        }
    }
}

impl<const B1: usize, const B2: usize, const B3: usize> Narrow<B1, B2, B3> {
    pub fn load(&mut self, colors: &[[u8; 3]]) {
        self.add_colors_u8_3_u32(colors, BinnerU8x3::new());
    }

    pub fn load_weighted(&mut self, colors: &[[u8; 3]], weights: &[u32]) {
        self.add_color_counts_u8_3_u32(colors, weights, BinnerU8x3::new());
    }

    /// The loop of `merge_partial`, which the original has only with its feature `threads`.
    pub fn merge(&mut self, second: &Self) {
        for (a, &b) in self
            .as_flattened_mut()
            .iter_mut()
            .zip(second.as_flattened())
        {
            *a += b;
        }
    }
}

impl<const B1: usize, const B2: usize, const B3: usize> WuU8x3ColorMap<[u8; 3], B1, B2, B3> {
    /// The index of each bin.
    pub fn map(&self) -> &[u8] {
        self.hist.as_flattened()
    }
}
