//! The original's files, each included byte for byte. What stands after one is the oracle's way to private parts.

pub mod palette_counts {
    include!(env!("ORIGINAL_PALETTE_COUNTS"));
}

pub mod shared {
    use crate::stand_ins::{bytemuck, num_traits, ordered_float, palette};

    include!(env!("ORIGINAL_SHARED"));

    // The derive's part: all numbers of a bin are zero where all bytes are.
    unsafe impl<T: Zeroable, const N: usize, Count: Zeroable> Zeroable for Stats<T, N, Count> {}
}

pub mod u8 {
    use crate::stand_ins::palette;

    include!(env!("ORIGINAL_U8"));

    use super::shared::{CubeVar, InclusionExclusion as _};

    pub mod parts;

    /// The five numbers of each bin, with the squares as a whole number.
    fn numbers<Sum: Copy + Into<u64>, Count: Copy + Into<u64>>(
        bins: &[Stats<Sum, 3, Count>],
    ) -> Vec<u64> {
        let mut numbers = Vec::with_capacity(5 * bins.len());
        for bin in bins {
            let squares = bin.sum_squared as u64;
            assert!(bin.sum_squared.to_bits() == (squares as f64).to_bits());
            numbers.push(bin.count.into());
            numbers.extend(bin.components.map(Into::into));
            numbers.push(squares);
        }
        numbers
    }

    /// Each component sum modulo the weight.
    fn left<Sum: Copy + Into<u64>, Count: Copy + Into<u64>>(s: Stats<Sum, 3, Count>) -> [u32; 3] {
        let n: u64 = s.count.into();
        s.components.map(|c| (c.into() % n) as u32)
    }

    impl<const B1: usize, const B2: usize, const B3: usize> WuU8x3<[u8; 3], B1, B2, B3> {
        /// The numbers of the histogram before its moments are made.
        pub fn table(colors: &[[u8; 3]], counts: &[u32], total: u32) -> Vec<u64> {
            let binner = BinnerU8x3::<B1, B2, B3>::new();
            if total < SUM_POSSIBLE_OVERFLOW {
                let mut hist = Histogram3::<Stats<u32, 3, u64>, B1, B2, B3>::new();
                hist.add_color_counts_u8_3_u32(colors, counts, binner);
                numbers(hist.as_flattened())
            } else {
                let mut hist = Histogram3::<Stats<u64, 3, u32>, B1, B2, B3>::new();
                hist.add_color_counts_u8_3_u64(colors, counts, binner);
                numbers(hist.as_flattened())
            }
        }

        /// A run over the histogram with the numbers of a table.
        pub fn of_table(table: &[u64]) -> Self {
            let mut hist = Histogram3::<Stats<u64, 3, u32>, B1, B2, B3>::new();
            let bins = hist.as_flattened_mut().iter_mut();
            for (bin, numbers) in bins.zip(table.chunks_exact(5)) {
                bin.count = numbers[0].try_into().expect("a count");
                bin.components.copy_from_slice(&numbers[1..4]);
                bin.sum_squared = numbers[4] as f64;
            }
            hist.calc_cumulative_moments();
            Self {
                color: PhantomData,
                hist: Hist::U64(hist),
            }
        }

        /// The moments that the run has made.
        pub fn moments(&self) -> Vec<u64> {
            match &self.hist {
                Hist::U32(hist) => numbers(hist.as_flattened()),
                Hist::U64(hist) => numbers(hist.as_flattened()),
            }
        }

        /// What the means of each box leave of the original's sums: the original divides and keeps no remainder.
        pub fn remainders(&self, k: PaletteSize) -> Vec<[u32; 3]> {
            let boxes = self.boxes(k).into_iter();
            match &self.hist {
                Hist::U32(hist) => boxes.map(|b| left(hist.volume(b.0))).collect(),
                Hist::U64(hist) => boxes.map(|b| left(hist.volume(b.0))).collect(),
            }
        }

        /// The boxes of a cut with their spreads, in the heap's order.
        pub fn boxes(&self, k: PaletteSize) -> Vec<CubeVar<3>> {
            let (_, cubes) = match &self.hist {
                Hist::U32(hist) => Wu::<_, [u8; 3], _, _>::new(hist).palette_and_cubes(k),
                Hist::U64(hist) => Wu::<_, [u8; 3], _, _>::new(hist).palette_and_cubes(k),
            };
            cubes.into_iter().collect()
        }
    }
}
