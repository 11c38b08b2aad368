//! Numbers that look random, by the rule of splitmix64.

pub struct Random(pub u64);

impl Random {
    pub fn draw(&mut self) -> u64 {
        self.0 = self.0.wrapping_add(0x9e37_79b9_7f4a_7c15);
        let mut z = self.0;
        z = (z ^ (z >> 30)).wrapping_mul(0xbf58_476d_1ce4_e5b9);
        z = (z ^ (z >> 27)).wrapping_mul(0x94d0_49bb_1331_11eb);
        z ^ (z >> 31)
    }

    /// From low to high, both included.
    pub fn from(&mut self, low: usize, high: usize) -> usize {
        low + (self.draw() % (high - low + 1) as u64) as usize
    }

    /// Once in so many times.
    pub fn once_in(&mut self, times: usize) -> bool {
        self.from(1, times) == 1
    }

    pub fn one_of<T: Copy>(&mut self, list: &[T]) -> T {
        list[self.from(0, list.len() - 1)]
    }

    pub fn color(&mut self) -> [u8; 3] {
        [(); 3].map(|()| self.draw() as u8)
    }

    /// A colour whose components are among a few, so that scores and spreads tie.
    pub fn lattice_color(&mut self) -> [u8; 3] {
        [(); 3].map(|()| self.one_of(&[0, 32, 64, 128, 192, 255]))
    }

    pub fn shuffle<T>(&mut self, list: &mut [T]) {
        for i in (1..list.len()).rev() {
            list.swap(i, self.from(0, i));
        }
    }

    /// Weights that add up to a total.
    pub fn weights(&mut self, n: usize, total: u32) -> Vec<u32> {
        let mut left = total;
        let mut weights = Vec::with_capacity(n);
        for _ in 1..n {
            let most = if self.once_in(3) {
                left
            } else {
                left / n as u32
            };
            let w = self.from(0, most as usize) as u32;
            left -= w;
            weights.push(w);
        }
        weights.push(left);
        weights
    }
}
