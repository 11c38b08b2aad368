//! Pixels to try things on.

/// The same pixels in every run: some of a few flat colours, as screens have them, and some of any colour.
pub fn pixels(number: usize) -> Vec<[u8; 3]> {
    const FLAT: [[u8; 3]; 4] = [[0, 0, 0], [255, 255, 255], [18, 52, 86], [200, 30, 40]];
    let mut numbers = Numbers(number as u64);
    let mut pixel = || {
        let any = numbers.next();
        let [chosen, red, green, blue, ..] = any.to_le_bytes();
        match chosen {
            ..128 => FLAT[usize::from(chosen) % FLAT.len()],
            _ => [red, green, blue],
        }
    };
    (0..number).map(|_| pixel()).collect()
}

/// Splitmix64.
struct Numbers(u64);

impl Numbers {
    fn next(&mut self) -> u64 {
        self.0 = self.0.wrapping_add(0x9e37_79b9_7f4a_7c15);
        let mut number = self.0;
        number = (number ^ (number >> 30)).wrapping_mul(0xbf58_476d_1ce4_e5b9);
        number = (number ^ (number >> 27)).wrapping_mul(0x94d0_49bb_1331_11eb);
        number ^ (number >> 31)
    }
}
