//! 256 colours in a terminal's numbers: by our call and, since the original has no such call, by a plain loop in Rust.
use crate::{
    inputs::Colour,
    side::{Answer, MOST, touch},
};
use seluvava_sys::seluvava_nearest;

/// Pixels of a frame as a palette, and their numbers.
pub struct Terminal {
    palette: Vec<Colour>,
    numbers: Vec<u8>,
    /// The 240 colours that a plain loop goes through, which are kept from run to run.
    fixed: Vec<Colour>,
}

/// The 240 colours by the rule (Rules, Terminal).
fn fixed() -> Vec<Colour> {
    const LEVELS: [u8; 6] = [0, 95, 135, 175, 215, 255];
    let cube = (0..216).map(|i| [i / 36, i / 6 % 6, i % 6].map(|step: usize| LEVELS[step]));
    cube.chain((0..24).map(|i| [8 + 10 * i; 3])).collect()
}

impl Terminal {
    pub fn new(frame: &[Colour]) -> Self {
        let palette = frame.iter().step_by(frame.len() / MOST).take(MOST);
        Self {
            palette: palette.copied().collect(),
            numbers: vec![0; MOST],
            fixed: fixed(),
        }
    }

    pub fn prepare(&mut self) {
        self.numbers.fill(0);
        touch(&self.palette);
        touch(&self.fixed);
    }

    pub fn by_call(&mut self) {
        let palette = self.palette.as_flattened();
        let number = unsafe {
            seluvava_nearest(
                palette.as_ptr(),
                palette.len(),
                self.numbers.as_mut_ptr(),
                self.numbers.len(),
            )
        };
        assert_eq!(number, 0, "nearest");
    }

    #[cfg(feature = "original")]
    pub fn by_loop(&mut self) {
        for (number, colour) in self.numbers.iter_mut().zip(&self.palette) {
            let (mut least, mut best) = (u32::MAX, 0);
            for (i, fixed) in self.fixed.iter().enumerate() {
                let mut distance = 0;
                for d in 0..3 {
                    distance += u32::from(colour[d].abs_diff(fixed[d])).pow(2);
                }
                if distance < least {
                    (least, best) = (distance, i);
                }
            }
            *number = 16 + best as u8;
        }
    }

    pub fn answer(&self, answer: &mut Answer) {
        answer.bytes.extend(&self.numbers);
    }
}
