//! A recorded list of a frame's colours, and its replay.
use crate::side::{Lent, Sizes};
use seluvava_sys::seluvava_replay;

/// How many batches a list has, and how many colours each of them.
pub const BATCHES: usize = 1_000;
pub const COLOURS: usize = 2_048;

/// After so many batches comes a reload.
const TO_A_RELOAD: usize = 10;

/// The interval of a batch, from 1 to 8.
pub fn interval(batch: usize) -> u32 {
    (batch / TO_A_RELOAD % 8) as u32 + 1
}

/// Entries for the colours of a frame, and room for their answers.
pub struct Recording {
    entries: Vec<u32>,
    answers: Vec<u8>,
}

impl Recording {
    pub fn new() -> Self {
        let mut entries = Vec::new();
        for batch in 0..BATCHES {
            if batch % TO_A_RELOAD == 0 {
                entries.extend([0, interval(batch), 0]);
            }
            entries.extend([1, interval(batch), COLOURS as u32]);
        }
        let answers = vec![0; entries.len() / 3];
        Self { entries, answers }
    }

    pub fn prepare(&mut self) {
        self.answers.fill(0xa5);
    }

    pub fn replay(&mut self, [b1, b2, b3]: Sizes, table: &mut [u64], lent: &Lent) {
        let colours = lent.frame[..BATCHES * COLOURS].as_flattened();
        let weights = &lent.weights[..BATCHES * COLOURS];
        let answer = unsafe {
            seluvava_replay(
                1,
                b1,
                b2,
                b3,
                table.as_mut_ptr(),
                table.len(),
                self.entries.as_ptr(),
                self.entries.len(),
                colours.as_ptr(),
                colours.len(),
                weights.as_ptr(),
                weights.len(),
                self.answers.as_mut_ptr(),
                self.answers.len(),
            )
        };
        assert_eq!(answer.number, 0, "replay");
    }

    /// No entry was refused.
    pub fn check(&self) {
        assert!(self.answers.iter().all(|&a| a == 0), "an entry is refused");
    }
}
