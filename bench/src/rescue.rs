//! Rescues of a sound table and of a damaged one. The original has no such call: the first is held to our own test that
//! a table is sound, and the second to the first.
use crate::side::{Answer, Sizes};
use seluvava_sys::seluvava_rescue;

/// A page of memory has 512 numbers.
const PAGE: usize = 512;

/// A table with a bit flipped in every hundredth bin, and one page in its middle that reads as ones.
fn damaged(table: &[u64]) -> Vec<u64> {
    let mut damaged = table.to_vec();
    for (i, bin) in damaged.chunks_exact_mut(5).step_by(100).enumerate() {
        bin[i % 5] ^= 1 << 40;
    }
    let start = damaged.len() / 2 / PAGE * PAGE;
    damaged[start..][..PAGE].fill(u64::MAX);
    damaged
}

/// A table as it is before a run, sound or damaged, and what a run works on.
pub struct Rescue {
    sizes: Sizes,
    sound: Vec<u64>,
    damaged: Vec<u64>,
    table: Vec<u64>,
    reasons: Vec<u8>,
}

impl Rescue {
    pub fn new(sizes: Sizes, sound: Vec<u64>) -> Self {
        Self {
            sizes,
            damaged: damaged(&sound),
            table: sound.clone(),
            reasons: vec![0; sound.len() / 5],
            sound,
        }
    }

    pub fn prepare(&mut self, damaged: bool) {
        let start = if damaged { &self.damaged } else { &self.sound };
        self.table.copy_from_slice(start);
        self.reasons.fill(0xa5);
    }

    pub fn run(&mut self) {
        let [b1, b2, b3] = self.sizes;
        let number = unsafe {
            seluvava_rescue(
                b1,
                b2,
                b3,
                self.table.as_mut_ptr(),
                self.table.len(),
                self.reasons.as_mut_ptr(),
                self.reasons.len(),
            )
        };
        assert_eq!(number, 0, "rescue");
    }

    pub fn answer(&self, answer: &mut Answer) {
        answer.numbers.extend(&self.table);
        answer.bytes.extend(&self.reasons);
    }

    /// What a rescue is held to: the test alone, which a load of no colours is, or a rescue of the sound table.
    #[cfg(feature = "original")]
    pub fn prepare_held(&mut self) {
        self.prepare(false);
    }

    #[cfg(feature = "original")]
    pub fn run_held(&mut self, damaged: bool) {
        match damaged {
            true => self.run(),
            false => crate::ours::load(self.sizes, &mut self.table, &[], None),
        }
    }

    /// And what our rescue has to leave.
    #[cfg(feature = "original")]
    pub fn answer_held(&self, damaged: bool, answer: &mut Answer) {
        let start = if damaged { &self.damaged } else { &self.sound };
        let (table, reasons) = crate::plain::rescued(self.sizes, start);
        answer.numbers.extend(table);
        answer.bytes.extend(reasons);
    }
}
