//! What a replay is held to, since the original has no such call: one load of ours of the same colours, with their
//! weights multiplied before.
use crate::{
    ours::load,
    recording::{BATCHES, COLOURS, interval},
    side::{Answer, Lent, Sizes, touch},
};

pub struct OneLoad {
    sizes: Sizes,
    table: Vec<u64>,
    weights: Vec<u32>,
}

impl OneLoad {
    pub fn new(sizes: Sizes, weights: &[u32]) -> Self {
        let weights = weights[..BATCHES * COLOURS].iter().enumerate();
        Self {
            sizes,
            table: vec![0; 5 * sizes.iter().product::<usize>()],
            weights: weights.map(|(i, w)| w * interval(i / COLOURS)).collect(),
        }
    }

    pub fn prepare(&mut self) {
        self.table.fill(0);
        touch(&self.weights);
    }

    pub fn run(&mut self, lent: &Lent) {
        let colours = &lent.frame[..BATCHES * COLOURS];
        load(self.sizes, &mut self.table, colours, Some(&self.weights));
    }

    pub fn answer(&self, answer: &mut Answer) {
        answer.numbers.extend(&self.table);
    }
}
