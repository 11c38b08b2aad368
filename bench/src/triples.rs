//! What loading a PPM is held to, since the original has no such call: our own load of its bare triples.
use crate::{
    inputs::Colour,
    ours::load,
    side::{Answer, Sizes, touch},
};

pub struct Triples {
    sizes: Sizes,
    table: Vec<u64>,
    frame: Vec<Colour>,
}

impl Triples {
    pub fn new(sizes: Sizes, frame: &[Colour]) -> Self {
        Self {
            sizes,
            table: vec![0; 5 * sizes.iter().product::<usize>()],
            frame: frame.to_vec(),
        }
    }

    pub fn prepare(&mut self) {
        self.table.fill(0);
        touch(&self.frame);
    }

    pub fn run(&mut self) {
        load(self.sizes, &mut self.table, &self.frame, None);
    }

    pub fn answer(&self, answer: &mut Answer) {
        answer.numbers.extend(&self.table);
    }
}
