//! Writes the lines that the listing program has to write for the RGB triples on standard input (Rules, Listing), with
//! the original's answer at grid 8,8,8 and k=16.
use oracle::{
    answer::{Input, original},
    stand_ins::quantette::PaletteSize,
};
use std::io::Read as _;

fn main() {
    let mut bytes = Vec::new();
    std::io::stdin().read_to_end(&mut bytes).expect("the input");
    let (colors, stray) = bytes.as_chunks::<3>();
    assert!(stray.is_empty(), "whole pixels");
    let input = Input {
        colors: colors.to_vec(),
        weights: vec![1; colors.len()],
    };
    let k = PaletteSize::new(16).expect("k");
    let judge = original([8, 8, 8]).expect("a grid of the judge");
    let answer = (judge.told)(&input, k, true, &[])
        .expect("some pixels")
        .answer;

    let (boxes, total, rounds) = (answer.palette.len(), input.total(), answer.rounds);
    println!("boxes {boxes} total {total} rounds {rounds}");
    for (i, ([r, g, b], n)) in answer.palette.iter().zip(&answer.counts).enumerate() {
        println!("{i} {r} {g} {b} {n}");
    }
}
