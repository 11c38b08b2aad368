//! The numbers that a palette's colours have in a terminal, against the rules (Rules, Terminal; Rules, Answers). The
//! original has no such call.
use crate::{
    buffer::{Buffer, Differs, same},
    case::Case,
    numbers,
    port::Port,
    random::Random,
    tally::Tally,
};

/// The 240 fixed colours in the order of their numbers, the first of which is 16: "levels 0, 95, 135, 175, 215, 255 at r,
/// g and b", and "8 + 10·i three times, for i from 0 to 23".
pub fn fixed_colours() -> Vec<[u8; 3]> {
    const LEVELS: [u8; 6] = [0, 95, 135, 175, 215, 255];
    let cube = LEVELS
        .iter()
        .flat_map(|&r| LEVELS.map(|g| (r, g)))
        .flat_map(|(r, g)| LEVELS.map(|b| [r, g, b]));
    cube.chain((0..24).map(|i| [8 + 10 * i; 3])).collect()
}

/// The number "with the smallest squared distance, the lowest number on a tie".
fn told(fixed: &[[u8; 3]], color: [u8; 3]) -> u8 {
    let distance = |i: &usize| -> u32 {
        let pairs = color.iter().zip(fixed[*i]);
        pairs.map(|(&a, b)| u32::from(a.abs_diff(b)).pow(2)).sum()
    };
    let least = (0..fixed.len()).map(|i| distance(&i)).min();
    let first = (0..fixed.len()).find(|i| Some(distance(i)) == least);
    16 + first.expect("a colour") as u8
}

/// Asks for the numbers of the case's colours, with some stray bytes behind them, in a list of so many answers.
pub fn palettes(
    port: &dyn Port,
    case: &Case,
    stray: usize,
    answers: usize,
    tally: &mut Tally,
) -> Result<(), Differs> {
    let r = &mut Random(case.seed);
    let mut bytes = case.input.colors.as_flattened().to_vec();
    bytes.extend((0..stray).map(|_| r.draw() as u8));
    let mut palette = Buffer::of(&bytes, r);
    let mut list: Buffer<u8> = Buffer::random(answers, r);
    let number = port.nearest(palette.see(), list.lend());
    tally.count("nearest", number);
    let said = numbers::nearest(bytes.len(), answers);
    same("the number of nearest", said, number)?;
    palette.unchanged("the palette of nearest")?;
    if number != 0 {
        return list.unchanged("the list of a refused nearest");
    }
    let fixed = fixed_colours();
    let colors = bytes.as_chunks::<3>().0.iter();
    let expected: Vec<u8> = colors.map(|&color| told(&fixed, color)).collect();
    list.expect("the nearest", 0, &expected)
}
