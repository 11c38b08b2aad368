//! Makes palettes for a terminal.
use super::Maker;
use crate::{
    answer::Input,
    case::{Case, Kind},
    palettes::fixed_colours,
    port::Band,
    random::Random,
};

/// A case of these colours, with nothing stray and room for each answer.
fn of(colors: Vec<[u8; 3]>, seed: u64) -> Case {
    let (weights, answers) = (vec![1; colors.len()], colors.len());
    Case {
        kind: Kind::Palettes { stray: 0, answers },
        grid: [2, 2, 2],
        k: 1,
        input: Input { colors, weights },
        frame: Vec::new(),
        band: Band::default(),
        spare: [0; 4],
        seed,
    }
}

/// A fixed colour, or one a step away from it or half-way to the next level, so that distances tie.
fn about_fixed(r: &mut Random) -> [u8; 3] {
    let by = r.one_of(&[0, 0, 1, 5, 20]);
    let fixed = r.one_of(&fixed_colours());
    fixed.map(|c| c.saturating_add_signed(r.one_of(&[0, by, -by])))
}

/// Palettes of any length, refused ones too, in lists that are long enough or not.
pub fn one(m: &mut Maker<'_>, _: usize) -> Case {
    let r = &mut m.r;
    let few = r.from(1, 12);
    let n = r.one_of(&[0, 255, 256, 257, few, few, few, few]);
    let color = r.one_of(&[Random::color, Random::lattice_color, about_fixed]);
    let colors = (0..n).map(|_| color(r)).collect();
    let mut case = of(colors, r.draw());
    let stray = r.one_of(&[0, 0, 0, 0, 0, 0, 0, 0, 0, 1, 2, 3]);
    let more = r.from(1, 9);
    let answers = r.one_of(&[n, n, n, n, n + more, n + more, n.saturating_sub(1), 0]);
    case.kind = Kind::Palettes { stray, answers };
    case
}

/// Colours in palettes of 256.
fn in_palettes(colors: &[[u8; 3]], r: &mut Random) -> Vec<Case> {
    colors
        .chunks(256)
        .map(|part| of(part.to_vec(), r.draw()))
        .collect()
}

/// The 240 colours themselves, and every colour whose components are each a 7th level.
pub fn levels(m: &mut Maker<'_>) -> Vec<Case> {
    let steps = || (0..=255).step_by(7);
    let pairs = steps().flat_map(|r| steps().map(move |g| (r, g)));
    let colors: Vec<[u8; 3]> = pairs
        .flat_map(|(r, g)| steps().map(move |b| [r, g, b]))
        .collect();
    let mut cases = in_palettes(&fixed_colours(), &mut m.r);
    cases.extend(in_palettes(&colors, &mut m.r));
    cases
}

/// All 16,777,216 colours.
pub fn every_colour(m: &mut Maker<'_>) -> Vec<Case> {
    let colors: Vec<[u8; 3]> = (0..1_u32 << 24)
        .map(|n| [(n >> 16) as u8, (n >> 8) as u8, n as u8])
        .collect();
    in_palettes(&colors, &mut m.r)
}
