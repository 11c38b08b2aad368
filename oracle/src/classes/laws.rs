//! Makes the cases of the laws: tables merged in any order, and multiplied by a power of two.
use super::{Grids, Maker, damages};
use crate::{
    case::{Case, Kind, LIGHT},
    numbers::bins,
    port::Grid,
    random::Random,
};

/// The largest total of each layout, with the largest power of two that is none too large.
const LARGEST: [(u32, usize); 2] = [(16_843_008, 24), (4_294_967_295, 31)];

/// Mostly a light grid of the judge, one time in 32 that of `rgb()`, and one time in 256 any of the 343.
fn grid(m: &mut Maker<'_>) -> Grid {
    match m.r.from(0, 255) {
        0 => m.r.one_of(&Grids::all().all),
        1..=8 => [16, 32, 16],
        _ => m.r.one_of(&m.grids.light),
    }
}

/// Two to eight tables, some of them of zeros, merged: two times in three the total of all is the largest of a layout,
/// or up to two off; one time in four something is damaged.
pub fn trees(m: &mut Maker<'_>, _: usize) -> Case {
    let grid = grid(m);
    let most = if bins(grid) > LIGHT { 3 } else { 8 };
    let any = m.r.from(2, most);
    let tables: Vec<[usize; 2]> = (0..m.r.one_of(&[2, any, any]))
        .map(|_| [m.r.from(0, 1), m.r.one_of(&[0, 1, 2, 3, 6, 12])])
        .collect();
    let n = tables.iter().map(|[_, colours]| colours).sum();
    let color = m.r.one_of(&[Random::color, Random::lattice_color]);
    let most = m.r.one_of(&[1, 3, 1000, 3_000_000]);
    let mut input = m.input(n, color, |r| r.from(0, most) as u32);
    if n > 0 && !m.r.once_in(3) {
        let (largest, _) = m.r.one_of(&LARGEST);
        let total = largest - m.r.from(0, 2) as u32;
        input.weights = m.r.weights(n, total);
        m.r.shuffle(&mut input.weights);
        let at = m.r.from(0, n - 1);
        input.weights[at] = input.weights[at].saturating_add(m.r.from(0, 2) as u32);
    }
    let damages = Vec::new();
    let mut case = m.case(grid, 1, input, Kind::Trees { tables, damages });
    let count = m.r.one_of(&[0, 0, 0, 0, 0, 0, 1, 2]);
    let made = (0..count).map(|_| damages::one(&case, &mut m.r)).collect();
    if let Kind::Trees { damages, .. } = &mut case.kind {
        *damages = made;
    }
    case
}

/// A table multiplied by a power of two, often as far as its layout goes, so that its own total is small where the
/// power is large; every other one has numbers that mostly no colours make.
pub fn doubled(m: &mut Maker<'_>, _: usize) -> Case {
    let (grid, k) = (grid(m), m.k());
    let (largest, highest) = m.r.one_of(&LARGEST);
    let (low, any) = (m.r.from(0, 12), m.r.from(0, highest));
    let power = m.r.one_of(&[low, any]);
    let most = largest >> power;
    let total = m.r.from(1, most as usize) as u32;
    let total = m.r.one_of(&[total, most]);
    let (few, many) = (m.r.from(1, 40), m.r.from(100, 400));
    let n = m.r.one_of(&[few, few, few, few, few, few, few, many]);
    let base = m.r.lattice_color();
    let close = |r: &mut Random| base.map(|c| c.saturating_sub(r.from(0, 3) as u8));
    let mut input = match m.r.from(0, 2) {
        0 => m.input(n, Random::color, |_| 0),
        1 => m.input(n, Random::lattice_color, |_| 0),
        _ => m.input(n, close, |_| 0),
    };
    input.weights = match total / n as u32 {
        0 => m.r.weights(n, total),
        _ if m.r.once_in(2) => m.r.weights(n, total),
        // No weight is 0, and what is left over is the first colour's.
        each => {
            let mut weights: Vec<u32> = (0..n).map(|_| m.r.from(1, each as usize) as u32).collect();
            weights[0] += total - weights.iter().sum::<u32>();
            weights
        }
    };
    let free = m.r.once_in(2);
    m.case(grid, k, input, Kind::Doubled { power, free })
}
