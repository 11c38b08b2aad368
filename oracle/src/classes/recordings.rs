//! Makes recorded lists.
use super::{Grids, Maker, damages};
use crate::{
    answer::Input,
    case::{Case, Kind},
    random::Random,
};

/// Numbers beside the range of intervals, far past it, and past it only in their upper half.
const NO_INTERVALS: [u32; 6] = [0, 4097, 4098, 65_537, 1 << 31, u32::MAX];

/// The intervals of a case: a few, at times the largest or a number that is none among them.
fn intervals(r: &mut Random) -> Vec<u32> {
    let mut list = vec![r.one_of(&[1, 1, 2, 3, 4, 7, 4096])];
    list.push(r.one_of(&[1, 2, 4, 60, 4095, 4096]));
    list.push(r.from(1, 4096) as u32);
    if r.once_in(3) {
        list.push(r.one_of(&NO_INTERVALS));
    }
    list
}

/// Entries with so many colours in all, and the first interval. A batch mostly says the interval in force.
fn list(r: &mut Random, mut colours: usize) -> (u32, Vec<[u32; 3]>) {
    let intervals = intervals(r);
    let first = intervals[0];
    let mut in_force = first;
    let mut entries = Vec::new();
    let length = r.one_of(&[0, 1, 2, 3, 4, 6, 9, 14]);
    for left in (0..length).rev() {
        let interval = r.one_of(&intervals);
        if r.once_in(3) && (left > 0 || colours == 0) {
            entries.push([0, interval, 0]);
            if (1..=4096).contains(&interval) {
                in_force = interval;
            }
            continue;
        }
        let own = if r.once_in(4) { interval } else { in_force };
        let count = match left {
            0 => colours,
            _ if r.once_in(5) => 0,
            _ => r.from(0, (2 * colours / (left + 1)).min(colours)),
        };
        colours -= count;
        entries.push([1, own, count as u32]);
    }
    if colours > 0 {
        entries.push([1, in_force, colours as u32]);
    }
    (first, entries)
}

/// The weight of the table's first colour with which the total of some batch, and those that are accepted before it by
/// their intervals, is the largest, or one or two off.
fn at_the_limit(r: &mut Random, input: &mut Input, split: usize, first: u32, list: &[[u32; 3]]) {
    let mut in_force = first;
    let mut at = split;
    let mut total: u64 = input.weights[1..split].iter().map(|&w| u64::from(w)).sum();
    let mut totals = vec![total];
    for &[kind, interval, count] in list {
        let own = &input.weights[at..at + count as usize];
        at += own.len();
        if kind == 0 && (1..=4096).contains(&interval) {
            in_force = interval;
        } else if kind == 1 && interval == in_force {
            total += own
                .iter()
                .map(|&w| u64::from(interval) * u64::from(w))
                .sum::<u64>();
            totals.push(total);
        }
    }
    let limit = u64::from(u32::MAX) + 2 - r.from(0, 4) as u64;
    let weight = limit.checked_sub(r.one_of(&totals));
    input.weights[0] = weight.map_or(0, |w| w.min(u32::MAX.into()) as u32);
}

/// A recorded list over a table, at any of the 343 grids, those of at most 4,096 bins more often; one time in three
/// with a total at the limit, and one time in two with something damaged.
pub fn one(m: &mut Maker<'_>, i: usize) -> Case {
    let n = m.r.from(0, 40);
    let most = m.r.one_of(&[1, 3, 1000, 100_000, 1_000_000, 4_294_967_295]);
    let color = m.r.one_of(&[Random::color, Random::lattice_color]);
    let mut input = m.input(n, color, |r| r.from(0, most) as u32);
    let every = Grids::all();
    let grid = match i % 16 {
        0 => every.all[i / 16 % every.all.len()],
        _ => every.light[i % every.light.len()],
    };
    let split = m.r.from(0, n / 2);
    let (first, entries) = list(&mut m.r, n - split);
    if split > 0 && m.r.once_in(3) {
        at_the_limit(&mut m.r, &mut input, split, first, &entries);
    }
    let kind = Kind::Recordings {
        split,
        first,
        entries,
        damages: Vec::new(),
    };
    let mut case = m.case(grid, 1, input, kind);
    let count = m.r.one_of(&[0, 0, 0, 1, 1, 2]);
    let made = (0..count).map(|_| damages::one(&case, &mut m.r)).collect();
    if let Kind::Recordings { damages, .. } = &mut case.kind {
        *damages = made;
    }
    case
}
