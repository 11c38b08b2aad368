//! What a cut says, held to the pixels that were loaded: each part of it is found again by plain counting.
use seluvava::{Cut, Grid, Refused, Table};
use std::collections::{BTreeMap, BTreeSet};

mod common;

/// The bin of a component among so many.
fn bin(component: u8, size: usize) -> u8 {
    (usize::from(component) * size / 256) as u8
}

fn bins(pixel: [u8; 3], grid: Grid) -> [u8; 3] {
    let sizes = grid.sizes();
    [0, 1, 2].map(|i| bin(pixel[i], sizes[i]))
}

/// The boxes that hold a bin.
fn holders(cut: &Cut, bins: [u8; 3]) -> Vec<usize> {
    let holds = |i: &usize| {
        let x = cut.boxes()[*i];
        (0..3).all(|d| (x.min[d]..x.max[d]).contains(&bins[d]))
    };
    (0..cut.boxes().len()).filter(holds).collect()
}

/// The means of some pixels, rounded down, and what that leaves.
fn mean(pixels: &[[u8; 3]]) -> ([u8; 3], [u32; 3]) {
    let sum = |i: usize| {
        pixels
            .iter()
            .map(|pixel| usize::from(pixel[i]))
            .sum::<usize>()
    };
    let means = [0, 1, 2].map(|i| (sum(i) / pixels.len()) as u8);
    (means, [0, 1, 2].map(|i| (sum(i) % pixels.len()) as u32))
}

fn check(grid: Grid, pixels: &[[u8; 3]], k: usize) -> Result<(), Refused> {
    let mut table = Table::new(grid);
    table.load(pixels)?;
    let cut = table.cut(k)?;
    assert_eq!(table.cut_slowly(k)?, cut);
    let map = cut.colour_map();

    let occupied: BTreeSet<[u8; 3]> = pixels.iter().map(|&pixel| bins(pixel, grid)).collect();
    let number = occupied.len().min(k);
    assert_eq!((cut.boxes().len(), cut.counts().len()), (number, number));
    assert!((number - 1..=2 * k - 2).contains(&cut.rounds()));
    assert_eq!(
        (map.grid(), map.entries().len(), map.palette()),
        (grid, grid.bins(), cut.palette())
    );

    // Each bin lies in one box, whose index is the entry of the map.
    let [b1, b2, b3] = grid.sizes().map(|size| size as u8);
    let places = (0..b1).flat_map(|r| (0..b2).flat_map(move |g| (0..b3).map(move |b| [r, g, b])));
    for (bins, &entry) in places.zip(map.entries()) {
        assert_eq!(holders(&cut, bins), [usize::from(entry)]);
    }

    // A pixel's index is that of its box; a box's count and colour are those of its pixels.
    let mut by_index: BTreeMap<usize, Vec<[u8; 3]>> = BTreeMap::new();
    for (&pixel, index) in pixels.iter().zip(map.map(pixels)?) {
        assert_eq!(holders(&cut, bins(pixel, grid)), [usize::from(index)]);
        by_index.entry(usize::from(index)).or_default().push(pixel);
    }
    let counts: Vec<u32> = by_index
        .values()
        .map(|pixels| pixels.len() as u32)
        .collect();
    assert_eq!(cut.counts(), counts);
    let (palette, remainders): (Vec<_>, Vec<_>) =
        by_index.values().map(|pixels| mean(pixels)).unzip();
    assert_eq!(
        (cut.palette(), cut.remainders()),
        (&palette[..], &remainders[..])
    );
    Ok(())
}

#[test]
fn cuts() -> Result<(), Refused> {
    for grid in [Grid::rgb(), Grid::new(8, 2, 4)?, Grid::new(2, 16, 64)?] {
        for pixels in [1, 2, 40, 3_000] {
            for k in [1, 2, 7, 256] {
                check(grid, &common::pixels(pixels), k)?;
            }
        }
    }
    Ok(())
}
