//! What a comparison says, held to the two tables by plain subtraction.
use seluvava::{Comparison, Grid, Refused, Table};
use std::collections::BTreeSet;

mod common;

fn grids() -> Result<[Grid; 4], Refused> {
    Ok([
        Grid::rgb(),
        Grid::new(2, 2, 2)?,
        Grid::new(128, 2, 64)?,
        Grid::new(4, 64, 8)?,
    ])
}

fn table_of(grid: Grid, pixels: &[[u8; 3]]) -> Result<Table, Refused> {
    let mut table = Table::new(grid);
    table.load(pixels)?;
    Ok(table)
}

/// Holds a comparison to the numbers of both tables.
fn check(first: &Table, second: &Table, compared: &Comparison) {
    let pairs = first.numbers().iter().zip(second.numbers());
    let differences: Vec<i64> = pairs.map(|(&x, &y)| y as i64 - x as i64).collect();
    assert_eq!(compared.differences(), differences);
    let places: BTreeSet<usize> = (0..differences.len())
        .filter(|&i| differences[i] != 0)
        .map(|i| i / 5)
        .collect();
    assert_eq!(compared.grid(), first.grid());
    assert_eq!(compared.differing(), places.len());
    assert_eq!(compared.first(), places.first().copied());
    assert!(compared.bins().map(|bin| bin.place).eq(places));
    for bin in compared.bins() {
        let told = [
            bin.weight,
            bin.sums[0],
            bin.sums[1],
            bin.sums[2],
            bin.squares,
        ];
        assert_eq!(told, differences[5 * bin.place..][..5]);
    }
    assert_eq!(compared.clone().into_differences(), differences);
}

#[test]
fn two_nights() -> Result<(), Refused> {
    for grid in grids()? {
        for (one, two) in [(0, 0), (0, 40), (3_000, 2_999), (3_000, 3_000), (7, 5_000)] {
            let first = table_of(grid, &common::pixels(one))?;
            let second = table_of(grid, &common::pixels(two))?;
            let compared = first.compare(&second)?;
            check(&first, &second, &compared);
            let turned = second.compare(&first)?;
            check(&second, &first, &turned);
            assert_eq!(turned.differing(), compared.differing());
            assert_eq!(turned.first(), compared.first());
            assert_eq!(first.compare(&first)?.bins().count(), 0);
        }
    }
    Ok(())
}

/// Each bin that differs by one colour has that colour in its range, and no colour of a neighbouring bin.
#[test]
fn ranges_of_colours() -> Result<(), Refused> {
    for grid in grids()? {
        let first = table_of(grid, &common::pixels(100))?;
        for pixel in common::pixels(500) {
            let mut second = first.clone();
            second.load(&[pixel])?;
            let compared = first.compare(&second)?;
            let bins: Vec<_> = compared.bins().collect();
            assert_eq!((bins.len(), bins[0].weight), (1, 1));
            assert_eq!(bins[0].sums, pixel.map(i64::from));
            for (d, size) in grid.sizes().into_iter().enumerate() {
                let (low, high) = (usize::from(bins[0].low[d]), usize::from(bins[0].high[d]));
                assert!((low..=high).contains(&usize::from(pixel[d])));
                let same = |c: &usize| c * size / 256 == usize::from(pixel[d]) * size / 256;
                assert!((0..256).filter(same).eq(low..=high));
            }
        }
    }
    Ok(())
}

#[test]
fn the_largest_differences() -> Result<(), Refused> {
    let grid = Grid::new(2, 2, 2)?;
    let mut full = Table::new(grid);
    full.load_weighted(&[[255, 255, 255]], &[u32::MAX])?;
    let empty = Table::new(grid);
    let most = i64::from(u32::MAX);
    let five = [most, 255 * most, 255 * most, 255 * most, 195_075 * most];
    assert_eq!(empty.compare(&full)?.differences()[35..], five);
    assert_eq!(full.compare(&empty)?.differences()[35..], five.map(|x| -x));
    Ok(())
}
