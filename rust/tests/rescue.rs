//! What a rescue leaves and says, held to the bounds as the header words them.
use seluvava::{Grid, Reason, Refused, Rescue, Table};

mod common;

const LIMIT: u128 = 4_294_967_295;

fn grids() -> Result<[Grid; 4], Refused> {
    Ok([
        Grid::rgb(),
        Grid::new(2, 2, 2)?,
        Grid::new(128, 2, 64)?,
        Grid::new(4, 64, 8)?,
    ])
}

/// Whether the five numbers at a place keep the bounds of their bin.
fn keeps_bounds(grid: Grid, place: usize, five: &[u64]) -> bool {
    let [_, b2, b3] = grid.sizes();
    let bin = [place / (b2 * b3), place / b3 % b2, place % b3];
    let spans = [0, 1, 2].map(|d| {
        let values = 256 / grid.sizes()[d] as u128;
        let low = bin[d] as u128 * values;
        (low, low + values - 1)
    });
    let five: Vec<u128> = five.iter().map(|&number| number.into()).collect();
    let between = |low, high, sum| five[0] * low <= sum && sum <= five[0] * high;
    let sums = (0..3).all(|d| between(spans[d].0, spans[d].1, five[1 + d]));
    let low = spans.iter().map(|span| span.0 * span.0).sum();
    let high = spans.iter().map(|span| span.1 * span.1).sum();
    sums && between(low, high, five[4])
}

/// Holds a rescue to the table before it and after it, bin by bin.
fn check(before: &Table, after: &Table, rescue: &Rescue) {
    let grid = before.grid();
    let mut total = 0;
    let mut cleared = Vec::new();
    for (place, five) in before.numbers().chunks_exact(5).enumerate() {
        let weight = u128::from(five[0]);
        let reason = if weight > LIMIT || !keeps_bounds(grid, place, five) {
            1
        } else if total + weight > LIMIT {
            2
        } else {
            0
        };
        let later = &after.numbers()[5 * place..][..5];
        assert_eq!(rescue.reasons()[place], reason);
        if reason == 0 {
            total += weight;
            assert_eq!(later, five);
        } else {
            cleared.push((place, reason));
            assert_eq!(later, [0; 5]);
        }
    }
    assert_eq!(u128::from(after.total()), total);
    assert_eq!(rescue.grid(), grid);
    assert_eq!(rescue.cleared(), cleared.len());
    assert_eq!(rescue.kept() + rescue.cleared(), grid.bins());
    let past = |reason| cleared.iter().filter(|bin| bin.1 == reason).count();
    assert_eq!(
        (rescue.out_of_bounds(), rescue.past_total()),
        (past(1), past(2))
    );
    let told = rescue.bins().map(|bin| match bin.reason {
        Reason::OutOfBounds => (bin.place, 1),
        Reason::PastTotal => (bin.place, 2),
    });
    assert!(told.eq(cleared));
}

/// Rescues a table, and once more: the second time nothing is cleared.
fn rescued(before: &Table) -> Result<Rescue, Refused> {
    let mut table = before.clone();
    let rescue = table.rescue();
    check(before, &table, &rescue);
    table.load(&[])?;
    let once = table.clone();
    assert_eq!(table.rescue().cleared(), 0);
    assert_eq!(table, once);
    Ok(rescue)
}

#[test]
fn sound_tables_stay() -> Result<(), Refused> {
    for grid in grids()? {
        for pixels in [0, 1, 3_000] {
            let mut table = Table::new(grid);
            table.load(&common::pixels(pixels))?;
            assert_eq!(rescued(&table)?.cleared(), 0);
        }
    }
    Ok(())
}

/// Each bit of some numbers flipped, one at a time.
#[test]
fn flipped_bits() -> Result<(), Refused> {
    for grid in grids()? {
        let mut table = Table::new(grid);
        table.load(&common::pixels(200))?;
        let step = grid.numbers() / 40;
        let mut cleared = 0;
        for at in (0..grid.numbers()).step_by(step.max(1)) {
            for bit in (0..64).step_by(7) {
                let mut numbers = table.numbers().to_vec();
                numbers[at] ^= 1 << bit;
                cleared += rescued(&Table::from_numbers(grid, numbers)?)?.cleared();
            }
        }
        assert!(cleared > 100);
    }
    Ok(())
}

/// Weights that do not fit beside each other: the heaviest first, and lighter ones after it.
#[test]
fn totals() -> Result<(), Refused> {
    let grid = Grid::new(2, 2, 2)?;
    let most = LIMIT as u64;
    let mut numbers = vec![0; 40];
    numbers[0] = most - 3;
    for (place, weight) in [(1, 4), (2, 2), (3, 2), (4, 1), (5, most), (6, most + 1)] {
        let bin = [place / 4, place / 2 % 2, place % 2].map(|half| 128 * half as u64);
        let squares: u64 = bin.iter().map(|low| low * low).sum();
        let five = [
            weight,
            weight * bin[0],
            weight * bin[1],
            weight * bin[2],
            weight * squares,
        ];
        numbers[5 * place..][..5].copy_from_slice(&five);
    }
    let rescue = rescued(&Table::from_numbers(grid, numbers)?)?;
    assert_eq!(rescue.reasons(), [0, 2, 0, 2, 0, 2, 1, 0]);
    Ok(())
}

/// The range of a cleared bin's colours is that of the bin.
#[test]
fn ranges_of_colours() -> Result<(), Refused> {
    for grid in grids()? {
        for pixel in common::pixels(100) {
            let mut table = Table::new(grid);
            table.load(&[pixel])?;
            let mut numbers = table.into_numbers();
            let at = numbers
                .iter()
                .position(|&number| number > 0)
                .expect("a colour");
            numbers[at] = u64::MAX;
            let rescue = Table::from_numbers(grid, numbers)?.rescue();
            let bins: Vec<_> = rescue.bins().collect();
            assert_eq!(bins.len(), 1);
            for (d, size) in grid.sizes().into_iter().enumerate() {
                let same = |c: &usize| c * size / 256 == usize::from(pixel[d]) * size / 256;
                let range = usize::from(bins[0].low[d])..=usize::from(bins[0].high[d]);
                assert!((0..256).filter(same).eq(range));
            }
        }
    }
    Ok(())
}
