//! Tables merged in any order, and tables whose weights are all multiplied by a power of two.
use seluvava::{Cut, Grid, NarrowTable, Refused, Table};

mod common;

fn grids() -> Result<[Grid; 4], Refused> {
    Ok([
        Grid::rgb(),
        Grid::new(2, 2, 2)?,
        Grid::new(128, 2, 64)?,
        Grid::new(4, 32, 8)?,
    ])
}

fn table_of(grid: Grid, colours: &[[u8; 3]], weights: &[u32]) -> Result<Table, Refused> {
    let mut table = Table::new(grid);
    table.load_weighted(colours, weights)?;
    Ok(table)
}

fn merged(one: &Table, two: &Table) -> Result<Table, Refused> {
    let mut both = one.clone();
    both.merge(two)?;
    Ok(both)
}

fn narrow_merged(one: &NarrowTable, two: &NarrowTable) -> Result<NarrowTable, Refused> {
    let mut both = one.clone();
    both.merge(two)?;
    Ok(both)
}

/// A table that no colours make: the squares are as small as they can be, and the sums are not. Its total is 4.
fn of_no_colours() -> Result<Table, Refused> {
    let mut numbers = vec![0; 40];
    numbers[..5].copy_from_slice(&[3, 100, 0, 381, 0]);
    numbers[35..].copy_from_slice(&[1, 128, 255, 200, 3 * 128 * 128]);
    Table::from_numbers(Grid::new(2, 2, 2)?, numbers)
}

/// The table with all its numbers multiplied.
fn multiplied(table: &Table, power: u32) -> Result<Table, Refused> {
    let numbers = table.numbers().iter().map(|n| n * (1 << power)).collect();
    Table::from_numbers(table.grid(), numbers)
}

/// Holds the cut of a table that was multiplied to the cut of the table.
fn holds(often: &Cut, once: &Cut, power: u32) {
    let times = |n: u32| n * (1 << power);
    let counts: Vec<u32> = once.counts().iter().map(|&n| times(n)).collect();
    let remainders: Vec<[u32; 3]> = once
        .remainders()
        .iter()
        .map(|left| left.map(times))
        .collect();
    assert_eq!(often.colour_map(), once.colour_map());
    assert_eq!(often.rounds(), once.rounds());
    assert_eq!(often.counts(), counts);
    assert_eq!(often.remainders(), remainders);
    assert_eq!(often.boxes().len(), once.boxes().len());
    for (x, y) in often.boxes().iter().zip(once.boxes()) {
        let spread = y.spread * (1_u64 << power) as f64;
        assert_eq!((x.min, x.max), (y.min, y.max));
        assert_eq!(x.spread.to_bits(), spread.to_bits());
    }
}

/// Cuts a table and the same multiplied, by both engines and, where the total fits, in both layouts.
fn cuts(table: &Table, power: u32) -> Result<(), Refused> {
    let often = multiplied(table, power)?;
    for k in [1, 2, 17, 256] {
        let once = table.cut(k)?;
        holds(&often.cut(k)?, &once, power);
        holds(&often.cut_slowly(k)?, &once, power);
        if often.total() <= NarrowTable::LARGEST_TOTAL {
            let narrow = NarrowTable::try_from(&often)?;
            holds(&narrow.cut(k)?, &once, power);
            holds(&narrow.cut_slowly(k)?, &once, power);
        }
    }
    Ok(())
}

#[test]
fn merged_in_any_order() -> Result<(), Refused> {
    for grid in grids()? {
        let of = |pixels| table_of(grid, &common::pixels(pixels), &vec![7; pixels]);
        let (a, b, c, empty) = (of(900)?, of(40)?, of(3_000)?, Table::new(grid));
        let numbers = a.numbers().iter().zip(b.numbers());
        let sum: Vec<u64> = numbers.map(|(n, m)| n + m).collect();
        assert_eq!(merged(&a, &b)?.numbers(), sum);
        assert_eq!(merged(&a, &b)?, merged(&b, &a)?);
        assert_eq!(merged(&merged(&a, &b)?, &c)?, merged(&a, &merged(&b, &c)?)?);
        assert_eq!(merged(&a, &empty)?, a);
        assert_eq!(merged(&empty, &a)?, a);

        let [a, b, c, empty] = [&a, &b, &c, &empty].map(NarrowTable::try_from);
        let (a, b, c, empty) = (a?, b?, c?, empty?);
        let [left, right] = [narrow_merged(&a, &b)?, narrow_merged(&b, &c)?];
        assert_eq!(left, narrow_merged(&b, &a)?);
        assert_eq!(narrow_merged(&left, &c)?, narrow_merged(&a, &right)?);
        assert_eq!(narrow_merged(&a, &empty)?, a);
        assert_eq!(narrow_merged(&empty, &a)?, a);
    }
    Ok(())
}

/// Two tables whose total is the largest go together in either order, and with one more in neither.
#[test]
fn merged_at_the_limit() -> Result<(), Refused> {
    let grid = Grid::rgb();
    let white = |weight| table_of(grid, &[[255; 3]], &[weight]);
    let black = |weight| table_of(grid, &[[0; 3]], &[weight]);
    let (full, one) = (white(u32::MAX - 1)?, black(1)?);
    assert_eq!(merged(&full, &one)?, merged(&one, &full)?);
    let two = black(2)?;
    assert_eq!(merged(&full, &two), Err(Refused::Total));
    assert_eq!(merged(&two, &full), Err(Refused::Total));

    let narrow = |table: Result<Table, Refused>| NarrowTable::try_from(&table?);
    let full = narrow(white(NarrowTable::LARGEST_TOTAL as u32 - 1))?;
    let (one, two) = (narrow(black(1))?, narrow(black(2))?);
    assert_eq!(narrow_merged(&full, &one)?, narrow_merged(&one, &full)?);
    assert_eq!(narrow_merged(&full, &two), Err(Refused::NarrowTotal));
    assert_eq!(narrow_merged(&two, &full), Err(Refused::NarrowTotal));
    Ok(())
}

#[test]
fn multiplied_by_a_power_of_two() -> Result<(), Refused> {
    let pixels = common::pixels(400);
    let weights: Vec<u32> = pixels.iter().map(|pixel| u32::from(pixel[1] % 8)).collect();
    for grid in grids()? {
        let table = table_of(grid, &pixels, &weights)?;
        let highest = (u64::from(u32::MAX) / table.total()).ilog2();
        for power in [1, 2, 3, 11, highest] {
            let heavier: Vec<u32> = weights.iter().map(|w| w * (1 << power)).collect();
            assert_eq!(
                table_of(grid, &pixels, &heavier)?,
                multiplied(&table, power)?
            );
            cuts(&table, power)?;
        }
    }
    for power in 0..30 {
        cuts(&of_no_colours()?, power)?;
    }
    assert_eq!(
        multiplied(&of_no_colours()?, 30)?.cut(2),
        Err(Refused::Unsound)
    );
    Ok(())
}
