//! The same colours give the same table and the same cut, however they come in.
use seluvava::{Grid, Refused, Table, WorkTable};

mod common;

fn grids() -> Result<[Grid; 4], Refused> {
    Ok([
        Grid::rgb(),
        Grid::new(2, 4, 8)?,
        Grid::new(128, 2, 64)?,
        Grid::new(32, 32, 32)?,
    ])
}

/// A table of pixels, each once.
fn table_of(grid: Grid, pixels: &[[u8; 3]]) -> Result<Table, Refused> {
    let mut table = Table::new(grid);
    table.load(pixels)?;
    Ok(table)
}

#[test]
fn in_batches() -> Result<(), Refused> {
    let pixels = common::pixels(5_000);
    for grid in grids()? {
        let whole = table_of(grid, &pixels)?;
        assert_eq!(whole.total(), 5_000);
        let mut typed = Table::new(grid);
        let mut bytes = Table::new(grid);
        for batch in pixels.chunks(777).rev() {
            typed.load(batch)?;
            bytes.load_bytes(batch.as_flattened())?;
        }
        assert_eq!(typed, whole);
        assert_eq!(bytes, whole);
    }
    Ok(())
}

#[test]
fn by_merging() -> Result<(), Refused> {
    let pixels = common::pixels(5_000);
    for grid in grids()? {
        let whole = table_of(grid, &pixels)?;
        let parts: Result<Vec<Table>, Refused> = pixels
            .chunks(1_000)
            .map(|part| table_of(grid, part))
            .collect();
        let parts = parts?;

        let mut one_by_one = Table::new(grid);
        for part in &parts {
            one_by_one.merge(part)?;
        }
        assert_eq!(one_by_one, whole);

        let [a, b, c, d, e] = parts.try_into().expect("five parts");
        let [mut left, mut right] = [d, b];
        left.merge(&a)?;
        right.merge(&e)?;
        right.merge(&c)?;
        right.merge(&left)?;
        assert_eq!(right, whole);
        for k in [1, 2, 16, 255, 256] {
            assert_eq!(right.cut(k)?, whole.cut(k)?);
        }
    }
    Ok(())
}

#[test]
fn by_weights() -> Result<(), Refused> {
    let pixels = common::pixels(2_000);
    let weights: Vec<u32> = pixels
        .iter()
        .map(|pixel| u32::from(pixel[1]) % 10)
        .collect();
    let repeated: Vec<[u8; 3]> = pixels
        .iter()
        .zip(&weights)
        .flat_map(|(&pixel, &weight)| vec![pixel; weight as usize])
        .collect();
    for grid in grids()? {
        let whole = table_of(grid, &repeated)?;
        let mut typed = Table::new(grid);
        typed.load_weighted(&pixels, &weights)?;
        assert_eq!(typed, whole);
        let mut bytes = Table::new(grid);
        bytes.load_bytes_weighted(pixels.as_flattened(), &weights)?;
        assert_eq!(bytes, whole);
    }
    Ok(())
}

#[test]
fn over_the_wire() -> Result<(), Refused> {
    for grid in grids()? {
        let table = table_of(grid, &common::pixels(300))?;
        let sent = table.numbers().to_vec();
        let mut received = Table::from_numbers(grid, sent)?;
        assert_eq!(received, table);
        received.load(&[[1, 2, 3]])?;
        assert_ne!(received, table);
        assert_eq!(table.clone().into_numbers(), table.numbers());
    }
    Ok(())
}

#[test]
fn after_clearing() -> Result<(), Refused> {
    for grid in grids()? {
        let mut table = table_of(grid, &common::pixels(300))?;
        table.clear();
        assert_eq!(table, Table::new(grid));
    }
    Ok(())
}

#[test]
fn in_a_kept_work_table() -> Result<(), Refused> {
    let mut work = WorkTable::new();
    for pixels in [300, 5_000] {
        // Up and down in size, so that the work table both grows and is longer than wanted.
        for grid in grids()? {
            let table = table_of(grid, &common::pixels(pixels))?;
            for k in [256, 1, 17] {
                let kept = table.clone();
                assert_eq!(table.cut_with(&mut work, k)?, table.cut(k)?);
                assert_eq!(table, kept);
            }
        }
    }
    Ok(())
}
