//! Which sizes are taken, and how much room a grid asks for.
use seluvava::{Grid, Refused, Table};

#[test]
fn sizes() -> Result<(), Refused> {
    let seven = [2, 4, 8, 16, 32, 64, 128];
    for b1 in seven {
        for b2 in seven {
            for b3 in seven {
                let grid = Grid::new(b1, b2, b3)?;
                assert_eq!(grid.sizes(), [b1, b2, b3]);
                assert_eq!(grid.bins(), b1 * b2 * b3);
                assert_eq!(grid.numbers(), 5 * b1 * b2 * b3);
            }
        }
    }
    assert_eq!(Grid::rgb(), Grid::new(16, 32, 16)?);
    Ok(())
}

#[test]
fn other_sizes() {
    for size in [0, 1, 3, 7, 127, 129, 256, usize::MAX] {
        for [b1, b2, b3] in [[size, 2, 2], [2, size, 2], [2, 2, size]] {
            assert_eq!(Grid::new(b1, b2, b3), Err(Refused::GridSize));
        }
    }
}

#[test]
fn total() -> Result<(), Refused> {
    let mut table = Table::new(Grid::rgb());
    assert_eq!(table.total(), 0);
    table.load(&[[1, 2, 3], [200, 100, 50]])?;
    table.load_weighted(&[[7, 7, 7]], &[u32::MAX - 2])?;
    assert_eq!(table.total(), u64::from(u32::MAX));
    // The weights of an unsound table can be of any size.
    let numbers = vec![u64::MAX; Grid::rgb().numbers()];
    assert_eq!(Table::from_numbers(Grid::rgb(), numbers)?.total(), u64::MAX);
    Ok(())
}
