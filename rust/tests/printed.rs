//! What `Debug` prints is short, however many numbers there are.
use seluvava::{Grid, NarrowTable, Refused, Table, WorkTable};

#[test]
fn printed_without_the_numbers() -> Result<(), Refused> {
    let mut table = Table::new(Grid::new(128, 128, 128)?);
    table.load(&[[0, 0, 0], [255, 255, 255], [255, 255, 255]])?;
    let mut work = WorkTable::new();
    let cut = table.cut_with(&mut work, 16)?;
    let printed = [
        format!("{table:?}"),
        format!("{:?}", NarrowTable::try_from(&table)?),
        format!("{:?}", table.compare(&Table::new(table.grid()))?),
        format!("{:?}", table.clone().rescue()),
        format!("{work:?}"),
        format!("{cut:?}"),
        format!("{:?}", cut.colour_map()),
    ];
    let expected = [
        "Table { grid: [128, 128, 128], total: 3, .. }",
        "NarrowTable { grid: [128, 128, 128], total: 3, .. }",
        "Comparison { grid: [128, 128, 128], differing: 2, .. }",
        "Rescue { grid: [128, 128, 128], out_of_bounds: 0, past_total: 0, .. }",
        "WorkTable { numbers: 10485760 }",
        "Cut { grid: [128, 128, 128], boxes: 2, rounds: 2, .. }",
        "ColourMap { grid: [128, 128, 128], colours: 2, .. }",
    ];
    assert_eq!(printed, expected);
    Ok(())
}
