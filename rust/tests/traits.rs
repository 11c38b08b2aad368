//! What every user may count on of the types: that they can be copied, compared, printed and sent between threads.
use seluvava::{
    BinDifference, ClearedBin, ColourBox, ColourMap, Comparison, Cut, Grid, Lent, NarrowTable,
    Reason, Recorder, Refused, Rescue, Table, WorkTable, ppm,
};
use std::{error::Error, fmt::Debug};

fn is_value<T: Clone + PartialEq + Debug + Send + Sync + Unpin + 'static>() {}

fn is_sent<T: Debug + Default + Send + Sync + Unpin + 'static>() {}

fn is_error<T: Error + Copy + Eq + Send + Sync + 'static>() {}

/// It is the compiler that tests these.
#[test]
fn traits() {
    is_value::<Table>();
    is_value::<NarrowTable>();
    is_value::<Cut>();
    is_value::<ColourMap>();
    is_value::<ColourBox>();
    is_value::<Comparison>();
    is_value::<BinDifference>();
    is_value::<Rescue>();
    is_value::<ClearedBin>();
    is_value::<Reason>();
    is_value::<Recorder>();
    is_value::<Grid>();
    is_value::<Lent>();
    is_value::<ppm::Header>();
    is_sent::<WorkTable>();
    is_error::<Refused>();
}

/// A copy is equal, and goes its own way.
#[test]
fn copies() -> Result<(), Refused> {
    let mut table = Table::new(Grid::rgb());
    table.load(&[[1, 2, 3]])?;
    let copy = table.clone();
    assert_eq!(copy, table);
    table.load(&[[1, 2, 3]])?;
    assert_ne!(copy, table);
    assert_eq!((copy.total(), table.total()), (1, 2));
    Ok(())
}

/// Colours and counts are walked together, from either end.
#[test]
fn colours_with_counts() -> Result<(), Refused> {
    let mut table = Table::new(Grid::rgb());
    table.load(&[[0, 0, 0], [255, 255, 255], [255, 255, 255]])?;
    let cut = table.cut(16)?;
    let colours: Vec<([u8; 3], u32)> = cut.colours().collect();
    assert_eq!(colours, [([255, 255, 255], 2), ([0, 0, 0], 1)]);
    assert_eq!(cut.colours().len(), 2);
    assert_eq!(cut.colours().next_back(), Some(([0, 0, 0], 1)));
    assert_eq!(
        cut.palette(),
        colours.iter().map(|c| c.0).collect::<Vec<_>>()
    );
    assert_eq!(
        cut.counts(),
        colours.iter().map(|c| c.1).collect::<Vec<_>>()
    );
    Ok(())
}

/// A frame mapped into a list that is kept is what a list of its own is.
#[test]
fn mapped_into() -> Result<(), Refused> {
    let frame = [[10, 0, 0], [12, 0, 0], [200, 255, 255], [0, 0, 0]];
    let mut table = Table::new(Grid::rgb());
    table.load(&frame)?;
    let map = table.cut(2)?.into_colour_map();
    let mut indices = [9; 4];
    map.map_into(&frame, &mut indices)?;
    assert_eq!(indices.to_vec(), map.map(&frame)?);
    map.map_into(&[], &mut [])?;
    Ok(())
}
