//! Each refusal, the order of their numbers, and that a refused call changes nothing.
use seluvava::{ColourMap, Grid, Lent, NarrowTable, Refused, Table};
use std::{collections::HashSet, ops::Range};

fn grid() -> Grid {
    Grid::new(2, 2, 2).unwrap()
}

/// A table with a colour in it.
fn table() -> Table {
    let mut table = Table::new(grid());
    table.load(&[[9, 9, 9]]).unwrap();
    table
}

/// A table with as many colours as one can hold.
fn full() -> Table {
    let mut table = Table::new(grid());
    table.load_weighted(&[[9, 9, 9]], &[u32::MAX]).unwrap();
    table
}

/// A table whose first bin has squares and no colour.
fn unsound() -> Table {
    let mut numbers = vec![0; grid().numbers()];
    numbers[4] = 1;
    Table::from_numbers(grid(), numbers).unwrap()
}

/// A table of weight 2 in one bin of 2,2,2, each component of which lies in the low half or in the high one, with the
/// smallest sums and these squares.
fn squares(high: [bool; 3], squares: u64) -> Table {
    let low = high.map(|high| if high { 128 } else { 0 });
    let place = high
        .iter()
        .fold(0, |place, &high| 2 * place + usize::from(high));
    let mut numbers = vec![0; grid().numbers()];
    numbers[5 * place..][..5].copy_from_slice(&[2, 2 * low[0], 2 * low[1], 2 * low[2], squares]);
    Table::from_numbers(grid(), numbers).unwrap()
}

/// Holds a call on a table to its number, and the table to what it was.
fn refuses(number: u8, table: &Table, call: impl Fn(&mut Table) -> Result<(), Refused>) {
    let mut later = table.clone();
    let refused = call(&mut later).unwrap_err();
    assert_eq!(refused.number(), number);
    assert_eq!(&later, table);
}

#[test]
fn lengths_of_parts() {
    for length in [0, 39, 41, 80] {
        assert_eq!(
            Table::from_numbers(grid(), vec![0; length]),
            Err(Refused::Length(Lent::Numbers))
        );
    }
    for (entries, colours) in [(7, 1), (9, 1), (0, 1), (8, 0), (8, 257)] {
        let map = ColourMap::from_parts(grid(), vec![0; entries], vec![[0; 3]; colours]);
        let wrong = if entries == 8 {
            Lent::Palette
        } else {
            Lent::MapEntries
        };
        assert_eq!(
            map,
            Err(Refused::Length(wrong)),
            "{entries} entries, {colours} colours"
        );
    }
    assert!(Table::from_numbers(grid(), vec![0; 40]).is_ok());
    assert!(ColourMap::from_parts(grid(), vec![255; 8], vec![[0; 3]; 256]).is_ok());
}

/// The squares lie between n times the sum of the three squared lows and n times that of the three squared highs.
#[test]
fn squares_of_a_bin() {
    for corner in 0..8 {
        let high = [4, 2, 1].map(|bit| corner & bit != 0);
        let halves = high.iter().filter(|&&high| high).count() as u64;
        let lows = 2 * halves * 128 * 128;
        let highs = 2 * (halves * 255 * 255 + (3 - halves) * 127 * 127);
        for sound in [lows, highs] {
            let mut table = squares(high, sound);
            table.merge(&squares(high, sound)).unwrap();
            table.load(&[]).unwrap();
            assert_eq!(table.cut(2).unwrap().counts(), [4]);
        }
        for unsound in [lows.wrapping_sub(1), highs + 1] {
            let unsound = squares(high, unsound);
            refuses(6, &unsound, |t| t.load(&[]));
            refuses(6, &unsound, |t| t.merge(&table()));
            refuses(6, &table(), |t| t.merge(&unsound));
            refuses(6, &unsound, |t| t.cut(2).map(|_| ()));
        }
        if halves > 0 {
            refuses(6, &squares(high, 0), |t| t.cut(2).map(|_| ()));
        }
    }
}

#[test]
fn load() {
    let black = [[0, 0, 0]];
    refuses(3, &table(), |t| t.load_bytes(&[0; 4]));
    refuses(3, &table(), |t| t.load_bytes_weighted(&[0; 5], &[1]));
    refuses(4, &table(), |t| t.load_weighted(&black, &[]));
    refuses(4, &table(), |t| t.load_weighted(&black, &[1, 1]));
    refuses(4, &table(), |t| t.load_weighted(&[], &[1]));
    refuses(6, &unsound(), |t| t.load(&black));
    refuses(6, &unsound(), |t| t.load(&[]));
    refuses(7, &full(), |t| t.load(&black));
    refuses(7, &table(), |t| t.load_weighted(&black, &[u32::MAX]));
    refuses(7, &table(), |t| {
        t.load_weighted(&[[0, 0, 0]; 3], &[u32::MAX; 3])
    });
    // The lowest number that applies.
    refuses(3, &unsound(), |t| t.load_bytes_weighted(&[0; 4], &[]));
    refuses(4, &unsound(), |t| t.load_weighted(&black, &[]));
    refuses(6, &unsound(), |t| {
        t.load_weighted(&[[0, 0, 0]; 2], &[u32::MAX; 2])
    });
}

#[test]
fn loads_that_add_nothing() {
    let mut later = full();
    later.load(&[]).unwrap();
    later.load_weighted(&[], &[]).unwrap();
    later.load_weighted(&[[1, 2, 3]], &[0]).unwrap();
    assert_eq!(later, full());
}

#[test]
fn merge() {
    // The same number of bins, and not the same grid.
    let long = Table::new(Grid::new(4, 2, 2).unwrap());
    refuses(5, &long, |t| {
        t.merge(&Table::new(Grid::new(2, 4, 2).unwrap()))
    });
    refuses(5, &table(), |t| t.merge(&long));
    assert_eq!(table().merge(&long), Err(Refused::OtherGrid));
    refuses(6, &unsound(), |t| t.merge(&table()));
    refuses(6, &table(), |t| t.merge(&unsound()));
    refuses(7, &full(), |t| t.merge(&table()));
    refuses(7, &table(), |t| t.merge(&full()));
    // The lowest number that applies.
    refuses(5, &unsound(), |t| t.merge(&long));
    refuses(6, &full(), |t| t.merge(&unsound()));
}

#[test]
fn compare() {
    let compared = |first: &Table, second: &Table| first.compare(second).map(|_| ());
    // The same number of bins, and not the same grid.
    let long = Table::new(Grid::new(4, 2, 2).unwrap());
    let other = Table::new(Grid::new(2, 4, 2).unwrap());
    refuses(5, &long, |t| compared(t, &other));
    refuses(5, &table(), |t| compared(t, &long));
    assert_eq!(compared(&table(), &long), Err(Refused::OtherGrid));
    refuses(6, &unsound(), |t| compared(t, &table()));
    refuses(6, &table(), |t| compared(t, &unsound()));
    refuses(6, &unsound(), |t| compared(t, &unsound()));
    // The lowest number that applies.
    refuses(5, &unsound(), |t| compared(t, &long));
    assert!(compared(&full(), &full()).is_ok());
}

#[test]
fn cut() {
    let empty = Table::new(grid());
    for call in [Table::cut, Table::cut_slowly] {
        let cut = |table: &Table, k| call(table, k).map(|_| ());
        for k in [0, 257, usize::MAX] {
            refuses(2, &table(), |t| cut(t, k));
            refuses(2, &unsound(), |t| cut(t, k));
            refuses(2, &empty, |t| cut(t, k));
        }
        refuses(6, &unsound(), |t| cut(t, 1));
        refuses(8, &empty, |t| cut(t, 256));
    }
}

/// A colour map with an entry that is not below the palette's length.
fn bad_map() -> ColourMap {
    ColourMap::from_parts(grid(), vec![0, 0, 0, 0, 0, 0, 0, 1], vec![[7, 7, 7]]).unwrap()
}

/// Holds mapping and painting a band of a frame of bytes to a number, and what they are lent to what it was.
fn band_refuses(number: u8, map: &ColourMap, bytes: usize, band: Range<usize>) {
    let mut frame = vec![200; bytes];
    let mut indices = vec![9; bytes / 3];
    let mapped = map
        .map_bytes(&frame, &mut indices, band.clone())
        .unwrap_err();
    assert_eq!(
        (mapped.number(), indices),
        (number, vec![9; bytes / 3]),
        "{band:?}"
    );
    let painted = map.paint_bytes(&mut frame, band.clone()).unwrap_err();
    assert_eq!(
        (painted.number(), frame),
        (number, vec![200; bytes]),
        "{band:?}"
    );
}

#[test]
fn map_and_paint() {
    let good = table().cut(1).unwrap().into_colour_map();
    let bad = bad_map();
    let backwards = Range { start: 2, end: 1 };
    for map in [&good, &bad] {
        band_refuses(3, map, 7, 0..2);
        band_refuses(3, map, 7, backwards.clone());
        for band in [
            0..3,
            1..3,
            2..3,
            3..3,
            backwards.clone(),
            1..usize::MAX,
            usize::MAX..usize::MAX,
        ] {
            band_refuses(5, map, 6, band.clone());
            let mapped = map.map_band(&[[0; 3]; 2], &mut [0; 2], band.clone());
            let painted = map.paint_band(&mut [[0; 3]; 2], band);
            assert_eq!([mapped, painted], [Err(Refused::Band); 2]);
        }
    }
    // Every entry is looked at, whatever the band.
    for band in [0..2, 0..1, 1..1, 2..2] {
        band_refuses(9, &bad, 6, band);
    }
    assert_eq!(bad.map(&[]), Err(Refused::MapEntry));
    assert_eq!(bad.paint(&mut []), Err(Refused::MapEntry));
}

#[test]
fn index_buffer() {
    let map = table().cut(1).unwrap().into_colour_map();
    for length in [0, 1, 3] {
        let mut indices = vec![9; length];
        let wrong = Err(Refused::Length(Lent::Indices));
        let mapped = map.map_band(&[[0, 0, 0]; 2], &mut indices, 0..1);
        assert_eq!((mapped, &indices), (wrong, &vec![9; length]));
        let mapped = map.map_into(&[[0, 0, 0]; 2], &mut indices);
        assert_eq!((mapped, indices), (wrong, vec![9; length]));
    }
}

/// A check answers what a call that is lent the table answers, and leaves it as it is.
#[test]
fn check() {
    let empty = Table::new(grid());
    for sound in [&empty, &table(), &full()] {
        assert_eq!(sound.check(), Ok(()));
        assert_eq!(sound.clone().load(&[]), Ok(()));
    }
    refuses(6, &unsound(), |t| t.check());
    for corner in 0..8 {
        let high = [4, 2, 1].map(|bit| corner & bit != 0);
        let halves = high.iter().filter(|&&high| high).count() as u64;
        let highs = 2 * (halves * 255 * 255 + (3 - halves) * 127 * 127);
        assert_eq!(squares(high, highs).check(), Ok(()));
        refuses(6, &squares(high, highs + 1), |t| t.check());
    }
    // Too much weight over all bins, each of which is within its bounds.
    let mut numbers = vec![0; grid().numbers()];
    (numbers[0], numbers[5]) = (1, u64::from(u32::MAX));
    numbers[8] = 128 * numbers[5];
    numbers[9] = 128 * 128 * numbers[5];
    refuses(6, &Table::from_numbers(grid(), numbers).unwrap(), |t| {
        t.check()
    });

    let parts = |sums, squares| NarrowTable::from_parts(grid(), sums, squares).unwrap();
    assert_eq!(NarrowTable::new(grid()).check(), Ok(()));
    assert_eq!(NarrowTable::try_from(&table()).unwrap().check(), Ok(()));
    assert_eq!(
        parts(vec![0; 32], vec![1; 8]).check(),
        Err(Refused::Unsound)
    );
}

#[test]
fn numbers_and_texts() {
    let all: Vec<Refused> = (0..=u8::MAX).filter_map(Refused::from_number).collect();
    assert_eq!(
        all.iter()
            .map(|refused| refused.number())
            .collect::<Vec<_>>(),
        [1, 2, 3, 4, 5, 6, 7, 8, 9, 10, 11, 12, 13, 14, 15]
    );
    let named = [
        Lent::Numbers,
        Lent::Sums,
        Lent::Squares,
        Lent::MapEntries,
        Lent::Palette,
        Lent::Indices,
        Lent::TerminalNumbers,
        Lent::Entries,
        Lent::Colours,
        Lent::RecordedWeights,
        Lent::Answers,
    ];
    let fives = [Refused::Band, Refused::OtherGrid, Refused::Entry];
    let fives = fives.into_iter().chain(named.map(Refused::Length));
    assert!(fives.clone().all(|refused| refused.number() == 5));
    let all: Vec<Refused> = all.into_iter().chain(fives).collect();
    let texts: HashSet<String> = all.iter().map(|refused| refused.to_string()).collect();
    assert_eq!(texts.len(), all.len(), "each says something else");
    for refused in all {
        let error: &dyn std::error::Error = &refused;
        let start = format!("refused {}: ", refused.number());
        assert!(error.to_string().starts_with(&start), "{error}");
    }
}
