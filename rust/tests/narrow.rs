//! Narrow tables beside tables of the same colours: they give the same, up to the total at which they are refused.
use seluvava::{Cut, Grid, Lent, NarrowTable, Refused, Table, WorkTable};
use seluvava_sys::seluvava_narrow_cut;

mod common;

const LIMIT: u32 = 16_843_008;

fn grid() -> Grid {
    Grid::new(2, 2, 2).unwrap()
}

fn grids() -> Result<[Grid; 4], Refused> {
    Ok([
        Grid::rgb(),
        Grid::new(2, 2, 2)?,
        Grid::new(128, 2, 64)?,
        Grid::new(4, 32, 8)?,
    ])
}

/// The narrow table and the table of some pixels.
fn tables(grid: Grid, pixels: &[[u8; 3]]) -> Result<(NarrowTable, Table), Refused> {
    let (mut narrow, mut wide) = (NarrowTable::new(grid), Table::new(grid));
    narrow.load(pixels)?;
    wide.load(pixels)?;
    Ok((narrow, wide))
}

/// The five numbers of each bin, from the lists of a narrow table.
fn five_each(sums: &[u32], squares: &[u64]) -> Vec<u64> {
    assert_eq!(sums.len(), 4 * squares.len());
    let bins = sums.chunks_exact(4).zip(squares);
    bins.flat_map(|(sums, &squares)| sums.iter().map(|&n| u64::from(n)).chain([squares]))
        .collect()
}

/// Whether a narrow table has the numbers of a table, bin by bin.
fn same(narrow: &NarrowTable, wide: &Table) -> bool {
    narrow.grid() == wide.grid() && five_each(narrow.sums(), narrow.squares()) == wide.numbers()
}

/// What a cut leaves in a narrow work table, five numbers a bin. The crate shows no work table, so the call is made as
/// a C program makes it.
fn moments(table: &NarrowTable, k: usize) -> Vec<u64> {
    let ([b1, b2, b3], bins) = (table.grid().sizes(), table.grid().bins());
    let (mut sums, mut squares) = (vec![6; 4 * bins], vec![6; bins]);
    let (mut palette, mut counts, mut remainders) = (vec![0; 3 * k], vec![0; k], vec![0; 3 * k]);
    let (mut map, mut boxes, mut spreads) = (vec![0; bins], vec![0; 6 * k], vec![0.0; k]);
    // SAFETY: pointers and lengths are those of lists, and each that is written is one of its own.
    let answer = unsafe {
        seluvava_narrow_cut(
            b1,
            b2,
            b3,
            k,
            table.sums().as_ptr(),
            table.sums().len(),
            table.squares().as_ptr(),
            table.squares().len(),
            sums.as_mut_ptr(),
            sums.len(),
            squares.as_mut_ptr(),
            squares.len(),
            palette.as_mut_ptr(),
            palette.len(),
            counts.as_mut_ptr(),
            counts.len(),
            remainders.as_mut_ptr(),
            remainders.len(),
            map.as_mut_ptr(),
            map.len(),
            boxes.as_mut_ptr(),
            boxes.len(),
            spreads.as_mut_ptr(),
            spreads.len(),
        )
    };
    assert_eq!(answer.number, 0);
    five_each(&sums, &squares)
}

/// A narrow table whose only bin with weight has this one, of black.
fn black(weight: u32) -> NarrowTable {
    let mut table = NarrowTable::new(grid());
    table.load_weighted(&[[0; 3]], &[weight]).unwrap();
    table
}

/// A narrow table whose first bin has squares and no colour.
fn unsound() -> NarrowTable {
    let (sums, mut squares) = NarrowTable::new(grid()).into_parts();
    squares[0] = 1;
    NarrowTable::from_parts(grid(), sums, squares).unwrap()
}

/// A narrow table whose bins each keep their bounds, with this total in two of them.
fn of_total(total: u32) -> NarrowTable {
    let (mut sums, squares) = NarrowTable::new(grid()).into_parts();
    sums[0] = total - 1;
    sums[4] = 1;
    sums[7] = 128;
    let mut squares = squares;
    squares[1] = 128 * 128;
    NarrowTable::from_parts(grid(), sums, squares).unwrap()
}

/// Holds a call on a table to its number, and the table to what it was.
fn refuses(
    number: u8,
    table: &NarrowTable,
    call: impl Fn(&mut NarrowTable) -> Result<(), Refused>,
) {
    let mut later = table.clone();
    let refused = call(&mut later).unwrap_err();
    assert_eq!(refused.number(), number);
    assert_eq!(&later, table);
}

#[test]
fn loads_merges_and_cuts() -> Result<(), Refused> {
    let mut work = WorkTable::new();
    for grid in grids()? {
        let pixels = common::pixels(3_000);
        let weights: Vec<u32> = pixels.iter().map(|pixel| u32::from(pixel[2])).collect();
        let (mut narrow, mut wide) = tables(grid, &pixels)?;
        assert!(same(&narrow, &wide));
        narrow.load_weighted(&pixels, &weights)?;
        wide.load_weighted(&pixels, &weights)?;
        assert!(same(&narrow, &wide));
        let (second, wide_second) = tables(grid, &common::pixels(700))?;
        narrow.merge(&second)?;
        wide.merge(&wide_second)?;
        assert!(same(&narrow, &wide));
        assert_eq!(narrow.total(), wide.total());
        assert_eq!(narrow.widen()?, wide);
        assert_eq!(NarrowTable::try_from(&wide)?, narrow);
        for k in [1, 2, 17, 256] {
            let (cut, before) = (wide.cut(k)?, narrow.clone());
            assert_eq!(narrow.cut(k)?, cut);
            // The work table is kept from one layout to the other, and from grid to grid.
            assert_eq!(narrow.cut_with(&mut work, k)?, cut);
            assert_eq!(wide.cut_with(&mut work, k)?, cut);
            assert_eq!(narrow.cut_slowly(k)?, cut);
            assert_eq!(narrow.widen()?.cut(k)?, cut);
            assert_eq!(narrow, before);
        }
        narrow.clear();
        assert_eq!(narrow, NarrowTable::new(grid));
    }
    Ok(())
}

#[test]
fn in_any_order_and_batches() -> Result<(), Refused> {
    let pixels = common::pixels(5_000);
    for grid in grids()? {
        let (whole, _) = tables(grid, &pixels)?;
        let mut batches = NarrowTable::new(grid);
        for batch in pixels.chunks(777).rev() {
            batches.load_bytes(batch.as_flattened())?;
        }
        assert_eq!(batches, whole);
        let mut merged = NarrowTable::new(grid);
        for part in pixels.chunks(1_000) {
            let mut other = NarrowTable::new(grid);
            other.load_bytes_weighted(part.as_flattened(), &vec![1; part.len()])?;
            other.merge(&merged)?;
            merged = other;
        }
        assert_eq!(merged, whole);
    }
    Ok(())
}

#[test]
fn lengths_of_parts() {
    for (sums, squares) in [(31, 8), (33, 8), (32, 7), (32, 9), (0, 8), (32, 0), (8, 32)] {
        let table = NarrowTable::from_parts(grid(), vec![0; sums], vec![0; squares]);
        let wrong = if sums == 32 {
            Lent::Squares
        } else {
            Lent::Sums
        };
        assert_eq!(
            table,
            Err(Refused::Length(wrong)),
            "{sums} sums, {squares} squares"
        );
    }
    let empty = NarrowTable::from_parts(grid(), vec![0; 32], vec![0; 8]);
    assert_eq!(empty, Ok(NarrowTable::new(grid())));
}

#[test]
fn refusals() {
    let table = black(1);
    refuses(3, &table, |t| t.load_bytes(&[0; 4]));
    refuses(4, &table, |t| t.load_weighted(&[[0; 3]], &[]));
    refuses(4, &unsound(), |t| t.load_weighted(&[[0; 3]], &[1, 1]));
    refuses(6, &unsound(), |t| t.load(&[]));
    refuses(6, &unsound(), |t| t.load_weighted(&[[0; 3]], &[u32::MAX]));
    refuses(15, &table, |t| t.load_weighted(&[[0; 3]], &[LIMIT]));
    refuses(15, &table, |t| {
        t.load_weighted(&[[0; 3]; 3], &[u32::MAX; 3])
    });
    // The same number of bins, and not the same grid.
    let [long, other] = [(4, 2, 2), (2, 4, 2)]
        .map(|(b1, b2, b3)| NarrowTable::new(Grid::new(b1, b2, b3).expect("sizes of the seven")));
    refuses(5, &long, |t| t.merge(&other));
    refuses(5, &unsound(), |t| t.merge(&long));
    refuses(6, &unsound(), |t| t.merge(&table));
    refuses(6, &table, |t| t.merge(&unsound()));
    refuses(15, &black(LIMIT), |t| t.merge(&table));
    refuses(15, &table, |t| t.merge(&black(LIMIT)));
    refuses(6, &unsound(), |t| t.widen().map(|_| ()));
    let empty = NarrowTable::new(grid());
    for call in [NarrowTable::cut, NarrowTable::cut_slowly] {
        let cut = |table: &NarrowTable, k| call(table, k).map(|_| ());
        refuses(2, &unsound(), |t| cut(t, 0));
        refuses(2, &empty, |t| cut(t, 257));
        refuses(6, &unsound(), |t| cut(t, 1));
        refuses(8, &empty, |t| cut(t, 256));
    }
}

/// 16,843,008 is a total like any other, and one more is none of a narrow table.
#[test]
fn at_the_limit() -> Result<(), Refused> {
    assert_eq!(u64::from(LIMIT), NarrowTable::LARGEST_TOTAL);
    let mut table = of_total(LIMIT);
    table.load(&[])?;
    table.merge(&NarrowTable::new(grid()))?;
    assert_eq!((table.total(), &table), (LIMIT.into(), &of_total(LIMIT)));
    let wide = table.widen()?;
    assert_eq!(table.cut(2)?, wide.cut(2)?);
    assert_eq!(table.cut_slowly(2)?, wide.cut(2)?);
    refuses(15, &table, |t| t.load(&[[0; 3]]));

    let heavy = of_total(LIMIT + 1);
    assert_eq!(heavy.total(), u64::from(LIMIT) + 1);
    refuses(6, &heavy, |t| t.load(&[]));
    refuses(6, &heavy, |t| t.merge(&NarrowTable::new(grid())));
    refuses(6, &heavy, |t| t.cut(2).map(|_| ()));
    refuses(6, &heavy, |t| t.cut_slowly(2).map(|_| ()));
    refuses(6, &heavy, |t| t.widen().map(|_| ()));

    // Weights that are small when they are added up in 32 bits.
    let (mut sums, squares) = NarrowTable::new(grid()).into_parts();
    (sums[0], sums[4], sums[7]) = (u32::MAX, 1, 128);
    let wrapped = NarrowTable::from_parts(grid(), sums, squares)?;
    assert_eq!(wrapped.total(), 1 << 32);
    refuses(6, &wrapped, |t| t.load(&[]));

    // White has the largest sums that there are.
    let mut white = NarrowTable::new(grid());
    white.load_weighted(&[[255; 3]], &[LIMIT])?;
    assert_eq!(
        white.sums()[28..],
        [LIMIT, 255 * LIMIT, 255 * LIMIT, 255 * LIMIT]
    );
    assert_eq!(white.cut(4)?.palette(), [[255; 3]]);
    Ok(())
}

#[test]
fn narrowing() -> Result<(), Refused> {
    let empty = Table::new(grid());
    assert_eq!(NarrowTable::try_from(&empty)?, NarrowTable::new(grid()));
    let wide = of_total(LIMIT).widen()?;
    assert_eq!(NarrowTable::try_from(&wide)?, of_total(LIMIT));
    let mut more = wide.clone();
    more.load(&[[0; 3]])?;
    assert_eq!(NarrowTable::try_from(&more), Err(Refused::NarrowTotal));
    for (place, number) in [(4, u64::MAX), (0, u64::MAX), (1, 1 << 32)] {
        let mut numbers = more.numbers().to_vec();
        numbers[place] = number;
        let unsound = Table::from_numbers(grid(), numbers)?;
        assert_eq!(NarrowTable::try_from(&unsound), Err(Refused::Unsound));
    }
    Ok(())
}

/// A case of the script that the program `replay` replays (docs/REPLAY.md): what is loaded, and how it is cut.
#[derive(Default)]
struct Recorded {
    grid: Vec<usize>,
    k: usize,
    colours: Vec<u8>,
    weights: Vec<u32>,
    /// The lines of numbers that the cut has to leave, by the words before them.
    left: Vec<(String, Vec<u64>)>,
}

/// The numbers of a line, from some word on. A number before a star stands there as often as the one behind it says.
fn numbers(words: &[&str]) -> Vec<u64> {
    let number = |word: &str| word.parse::<u64>().expect("a number");
    let run = |word: &&str| match word.split_once('*') {
        Some((value, times)) => vec![number(value); number(times) as usize],
        None => vec![number(word)],
    };
    words.iter().flat_map(run).collect()
}

/// Reads a case, whose loads may be several. What is after its cut's lists, the next frame, is not looked at.
fn recorded(case: &str) -> Recorded {
    let mut read = Recorded::default();
    let (mut frame, mut weights, mut cut) = (Vec::new(), Vec::new(), false);
    for line in case.lines() {
        let words: Vec<&str> = line.split_whitespace().collect();
        match words[..] {
            ["let", "frame", ..] if cut => break,
            ["let", "frame", ..] => frame = numbers(&words[3..]),
            ["let", "weights", ..] => weights = numbers(&words[3..]),
            ["load", _, _, _, _, "weighted", given, ..] => {
                let plain = vec![1; frame.len() / 3];
                read.colours.extend(frame.iter().map(|&byte| byte as u8));
                let loaded = if given == "1" { &weights } else { &plain };
                read.weights
                    .extend(loaded.iter().map(|&weight| weight as u32));
            }
            ["cut", "table", b1, b2, b3, "k", k, ..] => {
                cut = true;
                read.grid = [b1, b2, b3]
                    .map(|size| size.parse().expect("a size"))
                    .into();
                read.k = k.parse().expect("k");
            }
            [how @ ("is" | "sums"), list, ..] if cut => {
                let told = numbers(&words[2..]);
                read.left.push((format!("{how} {list}"), told));
            }
            _ => {}
        }
    }
    read
}

/// Holds what a cut says, and the tables after it by their names in the script, to a recorded line. Behind what a cut
/// writes the lists of the script have other numbers; map and tables are written whole. How many lines were of tables.
fn holds(cut: &Cut, tables: &[(&str, &[u64])], (words, told): &(String, Vec<u64>)) -> usize {
    let colours = cut.palette().len();
    let of_boxes = || {
        let sides = |i: usize| {
            let x = cut.boxes()[i];
            let sides = (0..3).flat_map(move |d| [x.min[d], x.max[d]]);
            sides.map(u64::from).chain([x.spread.to_bits()])
        };
        let rounds = [colours as u64, cut.rounds() as u64];
        rounds
            .into_iter()
            .chain((0..colours).flat_map(sides))
            .collect()
    };
    let numbers = |list: &[u32]| list.iter().map(|&n| u64::from(n)).collect();
    let bytes = |list: &[u8]| list.iter().map(|&n| u64::from(n)).collect();
    let (how, list) = words.split_once(' ').expect("two words");
    let table = tables.iter().find(|(name, _)| *name == list);
    let said: Vec<u64> = match (how, list) {
        (_, "map") => bytes(cut.colour_map().entries()),
        ("is", "record") => of_boxes(),
        ("is", "palette") => bytes(cut.palette().as_flattened()),
        ("is", "counts") => numbers(cut.counts()),
        ("is", "left") => numbers(cut.remainders().as_flattened()),
        _ => table.map_or(Vec::new(), |(_, numbers)| numbers.to_vec()),
    };
    if said.is_empty() {
        return 0;
    }
    let said = if how == "sums" {
        assert_eq!(told[0], said.len() as u64, "{words}");
        let (mut sum, mut sums) = (0_u64, 0_u64);
        for n in said {
            sum = sum.wrapping_add(n);
            sums = sums.wrapping_add(sum);
        }
        vec![sum, sums]
    } else {
        said
    };
    assert_eq!(told[1..=said.len()], said, "{words}");
    usize::from(table.is_some())
}

/// The original's answers at the last total of a narrow table and at the first that is none, as they were recorded.
#[test]
fn recorded_answers() -> Result<(), Refused> {
    // The project has the whole script of `replay`; the crate of a release has these cases of it.
    let project = concat!(env!("CARGO_MANIFEST_DIR"), "/../crates/replay/stdin");
    let release = concat!(env!("CARGO_MANIFEST_DIR"), "/tests/recorded");
    let script = std::fs::read_to_string(project)
        .or_else(|_| std::fs::read_to_string(release))
        .expect("the script of `replay`, or a release's part of it");
    let (mut at, mut past) = (0, 0);
    for case in script
        .split("\ncase ")
        .filter(|case| case.starts_with("width\n"))
    {
        let case = recorded(case);
        let grid = Grid::new(case.grid[0], case.grid[1], case.grid[2])?;
        let mut wide = Table::new(grid);
        wide.load_bytes_weighted(&case.colours, &case.weights)?;
        let mut narrow = NarrowTable::new(grid);
        let loaded = narrow.load_bytes_weighted(&case.colours, &case.weights);
        assert!(case.left.iter().any(|(words, _)| words == "is record"));
        match wide.total() {
            16_843_008 => {
                at += 1;
                assert_eq!(loaded, Ok(()));
                assert!(same(&narrow, &wide));
                let cut = narrow.cut(case.k)?;
                // The script has the table after a cut, and the moments in its second table.
                let (table, second) = (
                    five_each(narrow.sums(), narrow.squares()),
                    moments(&narrow, case.k),
                );
                let tables = [("table", &table[..]), ("second", &second)];
                let lines = case.left.iter().map(|line| holds(&cut, &tables, line));
                assert_eq!(lines.sum::<usize>(), 2);
                if grid.bins() <= 4_096 {
                    assert_eq!(narrow.cut_slowly(case.k)?, cut);
                }
            }
            total => {
                past += 1;
                assert_eq!(total, 16_843_009);
                assert_eq!(loaded, Err(Refused::NarrowTotal));
                assert_eq!(narrow, NarrowTable::new(grid));
                let cut = wide.cut(case.k)?;
                let tables = [("table", wide.numbers())];
                let lines = case.left.iter().map(|line| holds(&cut, &tables, line));
                assert_eq!(lines.sum::<usize>(), 1);
            }
        }
    }
    assert_eq!((at, past), (16, 16));
    Ok(())
}
