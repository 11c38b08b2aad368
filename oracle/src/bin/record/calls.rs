//! Calls written from the sentences of the rules, each with the answer that Rules, Answers gives: every answer of
//! every call, each also where others apply that are not the lowest, and calls that are done.
use crate::{
    lists::{Call, Lists, front},
    script::Script,
};
use oracle::{
    numbers::{added, bins, place},
    port::{Band, Grid},
};

const CUBE: Grid = [2, 2, 2];
const LIMIT: u32 = u32::MAX;

/// A bin's place and its five numbers.
type Bin = (usize, [u64; 5]);

/// What is changed of lists that fit.
type Change = fn(&mut Lists);

/// A table of zeros with the numbers of some bins.
fn table(grid: Grid, cells: &[Bin]) -> Vec<u64> {
    let mut table = vec![0; 5 * bins(grid)];
    for (place, cell) in cells {
        table[5 * place..5 * place + 5].copy_from_slice(cell);
    }
    table
}

/// The table of colours with their weights.
fn loaded(grid: Grid, colours: &[([u8; 3], u32)]) -> Vec<u64> {
    let mut table = vec![0; 5 * bins(grid)];
    for &(colour, w) in colours {
        let at = 5 * place(grid, colour);
        for (n, more) in table[at..at + 5].iter_mut().zip(added(colour, w)) {
            *n += more;
        }
    }
    table
}

/// A bin with black, of a weight.
const fn black(weight: u64) -> [u64; 5] {
    [weight, 0, 0, 0, 0]
}

/// A bin with the colour 10, 20, 30 once.
const ONCE: [u64; 5] = [1, 10, 20, 30, 1400];

const ONE: [u8; 3] = [10, 20, 30];
const TWO: [u8; 6] = [10, 20, 30, 200, 100, 50];
const NONE: [u8; 0] = [];

/// Sizes that are not among the seven: "here 1 is refused", and others in each dimension.
const REFUSED: [Grid; 8] = [
    [1, 2, 2],
    [2, 1, 2],
    [2, 2, 1],
    [0, 2, 2],
    [2, 3, 2],
    [2, 2, 256],
    [usize::MAX, 2, 2],
    [2, 4_294_967_298, 2],
];

// ---- Load

/// A load into a table of 2, 2, 2 with one occupied bin.
fn load(
    s: &mut Script,
    of: &str,
    bin: (usize, [u64; 5]),
    frame: &[u8],
    weights: Option<&[u32]>,
    number: u8,
) {
    let lists = Lists {
        table: table(CUBE, &[bin]),
        frame: frame.to_vec(),
        weights: weights.unwrap_or(&[]).to_vec(),
        ..Lists::default()
    };
    let weighted = weights.is_some();
    Call::Load { weighted }.case(s, &format!("load: {of}"), CUBE, &lists, number);
}

/// "Weight 0 adds nothing", "1 when none is given, whatever list is lent", "An empty batch changes nothing".
fn loads_done(s: &mut Script) {
    load(s, "weight 0", (0, ONCE), &[255; 3], Some(&[0]), 0);
    load(
        s,
        "weights 0 and 2",
        (0, ONCE),
        &[255, 255, 255, 10, 20, 30],
        Some(&[0, 2]),
        0,
    );
    load(s, "no weights", (0, ONCE), &TWO, None, 0);
    for lent in [&[0][..], &[0, 9], &[0, 9, 9]] {
        let lists = Lists {
            table: table(CUBE, &[(0, ONCE)]),
            frame: TWO.to_vec(),
            weights: lent.to_vec(),
            ..Lists::default()
        };
        let of = format!("load: no weights, {} lent", lent.len());
        Call::Load { weighted: false }.case(s, &of, CUBE, &lists, 0);
    }
    load(
        s,
        "empty batch with weights",
        (0, ONCE),
        &NONE,
        Some(&[]),
        0,
    );
    load(s, "empty batch without", (0, ONCE), &NONE, None, 0);
    load(
        s,
        "weights to the limit",
        (0, black(4_294_967_290)),
        &TWO,
        Some(&[2, 3]),
        0,
    );
    load(
        s,
        "colours to the limit",
        (0, black(4_294_967_293)),
        &TWO,
        None,
        0,
    );
}

/// Each number of a load, and where several apply the lowest: each of the last five has one fault less than the one before.
fn loads_refused(s: &mut Script) {
    load(s, "3, one byte", (0, ONCE), &[10], None, 3);
    load(s, "3, two bytes", (0, ONCE), &[10, 20], None, 3);
    load(
        s,
        "3, four bytes",
        (0, ONCE),
        &[10, 20, 30, 40],
        Some(&[1]),
        3,
    );
    load(s, "4, no weight", (0, ONCE), &ONE, Some(&[]), 4);
    load(
        s,
        "4, two weights for a colour",
        (0, ONCE),
        &ONE,
        Some(&[1, 1]),
        4,
    );
    load(
        s,
        "4, a weight for two colours",
        (0, ONCE),
        &TWO,
        Some(&[1]),
        4,
    );
    load(
        s,
        "4, weights for an empty batch",
        (0, ONCE),
        &NONE,
        Some(&[7, 8]),
        4,
    );
    load(
        s,
        "7, weights one past",
        (0, black(4_294_967_290)),
        &TWO,
        Some(&[2, 4]),
        7,
    );
    load(
        s,
        "7, colours one past",
        (0, black(4_294_967_294)),
        &TWO,
        None,
        7,
    );
    let full: [u32; 3] = [LIMIT; 3];
    let stray: [u8; 4] = [10, 20, 30, 40];
    let unsound = table(CUBE, &[(0, [0, 9, 0, 0, 0])]);
    let chain: [(Grid, usize, &[u8], usize, u8); 5] = [
        ([1, 2, 2], 39, &stray, 3, 1),
        (CUBE, 39, &stray, 3, 3),
        (CUBE, 39, &TWO, 3, 4),
        (CUBE, 39, &TWO, 2, 5),
        (CUBE, 40, &TWO, 2, 6),
    ];
    for (grid, length, frame, weights, number) in chain {
        let lists = Lists {
            table: unsound[..length].to_vec(),
            frame: frame.to_vec(),
            weights: full[..weights].to_vec(),
            ..Lists::default()
        };
        let of = format!("load: {number} before others");
        Call::Load { weighted: true }.case(s, &of, grid, &lists, number);
    }
    load(s, "7 alone", (0, ONCE), &TWO, Some(&full[..2]), 7);
}

/// Grids, lengths of the table, and a table of another grid.
fn loads_lent(s: &mut Script) {
    let call = Call::Load { weighted: true };
    for grid in REFUSED {
        let lists = Lists {
            table: table(CUBE, &[(0, ONCE)]),
            frame: ONE.to_vec(),
            weights: vec![1],
            ..Lists::default()
        };
        call.case(s, "load: 1", grid, &lists, 1);
    }
    for length in [0, 39, 41] {
        let mut lists = Lists {
            table: vec![0; length],
            frame: ONE.to_vec(),
            weights: vec![1],
            ..Lists::default()
        };
        if let Some(last) = lists.table.last_mut() {
            *last = 8;
        }
        call.case(s, "load: 5, table too short or too long", CUBE, &lists, 5);
        lists.frame.clear();
        lists.weights.clear();
        call.case(s, "load: 5, of an empty batch", CUBE, &lists, 5);
    }
    let reds = [([0, 0, 0], 1), ([64, 0, 0], 1), ([255, 0, 0], 1)];
    let mut lists = Lists {
        table: vec![0; 80],
        frame: reds.iter().flat_map(|r| r.0).collect(),
        ..Lists::default()
    };
    let call = Call::Load { weighted: false };
    call.case(s, "load: grid 4, 2, 2", [4, 2, 2], &lists, 0);
    lists.table = loaded([4, 2, 2], &reds);
    call.case(
        s,
        "load: 6, a table of 4, 2, 2 at 2, 4, 2",
        [2, 4, 2],
        &lists,
        6,
    );
}

/// Bins at the bounds of soundness and one past each, loaded with an empty batch so that nothing else can be refused.
/// Bin 5 has components from 128, 0 and 128 on, bin 2 from 0, 128 and 0, bin 0 from 0 and bin 7 from 128.
fn soundness(s: &mut Script) {
    let most = u64::MAX;
    let bins: [(&str, Bin, u8); 25] = [
        ("sums at their lowest", (5, [2, 256, 0, 256, 65_536]), 0),
        ("sums at their highest", (5, [2, 510, 254, 510, 65_536]), 0),
        ("6, sum 1 too low", (5, [2, 255, 0, 256, 65_536]), 6),
        ("6, sum 1 too high", (5, [2, 511, 254, 510, 65_536]), 6),
        ("6, sum 2 too low", (2, [2, 0, 255, 0, 32_768]), 6),
        ("6, sum 2 too high", (5, [2, 510, 255, 510, 65_536]), 6),
        ("6, sum 3 too low", (5, [2, 256, 0, 255, 65_536]), 6),
        ("6, sum 3 too high", (5, [2, 510, 254, 511, 65_536]), 6),
        (
            "squares at their highest",
            (5, [2, 256, 0, 256, 292_358]),
            0,
        ),
        ("6, squares too large", (5, [2, 256, 0, 256, 292_359]), 6),
        ("6, squares too small", (5, [2, 256, 0, 256, 65_535]), 6),
        ("6, squares 0 beside a weight", (5, [2, 256, 0, 256, 0]), 6),
        (
            "first bin, squares at their highest",
            (0, [1, 0, 0, 0, 48_387]),
            0,
        ),
        (
            "6, first bin, squares too large",
            (0, [1, 0, 0, 0, 48_388]),
            6,
        ),
        (
            "last bin, squares at their lowest",
            (7, [1, 255, 255, 255, 49_152]),
            0,
        ),
        (
            "6, last bin, squares too small",
            (7, [1, 255, 255, 255, 49_151]),
            6,
        ),
        (
            "last bin, squares at their highest",
            (7, [1, 128, 128, 128, 195_075]),
            0,
        ),
        (
            "6, last bin, squares too large",
            (7, [1, 128, 128, 128, 195_076]),
            6,
        ),
        ("6, weight 0 with sum 1", (0, [0, 1, 0, 0, 0]), 6),
        ("6, weight 0 with sum 2", (0, [0, 0, 1, 0, 0]), 6),
        ("6, weight 0 with sum 3", (0, [0, 0, 0, 1, 0]), 6),
        ("6, weight 0 with squares", (0, [0, 0, 0, 0, 1]), 6),
        ("weight at the limit", (0, black(4_294_967_295)), 0),
        ("6, weight past the limit", (0, black(4_294_967_296)), 6),
        ("6, the largest numbers", (7, [most; 5]), 6),
    ];
    for (of, bin, number) in bins {
        load(s, of, bin, &NONE, None, number);
    }
    for (weight, number) in [(4_294_967_293, 0), (4_294_967_294, 6)] {
        let cells = [(0, black(weight)), (5, [2, 256, 0, 256, 65_536])];
        let lists = Lists {
            table: table(CUBE, &cells),
            ..Lists::default()
        };
        let of = format!("load: a total of {}", weight + 2);
        Call::Load { weighted: false }.case(s, &of, CUBE, &lists, number);
    }
}

// ---- Merge

/// A merge of two tables.
fn merge(s: &mut Script, of: &str, grid: Grid, table: Vec<u64>, second: Vec<u64>, number: u8) {
    let lists = Lists {
        table,
        second,
        ..Lists::default()
    };
    Call::Merge.case(s, &format!("merge: {of}"), grid, &lists, number);
}

/// Two tables in both orders.
fn both_orders(s: &mut Script, of: &str, a: &[u64], b: &[u64], number: u8) {
    merge(s, of, CUBE, a.to_vec(), b.to_vec(), number);
    merge(
        s,
        &format!("{of}, in the other order"),
        CUBE,
        b.to_vec(),
        a.to_vec(),
        number,
    );
}

fn merges(s: &mut Script) {
    let one = |place, cell| table(CUBE, &[(place, cell)]);
    let once = one(0, ONCE);
    both_orders(s, "one bin", &once, &one(0, [2, 200, 100, 50, 26_250]), 0);
    both_orders(
        s,
        "two bins",
        &once,
        &one(7, [3, 765, 765, 765, 585_225]),
        0,
    );
    both_orders(s, "an empty table", &once, &vec![0; 40], 0);
    let five = one(7, [5, 640, 640, 640, 245_760]);
    both_orders(s, "to the limit", &one(0, black(4_294_967_290)), &five, 0);
    both_orders(
        s,
        "7, one past the limit",
        &one(0, black(4_294_967_291)),
        &five,
        7,
    );
    let full = one(0, black(4_294_967_295));
    both_orders(s, "7, twice the limit", &full, &full, 7);
    let unsound = [
        ("a sum too low", one(5, [2, 255, 0, 256, 65_536])),
        ("a sum too high", one(5, [2, 510, 255, 510, 65_536])),
        ("squares too small", one(5, [2, 256, 0, 256, 65_535])),
        ("squares too large", one(5, [2, 256, 0, 256, 292_359])),
        ("weight past the limit", one(0, black(4_294_967_296))),
        ("weight 0 with sum 3", one(0, [0, 0, 0, 1, 0])),
    ];
    for (of, table) in unsound {
        both_orders(s, &format!("6, {of}"), &table, &once, 6);
    }
    for length in [0, 39, 41] {
        both_orders(
            s,
            "5, a table too short or too long",
            &vec![0; length],
            &once,
            5,
        );
    }
    for grid in REFUSED {
        merge(s, "1", grid, once.clone(), five.clone(), 1);
    }
    let reds = table([4, 2, 2], &[(4, [1, 64, 0, 0, 4096])]);
    let more = table(
        [4, 2, 2],
        &[
            (4, [1, 127, 127, 127, 48_387]),
            (15, [1, 255, 255, 255, 195_075]),
        ],
    );
    merge(s, "grid 4, 2, 2", [4, 2, 2], reds.clone(), more.clone(), 0);
    merge(s, "5, tables of another grid", CUBE, reds, more, 5);
    let wrong = one(0, [1, 128, 0, 0, 0]);
    merge(
        s,
        "1 before others",
        [2, 2, 1],
        wrong.clone(),
        full[..39].to_vec(),
        1,
    );
    merge(
        s,
        "5 before others",
        CUBE,
        wrong.clone(),
        full[..39].to_vec(),
        5,
    );
    merge(s, "6 before others", CUBE, wrong, full.clone(), 6);
    merge(s, "7 alone", CUBE, once, full, 7);
}

// ---- Cut

/// What a cut of a table is lent, with old contents and some places too many.
fn lent_to_cut(table: Vec<u64>, bins: usize, k: usize) -> Lists {
    Lists {
        second: vec![6; 5 * bins],
        palette: vec![201; 3 * k + 5],
        counts: vec![77; k + 2],
        remainders: vec![55; 3 * k + 4],
        map: vec![99; bins],
        table,
        ..Lists::default()
    }
}

fn cut(s: &mut Script, of: &str, grid: Grid, k: usize, lists: &Lists, number: u8) {
    Call::Cut { k }.case(s, &format!("cut: {of}"), grid, lists, number);
}

fn cuts(s: &mut Script) {
    let two = loaded(CUBE, &[([0; 3], 1), ([255; 3], 3)]);
    let lists = lent_to_cut(two, 8, 2);
    cut(s, "one box", CUBE, 1, &lists, 0);
    cut(
        s,
        "more boxes than colours",
        CUBE,
        3,
        &lent_to_cut(lists.table.clone(), 8, 3),
        0,
    );
    let exact = Lists {
        palette: vec![201; 6],
        counts: vec![77; 2],
        remainders: vec![55; 6],
        ..lists.clone()
    };
    cut(
        s,
        "palette, counts and remainders just long enough",
        CUBE,
        2,
        &exact,
        0,
    );
    for grid in REFUSED {
        cut(s, "1", grid, 2, &lists, 1);
    }
    for k in [0, 257, 65_538, usize::MAX] {
        cut(
            s,
            "2",
            CUBE,
            k,
            &lent_to_cut(lists.table.clone(), 8, 257),
            2,
        );
    }
    let wrong: [(&str, Change); 10] = [
        ("table one too short", |l| l.table.truncate(39)),
        ("table one too long", |l| l.table.push(0)),
        ("work table one too short", |l| l.second.truncate(39)),
        ("work table one too long", |l| l.second.push(6)),
        ("palette one too short", |l| l.palette.truncate(5)),
        ("counts one too short", |l| l.counts.truncate(1)),
        ("remainders one too short", |l| l.remainders.truncate(5)),
        ("map one too short", |l| l.map.truncate(7)),
        ("map one too long", |l| l.map.push(99)),
        ("nothing lent", |l| *l = Lists::default()),
    ];
    for (of, change) in wrong {
        let mut changed = lists.clone();
        change(&mut changed);
        cut(s, &format!("5, {of}"), CUBE, 2, &changed, 5);
    }
    let reds = [([0; 3], 1), ([64, 0, 0], 1), ([255, 0, 0], 1)];
    let other = lent_to_cut(loaded([4, 2, 2], &reds), 16, 2);
    cut(s, "6, a table of another grid", [2, 4, 2], 2, &other, 6);
    cut(s, "8, total 0", CUBE, 2, &lent_to_cut(vec![0; 40], 8, 2), 8);
    let mut all = lent_to_cut(table(CUBE, &[(0, [0, 9, 0, 0, 0])]), 8, 2);
    cut(s, "6 before 8", CUBE, 2, &all, 6);
    all.palette.clear();
    cut(s, "5 before others", CUBE, 2, &all, 5);
    cut(s, "2 before others", CUBE, 0, &all, 2);
    cut(s, "1 before others", [2, 2, 3], 257, &all, 1);
    let mut short = lent_to_cut(vec![0; 40], 8, 2);
    short.map.push(99);
    cut(s, "5 before 8", CUBE, 2, &short, 5);
}

/// "if the palette is too short for that number, the part is empty"
fn fronts(s: &mut Script) {
    for boxes in [0, 1, 3, 4, 256, usize::MAX / 3 + 1, usize::MAX] {
        let mut palette: Vec<u8> = (1..=11).collect();
        s.case("front");
        s.set("palette", &palette);
        front(s, boxes, &mut palette);
    }
}

// ---- Map and paint

/// A frame of six pixels, a map of the grid 2, 2, 2 with six entries, and a palette of six colours.
fn frames() -> Lists {
    Lists {
        map: vec![0, 1, 2, 3, 4, 5, 0, 1],
        palette: (100..118).collect(),
        frame: vec![
            0, 0, 0, 0, 0, 255, 0, 255, 0, 0, 255, 255, 255, 0, 0, 255, 255, 255,
        ],
        indices: vec![88; 6],
        ..Lists::default()
    }
}

/// A map and a paint of a band, which have the same number.
fn band(
    s: &mut Script,
    of: &str,
    grid: Grid,
    lists: &Lists,
    (first, pixels): (usize, usize),
    number: u8,
) {
    let band = Band { first, pixels };
    let colours = lists.palette.len() / 3;
    Call::Map { colours, band }.case(s, &format!("map: {of}"), grid, lists, number);
    Call::Paint { band }.case(s, &format!("paint: {of}"), grid, lists, number);
}

fn bands(s: &mut Script) {
    let lists = frames();
    for (first, pixels) in [(0, 6), (2, 3), (5, 1), (0, 0), (3, 0), (6, 0)] {
        let of = format!("{pixels} pixels from {first} on");
        band(s, &of, CUBE, &lists, (first, pixels), 0);
    }
    let mut fewer = lists.clone();
    fewer.frame.clear();
    fewer.indices.clear();
    band(s, "a frame of no pixels", CUBE, &fewer, (0, 0), 0);
    for grid in REFUSED {
        band(s, "1", grid, &lists, (2, 3), 1);
    }
    for bytes in [16, 17] {
        let mut stray = lists.clone();
        stray.frame.truncate(bytes);
        band(s, &format!("3, {bytes} bytes"), CUBE, &stray, (0, 1), 3);
    }
    let past = [
        (0, 7),
        (2, 5),
        (6, 1),
        (7, 0),
        (usize::MAX, 1),
        (1, usize::MAX),
        (usize::MAX, usize::MAX),
    ];
    for (first, pixels) in past {
        band(
            s,
            "5, a band past the frame",
            CUBE,
            &lists,
            (first, pixels),
            5,
        );
    }
    for entries in [0, 7, 9] {
        let mut wrong = lists.clone();
        wrong.map.resize(entries, 0);
        band(
            s,
            &format!("5, a map of {entries}"),
            CUBE,
            &wrong,
            (2, 3),
            5,
        );
    }
    let mut high = lists.clone();
    high.map[7] = 6;
    band(
        s,
        "9, an entry of no pixel of the band",
        CUBE,
        &high,
        (0, 1),
        9,
    );
    high.map[7] = 255;
    band(s, "9, for an empty band", CUBE, &high, (0, 0), 9);
    band(s, "5 before 9", CUBE, &high, (0, 7), 5);
    high.frame.push(1);
    band(s, "3 before others", CUBE, &high, (0, 7), 3);
    band(s, "1 before others", [2, 2, 1], &high, (0, 7), 1);
}

/// What only one of the two is given: the number of colours and the indices of a map, the palette's bytes of a paint.
fn one_of_two(s: &mut Script) {
    let lists = frames();
    let all = Band {
        first: 0,
        pixels: 6,
    };
    for colours in [0, 257, 65_542, usize::MAX] {
        Call::Map { colours, band: all }.case(s, "map: 5, so many colours", CUBE, &lists, 5);
    }
    Call::Map {
        colours: 256,
        band: all,
    }
    .case(s, "map: 256 colours", CUBE, &lists, 0);
    Call::Map {
        colours: 5,
        band: all,
    }
    .case(s, "map: 9, a colour too few", CUBE, &lists, 9);
    for indices in [0, 5, 7] {
        let mut wrong = lists.clone();
        wrong.indices.resize(indices, 88);
        let of = format!("map: 5, {indices} indices");
        Call::Map {
            colours: 6,
            band: all,
        }
        .case(s, &of, CUBE, &wrong, 5);
    }
    for (bytes, number) in [
        (0, 5),
        (2, 5),
        (15, 9),
        (17, 5),
        (19, 5),
        (767, 5),
        (768, 0),
        (769, 5),
        (771, 5),
    ] {
        let mut wrong = lists.clone();
        wrong.palette.resize(bytes, 7);
        let of = format!("paint: {number}, a palette of {bytes} bytes");
        Call::Paint { band: all }.case(s, &of, CUBE, &wrong, number);
    }
}

pub fn write(s: &mut Script) {
    loads_done(s);
    loads_refused(s);
    loads_lent(s);
    soundness(s);
    merges(s);
    cuts(s);
    fronts(s);
    bands(s);
    one_of_two(s);
}
