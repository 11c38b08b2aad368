//! Makes the damages of a case.
use crate::{
    case::{Case, Kind},
    damage::{
        DAMAGES, Damage, OF_NARROW, OF_NIGHTS, OF_PPM, OF_RECORDINGS, OF_RESCUES, OF_TREES,
        WITH_RESCUES,
    },
    numbers::{added, place},
    random::Random,
};

/// Numbers that are too large for anything, among them some that are small in their lower half.
const HUGE: [i64; 6] = [1 << 32, (1 << 32) + 2, -1, -2, i64::MIN, i64::MAX];

/// One damage to a case.
pub fn one(case: &Case, r: &mut Random) -> Damage {
    let what = match case.kind {
        Kind::Narrow { .. } => r.one_of(&OF_NARROW),
        Kind::Nights { .. } => r.one_of(&OF_NIGHTS),
        Kind::Rescues { .. } if r.once_in(16) => r.one_of(&WITH_RESCUES),
        Kind::Rescues { .. } => r.one_of(&OF_RESCUES),
        Kind::Recordings { .. } => r.one_of(&OF_RECORDINGS),
        Kind::Ppm { .. } => r.one_of(&OF_PPM),
        Kind::Trees { .. } => r.one_of(&OF_TREES),
        _ => r.one_of(&DAMAGES),
    };
    let at = match what {
        "number" | "table" if matches!(case.kind, Kind::Trees { .. }) => {
            5 * case.bins() * r.from(0, tables_of(case) - 1) + number_place(case, r)
        }
        "number" | "second-number" | "bit" => number_place(case, r),
        "page" => r.from(0, 5 * case.bins() - 1),
        "entry" => r.from(0, case.bins() - 1),
        "size" => r.from(0, 2),
        "kind" | "listed-interval" | "listed-colours" => r.from(0, entries_of(case)),
        "byte" => r.from(0, header_of(case)),
        _ => 0,
    };
    let (k, huge) = (case.k as i64, r.one_of(&HUGE));
    let pixels = case.frame.iter().map(|f| f.1).sum::<usize>() as i64;
    let value = match what {
        "number" => change(case, true, at % (5 * case.bins()), r),
        "second-number" => change(case, false, at, r),
        "bit" => r.from(0, 63) as i64,
        "page" => r.one_of(&[-1, 0, 1, 1 << 31, huge]),
        "entry" => r.one_of(&[k - 1, k, k + 1, 255, 0]).clamp(0, 255),
        "size" if r.once_in(2) => r.one_of(&[1, 2, 4, 8, 16, 32, 64, 128]),
        "size" => r.one_of(&[0, 3, 5, 6, 7, 12, 127, 129, 255, 256, 258, huge]),
        "k" => r.one_of(&[0, 1, 2, 256, 257, 258, 512, 65_537, huge]),
        "colours" => r.one_of(&[0, 1, k - 1, k + 1, 256, 257, 258, huge]),
        "paint-palette" => {
            let to = r.one_of(&[0, 1, 2, 3, 4, 766, 767, 768, 769, 770, 771, 774]);
            r.one_of(&[-3, -2, -1, 1, 2, 3, to - 3 * k])
        }
        "in-force" | "own" | "listed-interval" => interval(r),
        "kind" => r.one_of(&[0, 1, 2, 3, 256, 65_537, u32::MAX.into()]),
        // The larger ones add up past 2^32 with what the others may be.
        "listed-colours" => {
            let (past, more) = (1 << 32, r.from(0, 9) as i64);
            r.one_of(&[0, 1, 2, more, past - 1, past - 2, past - more - 1, past / 2])
        }
        "byte" => {
            let any = r.draw() as u8;
            r.one_of(&[b' ', b'\t', b'\r', b'\n', b'#', b'0', b'5', 0x0b, any])
                .into()
        }
        "file" => {
            let cut = r.from(0, header_of(case) + 3 * case.input.colors.len()) as i64;
            r.one_of(&[-1, 1, -2, 2, -3, 3, -cut, -cut])
        }
        // The last two add up past the largest number with what the other of the two may be.
        "first" | "pixels" => r.one_of(&[0, 1, pixels - 1, pixels, pixels + 1, huge, -pixels, -1]),
        _ => r.one_of(&[-1, 1, -2, 2, -3, 3, -4, 4, -5, 5, -1_000_000_000]),
    };
    Damage {
        what,
        place: at,
        value,
    }
}

/// An interval, or a number that is none.
fn interval(r: &mut Random) -> i64 {
    let any = r.from(1, 4096) as i64;
    r.one_of(&[0, 1, 2, 4096, 4097, 65_537, u32::MAX.into(), any])
}

/// How many entries the recorded list of a case has.
fn entries_of(case: &Case) -> usize {
    match &case.kind {
        Kind::Recordings { entries, .. } => entries.len(),
        _ => 0,
    }
}

/// How many tables are merged.
fn tables_of(case: &Case) -> usize {
    match &case.kind {
        Kind::Trees { tables, .. } => tables.len(),
        _ => 0,
    }
}

/// How many bytes the header of a case's file has.
fn header_of(case: &Case) -> usize {
    match &case.kind {
        Kind::Ppm { header, .. } => header.len(),
        _ => 0,
    }
}

/// A place of the table: mostly one of a bin that a colour of the input falls in.
fn number_place(case: &Case, r: &mut Random) -> usize {
    let bin = if case.input.colors.is_empty() || r.once_in(3) {
        r.from(0, case.bins() - 1)
    } else {
        place(case.grid, r.one_of(&case.input.colors))
    };
    5 * bin + r.from(0, 4)
}

/// The five numbers of a bin in the first table or in the second.
fn numbers_of(case: &Case, first: bool, bin: usize) -> [i64; 5] {
    let (from, split) = match case.kind {
        Kind::Whole { .. } | Kind::Trees { .. } | Kind::Doubled { .. } | Kind::Palettes { .. } => {
            return [0; 5];
        }
        Kind::Calls { split, .. }
        | Kind::Narrow { split, .. }
        | Kind::Recordings { split, .. }
        | Kind::Ppm { split, .. } => (split, split),
        Kind::Nights { from, split, .. } => (from, split),
        Kind::Rescues { .. } => (0, case.input.colors.len()),
    };
    let mut numbers = [0; 5];
    for (i, &color) in case.input.colors.iter().enumerate() {
        let there = if first { i < split } else { i >= from };
        if there && place(case.grid, color) == bin {
            let more = added(color, case.input.weights[i]);
            (0..5).for_each(|j| numbers[j] += more[j] as i64);
        }
    }
    numbers
}

/// By how much a number of a table is changed: a little, much, or to a bound of its bin or one past it.
fn change(case: &Case, first: bool, at: usize, r: &mut Random) -> i64 {
    let [_, b2, b3] = case.grid;
    let (bin, which) = (at / 5, at % 5);
    let numbers = numbers_of(case, first, bin);
    let (n, old) = (numbers[0], numbers[which]);
    if r.once_in(2) {
        let huge = r.one_of(&HUGE);
        return r.one_of(&[1, -1, 2, -2, 1 << 40, -1 - old, huge]);
    }
    let bins = [bin / (b2 * b3), bin / b3 % b2, bin % b3];
    let span = |d: usize| {
        let values = (256 / case.grid[d]) as i64;
        let low = bins[d] as i64 * values;
        (low, low + values - 1)
    };
    let new = match which {
        0 if matches!(case.kind, Kind::Narrow { .. }) => {
            r.one_of(&[0, 16_843_008, 16_843_009, 4_294_967_295])
        }
        0 => r.one_of(&[0, 4_294_967_295, 4_294_967_296]),
        4 => {
            let squares =
                |end: fn((i64, i64)) -> i64| (0..3).map(|d| end(span(d)).pow(2)).sum::<i64>();
            let (low, high) = (n * squares(|s| s.0), n * squares(|s| s.1));
            r.one_of(&[0, low - 1, low, high, high + 1])
        }
        d => {
            let (low, high) = span(d - 1);
            r.one_of(&[n * low - 1, n * low, n * high, n * high + 1])
        }
    };
    new - old
}
