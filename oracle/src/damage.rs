//! What is damaged in the calls of a case.
use std::fmt;

/// One damage: a length off by `value`, a number of a table off by `value` at `place`, its bit `value` flipped there,
/// or a page of numbers from there on replaced by `value`, an entry of the map there, or a size, k, the colours told, a
/// number of the band, the interval in force, a batch's own, a number of a recorded list or a byte of a file replaced
/// by `value`.
#[derive(Clone, Copy, Debug, PartialEq)]
pub struct Damage {
    pub what: &'static str,
    pub place: usize,
    pub value: i64,
}

/// What can be damaged in the calls of the narrow layout.
pub const OF_NARROW: [&str; 20] = [
    "number",
    "second-number",
    "size",
    "k",
    "sums",
    "squares",
    "second-sums",
    "second-squares",
    "work-sums",
    "work-squares",
    "wide",
    "palette",
    "counts",
    "remainders",
    "map",
    "boxes",
    "spreads",
    "colour-bytes",
    "weights",
    "weighted",
];

/// What can be damaged where two tables are compared.
pub const OF_NIGHTS: [&str; 6] = [
    "number",
    "second-number",
    "size",
    "table",
    "second",
    "differences",
];

/// What can be damaged in a table that is rescued: bits twice, as bits are what flips.
pub const OF_RESCUES: [&str; 4] = ["number", "bit", "bit", "page"];

/// And in what it is lent with, so that it is refused.
pub const WITH_RESCUES: [&str; 3] = ["size", "table", "reasons"];

/// What can be damaged in a recorded list and in what is lent with it.
pub const OF_RECORDINGS: [&str; 13] = [
    "number",
    "size",
    "table",
    "in-force",
    "own",
    "kind",
    "listed-interval",
    "listed-colours",
    "entries",
    "answers",
    "colour-bytes",
    "weights",
    "weighted",
];

/// What can be damaged in a file and in the table that it is loaded into.
pub const OF_PPM: [&str; 5] = ["number", "size", "table", "byte", "file"];

/// What can be damaged in tables that are merged. The places of all tables count on, so that one tells its table too;
/// of a length it tells, by being even or odd, which list of a narrow table has it.
pub const OF_TREES: [&str; 2] = ["number", "table"];

/// What can be damaged in the calls one by one.
pub const DAMAGES: [&str; 23] = [
    "number",
    "second-number",
    "entry",
    "size",
    "k",
    "table",
    "second",
    "work",
    "palette",
    "counts",
    "remainders",
    "map",
    "boxes",
    "spreads",
    "colour-bytes",
    "weights",
    "weighted",
    "frame",
    "indices",
    "paint-palette",
    "colours",
    "first",
    "pixels",
];

impl fmt::Display for Damage {
    fn fmt(&self, f: &mut fmt::Formatter<'_>) -> fmt::Result {
        write!(f, "{} {} {}", self.what, self.place, self.value)
    }
}

impl Damage {
    /// Reads what `Display` writes.
    pub fn of_text(text: &str) -> Option<Self> {
        let mut words = text.split_whitespace();
        let name = words.next()?;
        Some(Self {
            what: DAMAGES
                .into_iter()
                .chain(OF_NARROW)
                .chain(OF_NIGHTS)
                .chain(OF_RESCUES)
                .chain(WITH_RESCUES)
                .chain(OF_RECORDINGS)
                .chain(OF_PPM)
                .chain(OF_TREES)
                .find(|d| *d == name)?,
            place: words.next()?.parse().ok()?,
            value: words.next()?.parse().ok()?,
        })
    }
}
