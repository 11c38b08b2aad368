//! One case, and the line by which it can be run again.
use crate::{answer::Input, damage::Damage, numbers::bins, port::Band};
use std::fmt;

/// A grid of at most so many bins is light: it is taken more often, and its tables are also cut slowly.
pub const LIGHT: usize = 4096;

/// What is done with a case.
#[derive(Clone, Debug, PartialEq)]
pub enum Kind {
    /// The input as a whole, and where there are batches also shuffled, split and merged.
    Whole { by_pixels: bool, batches: usize },
    /// The six calls one by one: the first `split` colours are in the table and the others are loaded or merged.
    Calls { split: usize, damages: Vec<Damage> },
    /// The five calls of the narrow layout one by one, on tables as above.
    Narrow { split: usize, damages: Vec<Damage> },
    /// Two tables compared: the first holds the first `split` colours, the second those from `from` on.
    Nights {
        from: usize,
        split: usize,
        damages: Vec<Damage>,
    },
    /// The table of all colours, damaged and rescued.
    Rescues { damages: Vec<Damage> },
    /// A recorded list replayed, and the calls of a session: the first `split` colours are in the table, and the others
    /// are those of the entries.
    Recordings {
        split: usize,
        first: u32,
        entries: Vec<[u32; 3]>,
        damages: Vec<Damage>,
    },
    /// A PPM file loaded: the first `split` colours are in the table, and the bytes of the others follow a header.
    Ppm {
        split: usize,
        header: Vec<u8>,
        damages: Vec<Damage>,
    },
    /// Tables merged in several orders. Each has a kind, and so many of the colours: of kind 0 it is what they make,
    /// and of kind 1 there are other numbers in their bins, in the bounds.
    Trees {
        tables: Vec<[usize; 2]>,
        damages: Vec<Damage>,
    },
    /// A table cut as it is, and with all numbers multiplied by 2^`power`; where it is `free`, there are other numbers
    /// in the bins of its colours, in the bounds.
    Doubled { power: usize, free: bool },
    /// The colours as a palette, with some stray bytes, and a list of so many answers.
    Palettes { stray: usize, answers: usize },
}

/// One case. `seed` decides what stands in lent buffers, and how an input is shuffled and split.
#[derive(Clone, Debug, PartialEq)]
pub struct Case {
    pub kind: Kind,
    pub grid: [usize; 3],
    pub k: usize,
    pub input: Input,
    pub frame: Vec<([u8; 3], usize)>,
    pub band: Band,
    /// How many places too many are lent of palette, of counts and remainders, of boxes and of spreads.
    pub spare: [usize; 4],
    pub seed: u64,
}

impl Case {
    pub fn bins(&self) -> usize {
        bins(self.grid)
    }

    pub fn frame_pixels(&self) -> Vec<[u8; 3]> {
        let runs = self.frame.iter();
        runs.flat_map(|&(c, n)| std::iter::repeat_n(c, n)).collect()
    }
}

/// Colours, each with how often.
fn write_colors(
    f: &mut fmt::Formatter<'_>,
    name: &str,
    colors: impl Iterator<Item = ([u8; 3], u64)>,
) -> fmt::Result {
    write!(f, "; {name}")?;
    for (i, ([r, g, b], n)) in colors.enumerate() {
        write!(f, "{} {r} {g} {b} * {n}", if i == 0 { "" } else { "," })?;
    }
    Ok(())
}

fn write_entries(f: &mut fmt::Formatter<'_>, first: u32, entries: &[[u32; 3]]) -> fmt::Result {
    write!(f, "; first {first}; entries")?;
    for (i, [kind, interval, colours]) in entries.iter().enumerate() {
        let comma = if i == 0 { "" } else { "," };
        write!(f, "{comma} {kind} {interval} {colours}")?;
    }
    Ok(())
}

fn write_damages(f: &mut fmt::Formatter<'_>, damages: &[Damage]) -> fmt::Result {
    write!(f, "; damages")?;
    for (i, d) in damages.iter().enumerate() {
        let comma = if i == 0 { "" } else { "," };
        write!(f, "{comma} {d}")?;
    }
    Ok(())
}

impl fmt::Display for Case {
    fn fmt(&self, f: &mut fmt::Formatter<'_>) -> fmt::Result {
        let [b1, b2, b3] = self.grid;
        write!(f, "grid {b1} {b2} {b3}; k {}", self.k)?;
        let weights = self.input.weights.iter().map(|&w| u64::from(w));
        write_colors(f, "colours", self.input.colors.iter().copied().zip(weights))?;
        write_colors(f, "frame", self.frame.iter().map(|&(c, n)| (c, n as u64)))?;
        write!(f, "; band {} {}", self.band.first, self.band.pixels)?;
        let [a, b, c, d] = self.spare;
        write!(f, "; spare {a} {b} {c} {d}; seed {}", self.seed)?;
        match &self.kind {
            Kind::Whole { by_pixels, batches } => {
                write!(f, "; pixels {}; batches {batches}", u8::from(*by_pixels))
            }
            Kind::Calls { split, damages } => {
                write!(f, "; split {split}")?;
                write_damages(f, damages)
            }
            Kind::Narrow { split, damages } => {
                write!(f, "; narrow; split {split}")?;
                write_damages(f, damages)
            }
            Kind::Nights {
                from,
                split,
                damages,
            } => {
                write!(f, "; from {from}; split {split}")?;
                write_damages(f, damages)
            }
            Kind::Rescues { damages } => write_damages(f, damages),
            Kind::Recordings {
                split,
                first,
                entries,
                damages,
            } => {
                write_entries(f, *first, entries)?;
                write!(f, "; split {split}")?;
                write_damages(f, damages)
            }
            Kind::Ppm {
                split,
                header,
                damages,
            } => {
                write!(f, "; header")?;
                header.iter().try_for_each(|c| write!(f, " {c}"))?;
                write!(f, "; split {split}")?;
                write_damages(f, damages)
            }
            Kind::Trees { tables, damages } => {
                write!(f, "; tables")?;
                for (i, [kind, colours]) in tables.iter().enumerate() {
                    let comma = if i == 0 { "" } else { "," };
                    write!(f, "{comma} {kind} {colours}")?;
                }
                write_damages(f, damages)
            }
            Kind::Doubled { power, free } => {
                write!(f, "; power {power}; free {}", u8::from(*free))
            }
            Kind::Palettes { stray, answers } => write!(f, "; stray {stray}; answers {answers}"),
        }
    }
}

/// The numbers among the words of a text.
fn numbers<T: std::str::FromStr>(text: &str) -> Vec<T> {
    text.split_whitespace()
        .filter_map(|w| w.parse().ok())
        .collect()
}

fn colors(text: &str) -> impl Iterator<Item = ([u8; 3], u64)> {
    text.split(',').filter_map(|one| {
        let [r, g, b, n] = numbers::<u64>(one).try_into().ok()?;
        Some(([r, g, b].map(|c| c as u8), n))
    })
}

/// Lists of so many numbers.
fn lists<T: std::str::FromStr, const N: usize>(text: &str) -> Vec<[T; N]> {
    let all = text.split(',').map(numbers::<T>);
    all.filter_map(|list| list.try_into().ok()).collect()
}

impl Case {
    /// Reads the line of a case.
    pub fn of_line(line: &str) -> Option<Self> {
        let field = |name: &str| {
            line.split(';')
                .filter_map(|f| f.trim().split_once(' ').or(Some((f.trim(), ""))))
                .find(|(word, _)| *word == name)
                .map(|(_, rest)| rest)
        };
        let one = |name: &str| field(name).and_then(|t| numbers::<u64>(t).first().copied());
        let (colors_of_input, weights) = colors(field("colours")?)
            .map(|(c, w)| (c, w as u32))
            .unzip();
        let [first, pixels] = numbers(field("band")?).try_into().ok()?;
        let damages = || {
            let list = field("damages")?.split(',');
            Some(list.filter_map(Damage::of_text).collect())
        };
        let kind = match (one("split"), one("from"), one("first"), field("header")) {
            (Some(split), None, None, None) if field("narrow").is_some() => Kind::Narrow {
                split: split as usize,
                damages: damages()?,
            },
            (Some(split), None, None, None) => Kind::Calls {
                split: split as usize,
                damages: damages()?,
            },
            (Some(split), None, None, Some(header)) => Kind::Ppm {
                split: split as usize,
                header: numbers(header),
                damages: damages()?,
            },
            (Some(split), Some(from), None, None) => Kind::Nights {
                from: from as usize,
                split: split as usize,
                damages: damages()?,
            },
            (Some(split), None, Some(first), None) => Kind::Recordings {
                split: split as usize,
                first: first as u32,
                entries: lists(field("entries")?),
                damages: damages()?,
            },
            _ if field("tables").is_some() => Kind::Trees {
                tables: lists(field("tables")?),
                damages: damages()?,
            },
            _ if one("power").is_some() => Kind::Doubled {
                power: one("power")? as usize,
                free: one("free")? != 0,
            },
            (None, None, None, None) if field("damages").is_some() => Kind::Rescues {
                damages: damages()?,
            },
            _ if one("stray").is_some() => Kind::Palettes {
                stray: one("stray")? as usize,
                answers: one("answers")? as usize,
            },
            _ => Kind::Whole {
                by_pixels: one("pixels")? != 0,
                batches: one("batches")? as usize,
            },
        };
        Some(Self {
            kind,
            grid: numbers(field("grid")?).try_into().ok()?,
            k: one("k")? as usize,
            input: Input {
                colors: colors_of_input,
                weights,
            },
            frame: colors(field("frame")?)
                .map(|(c, n)| (c, n as usize))
                .collect(),
            band: Band { first, pixels },
            spare: numbers(field("spare")?).try_into().ok()?,
            seed: one("seed")?,
        })
    }
}
