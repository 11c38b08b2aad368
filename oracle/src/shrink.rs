//! Looks for a smaller case that still differs.
use crate::{
    answer::original,
    case::{Case, Kind},
    damage::Damage,
    port::Band,
};

/// How many cases are tried at most.
const TRIES: usize = 20_000;

/// A case made smaller again and again, as long as it differs. What it ends with is smaller in no single step.
pub fn shrink(case: &Case, differs: &dyn Fn(&Case) -> bool) -> Case {
    let mut best = case.clone();
    let mut tries = 0;
    let mut take = |best: &mut Case, other: Case| {
        tries += 1;
        let better = tries <= TRIES && other != *best && is_fit(&other) && differs(&other);
        if better {
            *best = other;
        }
        better
    };
    loop {
        let mut smaller = false;
        for step in STEPS {
            for other in step(&best) {
                if take(&mut best, other) {
                    smaller = true;
                    break;
                }
            }
        }
        let mut part = best.input.colors.len();
        while part > 0 {
            let mut at = 0;
            while at < best.input.colors.len() {
                let other = without(&best, at, part);
                if take(&mut best, other) {
                    smaller = true;
                } else {
                    at += part;
                }
            }
            part /= 2;
        }
        if !smaller {
            return best;
        }
    }
}

/// Whether the judge has the grid, k is in its bounds and the band in the frame. A comparison, a rescue, a recording, a
/// file, merges and a palette ask no original, and a table that is multiplied can do without.
fn is_fit(case: &Case) -> bool {
    let pixels: usize = case.frame.iter().map(|f| f.1).sum();
    let colours = case.input.colors.len();
    let asked = matches!(
        case.kind,
        Kind::Whole { .. } | Kind::Calls { .. } | Kind::Narrow { .. }
    );
    let any = case.grid.iter().all(|&size| size >= 2);
    (original(case.grid).is_some() || any && !asked)
        && (1..=256).contains(&case.k)
        && case.band.first + case.band.pixels <= pixels
        && match &case.kind {
            Kind::Whole { by_pixels, .. } => !by_pixels || case.input.total() > 0,
            Kind::Calls { split, .. } | Kind::Narrow { split, .. } | Kind::Ppm { split, .. } => {
                *split <= colours
            }
            Kind::Nights { from, split, .. } => *from.max(split) <= colours,
            Kind::Rescues { .. } => true,
            Kind::Recordings { split, entries, .. } => {
                *split + entries.iter().map(|e| e[2] as usize).sum::<usize>() == colours
            }
            Kind::Trees { tables, .. } => {
                !tables.is_empty() && tables.iter().map(|t| t[1]).sum::<usize>() == colours
            }
            Kind::Doubled { .. } => case.input.total() > 0,
            Kind::Palettes { .. } => true,
        }
}

/// The case without so many colours from one on.
fn without(case: &Case, at: usize, count: usize) -> Case {
    let mut other = case.clone();
    let end = (at + count).min(other.input.colors.len());
    other.input.colors.drain(at..end);
    other.input.weights.drain(at..end);
    let fewer = |split: &mut usize| *split -= (*split).clamp(at, end) - at;
    match &mut other.kind {
        Kind::Whole { .. }
        | Kind::Rescues { .. }
        | Kind::Doubled { .. }
        | Kind::Palettes { .. } => {}
        Kind::Calls { split, .. } | Kind::Narrow { split, .. } | Kind::Ppm { split, .. } => {
            fewer(split)
        }
        Kind::Nights { from, split, .. } => {
            fewer(from);
            fewer(split);
        }
        Kind::Recordings { split, entries, .. } => {
            let mut start = *split;
            fewer(split);
            for entry in entries {
                let stop = start + entry[2] as usize;
                entry[2] -= (stop.clamp(at, end) - start.clamp(at, end)) as u32;
                start = stop;
            }
        }
        Kind::Trees { tables, .. } => {
            let mut start = 0;
            for [_, colours] in tables {
                let stop = start + *colours;
                *colours -= stop.clamp(at, end) - start.clamp(at, end);
                start = stop;
            }
        }
    }
    other
}

/// Numbers below n that are tried in its place.
fn below(n: usize) -> Vec<usize> {
    let mut list = vec![0, 1, n / 2, n.saturating_sub(1)];
    list.retain(|m| *m < n);
    list
}

/// The case changed in one place, for each of the numbers below the one there.
fn with(case: &Case, old: usize, put: impl Fn(&mut Case, usize)) -> Vec<Case> {
    let one = |n| {
        let mut other = case.clone();
        put(&mut other, n);
        other
    };
    below(old).into_iter().map(one).collect()
}

/// Smaller grids first: what comes after is quicker there.
const STEPS: [fn(&Case) -> Vec<Case>; 7] = [sizes, kinds, ks, weights, colors, frames, spares];

/// The case with its recorded list changed.
fn recorded(case: &Case, change: impl Fn(&mut u32, &mut Vec<[u32; 3]>, &mut Vec<Damage>)) -> Case {
    let mut other = case.clone();
    if let Kind::Recordings {
        first,
        entries,
        damages,
        ..
    } = &mut other.kind
    {
        change(first, entries, damages);
    }
    other
}

/// The case with the tables that it merges changed.
fn merged(case: &Case, change: impl Fn(&mut Vec<[usize; 2]>, &mut Vec<Damage>)) -> Case {
    let mut other = case.clone();
    if let Kind::Trees { tables, damages } = &mut other.kind {
        change(tables, damages);
    }
    other
}

/// The case with its file changed.
fn filed(case: &Case, change: impl Fn(&mut usize, &mut Vec<u8>, &mut Vec<Damage>)) -> Case {
    let mut other = case.clone();
    if let Kind::Ppm {
        split,
        header,
        damages,
    } = &mut other.kind
    {
        change(split, header, damages);
    }
    other
}

/// The case with a plain header and so many pixels in its file.
fn plain(case: &Case, split: usize, pixels: usize) -> Case {
    let end = split + pixels;
    let fewer = without(case, end, case.input.colors.len() - end);
    filed(&fewer, |_, header, _| {
        *header = format!("P6 {pixels} 1 255\n").into_bytes();
    })
}

/// Nothing by pixels, fewer batches, or fewer damages; fewer entries of a recorded list, or smaller intervals; fewer
/// pixels of a file, fewer bytes of its header, or a blank or a 1 among them; fewer tables, or what colours make in the
/// place of other numbers; a smaller power; fewer stray bytes or answers.
fn kinds(case: &Case) -> Vec<Case> {
    let mut list = Vec::new();
    match &case.kind {
        Kind::Whole { by_pixels, batches } => {
            for (by_pixels, batches) in [(false, 0), (false, *batches), (*by_pixels, 0)] {
                let kind = Kind::Whole { by_pixels, batches };
                list.push(Case {
                    kind,
                    ..case.clone()
                });
            }
            list.extend(with(case, *batches, |c, n| {
                if let Kind::Whole { batches, .. } = &mut c.kind {
                    *batches = n;
                }
            }));
        }
        Kind::Calls { split, damages } => {
            for i in 0..damages.len() {
                let mut fewer = damages.clone();
                fewer.remove(i);
                let kind = Kind::Calls {
                    split: *split,
                    damages: fewer,
                };
                list.push(Case {
                    kind,
                    ..case.clone()
                });
            }
            for split in [0, split / 2, split.saturating_sub(1)] {
                let damages = damages.clone();
                let kind = Kind::Calls { split, damages };
                list.push(Case {
                    kind,
                    ..case.clone()
                });
            }
        }
        Kind::Narrow { split, damages } => {
            for i in 0..damages.len() {
                let mut other = case.clone();
                if let Kind::Narrow { damages, .. } = &mut other.kind {
                    damages.remove(i);
                }
                list.push(other);
            }
            list.extend(with(case, *split, |c, n| {
                if let Kind::Narrow { split, .. } = &mut c.kind {
                    *split = n;
                }
            }));
        }
        Kind::Nights {
            from,
            split,
            damages,
        } => {
            for i in 0..damages.len() {
                let mut other = case.clone();
                if let Kind::Nights { damages, .. } = &mut other.kind {
                    damages.remove(i);
                }
                list.push(other);
            }
            list.extend(with(case, *from, |c, n| {
                if let Kind::Nights { from, .. } = &mut c.kind {
                    *from = n;
                }
            }));
            list.extend(with(case, *split, |c, n| {
                if let Kind::Nights { split, .. } = &mut c.kind {
                    *split = n;
                }
            }));
        }
        Kind::Rescues { damages } => {
            for i in 0..damages.len() {
                let mut fewer = damages.clone();
                fewer.remove(i);
                let kind = Kind::Rescues { damages: fewer };
                list.push(Case {
                    kind,
                    ..case.clone()
                });
            }
        }
        Kind::Recordings {
            split,
            first,
            entries,
            damages,
        } => {
            for i in 0..damages.len() {
                list.push(recorded(case, |_, _, damages| {
                    damages.remove(i);
                }));
            }
            let mut end = *split;
            for (i, entry) in entries.iter().enumerate() {
                let (at, colours) = (end, entry[2] as usize);
                end = at + colours;
                list.push(recorded(&without(case, at, colours), |_, entries, _| {
                    entries.remove(i);
                }));
                for smaller in below(entry[1] as usize) {
                    list.push(recorded(case, |_, entries, _| {
                        entries[i][1] = smaller as u32
                    }));
                }
                for smaller in below(entry[1] as usize) {
                    list.push(recorded(case, |first, entries, _| {
                        let old = entry[1];
                        let same = entries.iter_mut().map(|e| &mut e[1]).chain([first]);
                        same.filter(|n| **n == old)
                            .for_each(|n| *n = smaller as u32);
                    }));
                }
            }
            for smaller in below(*first as usize) {
                list.push(recorded(case, |first, _, _| *first = smaller as u32));
            }
        }
        Kind::Ppm {
            split,
            header,
            damages,
        } => {
            for i in 0..damages.len() {
                list.push(filed(case, |_, _, damages| {
                    damages.remove(i);
                }));
            }
            for fewer in below(*split) {
                list.push(filed(case, |split, _, _| *split = fewer));
            }
            for fewer in below(case.input.colors.len() - split) {
                list.push(plain(case, *split, fewer));
            }
            for i in 0..header.len() {
                list.push(filed(case, |_, header, _| {
                    header.remove(i);
                }));
                let simple = if header[i].is_ascii_digit() {
                    b'1'
                } else {
                    b' '
                };
                list.push(filed(case, |_, header, _| header[i] = simple));
            }
        }
        Kind::Trees { tables, damages } => {
            for i in 0..damages.len() {
                list.push(merged(case, |_, damages| {
                    damages.remove(i);
                }));
            }
            let mut end = 0;
            for (i, &[_, colours]) in tables.iter().enumerate() {
                let at = end;
                end += colours;
                list.push(merged(&without(case, at, colours), |tables, _| {
                    tables.remove(i);
                }));
                list.push(merged(case, |tables, _| tables[i][0] = 0));
            }
        }
        Kind::Doubled { power, free } => {
            let of_colours = Kind::Doubled {
                power: *power,
                free: false,
            };
            list.push(Case {
                kind: of_colours,
                ..case.clone()
            });
            let free = *free;
            list.extend(with(case, *power, |c, power| {
                c.kind = Kind::Doubled { power, free };
            }));
        }
        Kind::Palettes { stray, answers } => {
            list.extend(with(case, *stray, |c, n| {
                if let Kind::Palettes { stray, .. } = &mut c.kind {
                    *stray = n;
                }
            }));
            list.extend(with(case, *answers, |c, n| {
                if let Kind::Palettes { answers, .. } = &mut c.kind {
                    *answers = n;
                }
            }));
        }
    }
    list.retain(|c| c.kind != case.kind);
    list
}

fn sizes(case: &Case) -> Vec<Case> {
    let mut list = Vec::new();
    for d in 0..3 {
        for size in [2, case.grid[d] / 2] {
            if size < case.grid[d] {
                let mut other = case.clone();
                other.grid[d] = size;
                list.push(other);
            }
        }
    }
    list
}

fn ks(case: &Case) -> Vec<Case> {
    with(case, case.k, |c, k| c.k = k)
}

fn weights(case: &Case) -> Vec<Case> {
    let mut all = case.clone();
    all.input.weights.fill(1);
    let mut list = vec![all];
    list.retain(|c| c.input.total() < case.input.total());
    for i in 0..case.input.weights.len().min(50) {
        let old = case.input.weights[i] as usize;
        list.extend(with(case, old, |c, w| c.input.weights[i] = w as u32));
    }
    list
}

fn colors(case: &Case) -> Vec<Case> {
    let mut list = Vec::new();
    for i in 0..case.input.colors.len().min(50) {
        for d in 0..3 {
            let old = usize::from(case.input.colors[i][d]);
            list.extend(with(case, old, |c, n| c.input.colors[i][d] = n as u8));
        }
    }
    list
}

fn frames(case: &Case) -> Vec<Case> {
    let nothing = Case {
        frame: Vec::new(),
        band: Band::default(),
        ..case.clone()
    };
    let mut list = vec![nothing];
    for i in 0..case.frame.len() {
        let mut other = case.clone();
        other.frame.remove(i);
        other.band.pixels = other.band.pixels.saturating_sub(case.frame[i].1);
        list.push(other);
        list.extend(with(case, case.frame[i].1, |c, n| c.frame[i].1 = n));
    }
    list.extend(with(case, case.band.first, |c, n| c.band.first = n));
    list.extend(with(case, case.band.pixels, |c, n| c.band.pixels = n));
    list
}

fn spares(case: &Case) -> Vec<Case> {
    let mut list = Vec::new();
    for i in 0..4 {
        list.extend(with(case, case.spare[i], |c, n| c.spare[i] = n));
    }
    list.extend(with(case, case.seed as usize, |c, n| c.seed = n as u64));
    list
}
