//! Recorded lists replayed, and the calls of a session one by one, good or damaged, against the rules (Rules, Record;
//! Rules, Replay; Rules, Answers). The original has no such calls, so that every grid is one of the judge's here.
use crate::{
    buffer::{Buffer, Differs, same},
    calls::{add_one, off, resize, table_of},
    case::Case,
    damage::Damage,
    numbers::{self, LARGEST_TOTAL, scaled},
    port::{Grid, Port, Recorded},
    random::Random,
    tally::Tally,
};
use std::ops::Range;

/// A recorded list with all that is lent to replay it, and the intervals of a batch of all its colours.
struct Recording {
    grid: Grid,
    table: Vec<u64>,
    in_force: u32,
    own: u32,
    entries: Vec<u32>,
    colours: Vec<u8>,
    weights: Vec<u32>,
    weighted: bool,
    answers: usize,
}

/// What a replay that is done leaves.
struct Told {
    answers: Vec<u8>,
    in_force: u32,
    table: Vec<u64>,
}

/// "A session begins with an interval; refused, it has interval 0." "A reload sets the interval in force; refused, it
/// leaves the old one."
fn session(old: u32, interval: u32) -> (u8, u32) {
    match numbers::interval(interval) {
        0 => (0, interval),
        number => (number, old),
    }
}

impl Recording {
    fn damage(&mut self, d: &Damage, r: &mut Random) {
        let mut listed = |which: usize| {
            if let Some(n) = self.entries.get_mut(3 * d.place + which) {
                *n = d.value as u32;
            }
        };
        match d.what {
            "number" => {
                if let Some(n) = self.table.get_mut(d.place) {
                    *n = n.wrapping_add_signed(d.value);
                }
            }
            "size" => self.grid[d.place % 3] = d.value as usize,
            "table" => resize(&mut self.table, d.value, r),
            "in-force" => self.in_force = d.value as u32,
            "own" => self.own = d.value as u32,
            "kind" => listed(0),
            "listed-interval" => listed(1),
            "listed-colours" => listed(2),
            "entries" => resize(&mut self.entries, d.value, r),
            "answers" => self.answers = off(self.answers, d.value),
            "colour-bytes" => resize(&mut self.colours, d.value, r),
            "weights" => resize(&mut self.weights, d.value, r),
            "weighted" => self.weighted = false,
            other => unreachable!("{other}"),
        }
    }

    fn recorded(&self) -> Recorded<'_> {
        Recorded {
            entries: &self.entries,
            colours: &self.colours,
            weights: &self.weights,
        }
    }

    /// The entries, each with the colours and weights that are its own: "The colours and weights of all batches lie one
    /// after the other".
    fn parts(&self) -> Vec<([u32; 3], Range<usize>)> {
        let mut end = 0;
        let own = |&entry: &[u32; 3]| {
            let start = end;
            end += entry[2] as usize;
            (entry, start..end)
        };
        self.entries.as_chunks().0.iter().map(own).collect()
    }

    /// Begins with the interval in force, and reloads to each interval of the list.
    fn session(&self, port: &dyn Port, tally: &mut Tally) -> Result<(), Differs> {
        let answered = port.begin(self.in_force);
        same("what begins", session(0, self.in_force), answered)?;
        tally.count("begin", answered.0);
        for ([_, interval, _], _) in self.parts() {
            let answered = port.reload(self.in_force, interval);
            same("a reload", session(self.in_force, interval), answered)?;
            tally.count("reload", answered.0);
        }
        Ok(())
    }

    /// All colours and weights as one batch.
    fn batch(&self, port: &dyn Port, r: &mut Random) -> Result<u8, Differs> {
        let intervals = [self.in_force, self.own];
        let (bytes, weights) = (self.colours.len(), &self.weights);
        let said = numbers::batch(
            intervals,
            self.grid,
            &self.table,
            bytes,
            self.weighted,
            weights,
        );
        let mut table = Buffer::of(&self.table, r);
        let number = port.batch(
            intervals,
            self.grid,
            table.lend(),
            &self.colours,
            self.weighted,
            weights,
        );
        same("the number of a batch", said, number)?;
        if number != 0 {
            table.unchanged("the table of a refused batch")?;
            return Ok(number);
        }
        let mut later = self.table.clone();
        let colors = self.colours.as_chunks::<3>().0;
        for (i, &color) in colors.iter().enumerate() {
            // "Without weights each colour weighs the interval."
            let weight = if self.weighted { weights[i] } else { 1 };
            let w = scaled(self.own, weight);
            add_one(self.grid, &mut later, color, w as u64);
        }
        table.expect("the table of a batch", 0, &later)?;
        Ok(number)
    }

    /// What a replay that is done leaves. "A batch is accepted exactly when its interval is the one that the last
    /// accepted reload before it set, or the start where there is none, and its total, with its weights multiplied,
    /// fits on top of the total before it." "The table afterwards is the first table with the accepted batches loaded,
    /// each with its scaled weights, in any order": here from the last.
    fn told(&self) -> Told {
        let mut total = numbers::sound(self.grid, &self.table).expect("a sound table");
        let mut in_force = self.in_force;
        let (mut answers, mut accepted) = (Vec::new(), Vec::new());
        for ([kind, interval, _], own) in self.parts() {
            let weight: u128 = self.weights[own.clone()]
                .iter()
                .map(|&w| scaled(interval, w))
                .sum();
            let out_of_range = !(1..=4096).contains(&interval);
            answers.push(match kind {
                _ if out_of_range => 13,
                0 => {
                    in_force = interval;
                    0
                }
                _ if interval != in_force => 14,
                _ if total + weight > LARGEST_TOTAL => 7,
                _ => {
                    total += weight;
                    accepted.push((interval, own));
                    0
                }
            });
        }
        let mut table = self.table.clone();
        for (interval, own) in accepted.into_iter().rev() {
            for i in own.rev() {
                let color = self.colours.as_chunks::<3>().0[i];
                let w = scaled(interval, self.weights[i]);
                add_one(self.grid, &mut table, color, w as u64);
            }
        }
        Told {
            answers,
            in_force,
            table,
        }
    }

    fn replay(
        &self,
        port: &dyn Port,
        r: &mut Random,
        tally: &mut Tally,
    ) -> Result<Option<Told>, Differs> {
        let recorded = self.recorded();
        let said = numbers::replay(
            self.in_force,
            self.grid,
            &self.table,
            recorded,
            self.answers,
        );
        let mut table = Buffer::of(&self.table, r);
        let mut answers = Buffer::random(self.answers, r);
        let answered = port.replay(
            self.in_force,
            self.grid,
            table.lend(),
            recorded,
            answers.lend(),
        );
        tally.count("replay", answered.0);
        same("the number of a replay", said, answered.0)?;
        if said != 0 {
            same("what a refused replay answers", (said, 0), answered)?;
            table.unchanged("the table of a refused replay")?;
            answers.unchanged("the answers of a refused replay")?;
            return Ok(None);
        }
        let told = self.told();
        answers.expect("the answers of a replay", 0, &told.answers)?;
        table.expect("the table of a replay", 0, &told.table)?;
        same("the interval then in force", (0, told.in_force), answered)?;
        told.answers.iter().for_each(|&a| tally.count("entries", a));
        Ok(Some(told))
    }

    /// "A replay equals its entries one by one through reload and batch."
    fn one_by_one(&self, port: &dyn Port, told: &Told, r: &mut Random) -> Result<(), Differs> {
        let mut in_force = self.in_force;
        let mut table = Buffer::of(&self.table, r);
        for (([kind, interval, _], own), &said) in self.parts().into_iter().zip(&told.answers) {
            let number = if kind == 0 {
                let answered = port.reload(in_force, interval);
                in_force = answered.1;
                answered.0
            } else {
                port.batch(
                    [in_force, interval],
                    self.grid,
                    table.lend(),
                    &self.colours[3 * own.start..3 * own.end],
                    true,
                    &self.weights[own],
                )
            };
            same("an entry by itself", said, number)?;
        }
        same("the interval, one by one", told.in_force, in_force)?;
        table.expect("the table, one by one", 0, &told.table)
    }

    /// "Split between two entries, with their colours, weights and answer bytes, it equals its two parts, the second
    /// begun with the first's table and interval."
    fn in_two_parts(&self, port: &dyn Port, told: &Told, r: &mut Random) -> Result<(), Differs> {
        let split = r.from(0, told.answers.len());
        let colours = self.parts()[..split].last().map_or(0, |(_, own)| own.end);
        let (first, second) = self.entries.split_at(3 * split);
        let mut table = Buffer::of(&self.table, r);
        let mut answers = Buffer::random(told.answers.len(), r);
        let mut in_force = self.in_force;
        for (entries, own, answered) in [
            (first, 0..colours, 0..split),
            (
                second,
                colours..self.weights.len(),
                split..told.answers.len(),
            ),
        ] {
            let part = Recorded {
                entries,
                colours: &self.colours[3 * own.start..3 * own.end],
                weights: &self.weights[own],
            };
            let bytes = &mut answers.lend()[answered];
            let (number, later) = port.replay(in_force, self.grid, table.lend(), part, bytes);
            same("the number of a part of a replay", 0, number)?;
            in_force = later;
        }
        answers.expect("the answers of two parts", 0, &told.answers)?;
        table.expect("the table of two parts", 0, &told.table)?;
        same("the interval of two parts", told.in_force, in_force)
    }
}

/// Replays a recorded list, its first interval and its entries, over the table of the first `split` colours.
pub fn recordings(
    port: &dyn Port,
    case: &Case,
    split: usize,
    (first, entries): (u32, &[u32]),
    damages: &[Damage],
    tally: &mut Tally,
) -> Result<(), Differs> {
    let r = &mut Random(case.seed);
    let (before, colors) = case.input.colors.split_at(split);
    let (weights_before, weights) = case.input.weights.split_at(split);
    let mut recording = Recording {
        grid: case.grid,
        table: table_of(case.grid, before, weights_before),
        in_force: first,
        own: first,
        entries: entries.to_vec(),
        colours: colors.as_flattened().to_vec(),
        weights: weights.to_vec(),
        weighted: true,
        answers: entries.len() / 3 + case.spare[0],
    };
    for d in damages {
        recording.damage(d, r);
    }
    recording.session(port, tally)?;
    let number = recording.batch(port, r)?;
    tally.count("batch", number);
    if let Some(told) = recording.replay(port, r, tally)? {
        recording.one_by_one(port, &told, r)?;
        recording.in_two_parts(port, &told, r)?;
    }
    Ok(())
}
