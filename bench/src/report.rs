//! The tables: a row for each operation at a grid, a column for each input.
use crate::{
    inputs::Input,
    side::{Beside, NarrowCall, Operation, Sizes},
};
use std::fmt::Write as _;

/// One operation at one grid on one input: our time in seconds, and its ratio to the Rust's.
pub struct Cell {
    pub time: f64,
    pub ratio: Option<f64>,
}

pub struct Row {
    pub sizes: Sizes,
    pub operation: Operation,
    /// Where the Rust made its moments, if it made any.
    pub moments: &'static str,
    pub cells: Vec<Cell>,
}

impl Cell {
    /// The ratio in hundredths, which is how it is printed and held to its target.
    fn rounded(&self) -> Option<f64> {
        self.ratio.map(|ratio| (100.0 * ratio).round() / 100.0)
    }
}

impl Row {
    fn name(&self) -> String {
        format!("{}{}", self.operation, self.moments)
    }

    /// What the ratios should be at most, for each input.
    fn targets(&self) -> Option<[f64; 3]> {
        let alone = self.cells.iter().any(|cell| cell.ratio.is_none());
        if alone {
            return None;
        }
        if let Operation::Rescue { damaged } = self.operation {
            let asked = [[16, 32, 16], [64, 64, 64]].contains(&self.sizes);
            return asked.then_some([if damaged { 1.5 } else { 1.3 }; 3]);
        }
        if let Operation::Narrow(call, Beside::Wide) = self.operation {
            return narrow_target(call, self.sizes).map(|most| [most; 3]);
        }
        if ![[16, 32, 16], [32, 32, 32]].contains(&self.sizes) {
            return None;
        }
        match (self.operation, self.moments) {
            (Operation::Load, _) => Some([1.1, 0.85, 0.5]),
            (Operation::LoadWeighted, _) => Some([1.45, 1.0, 0.65]),
            (Operation::LoadPpm, _) => Some([1.01; 3]),
            (Operation::Replay, _) if self.sizes == [16, 32, 16] => Some([1.1; 3]),
            (Operation::Cut(256), ON_A_COPY) => Some([1.0; 3]),
            (Operation::Cut(256), IN_PLACE) => Some([1.1; 3]),
            (Operation::Map | Operation::Paint, _) => Some([1.0, 1.0, 0.65]),
            (Operation::Nearest, _) => Some([0.8; 3]),
            (Operation::Whole { .. }, _) => Some([1.1, 0.9, 0.55]),
            _ => None,
        }
    }

    /// Whether a cell misses its target.
    fn misses(&self, input: usize) -> bool {
        match (self.targets(), self.cells[input].rounded()) {
            (Some(targets), Some(ratio)) => ratio > targets[input],
            _ => false,
        }
    }

    fn line(&self) -> String {
        let mut line = format!("| {} |", self.name());
        for (i, cell) in self.cells.iter().enumerate() {
            let time = milliseconds(cell.time);
            match cell.rounded() {
                None => write!(line, " {time} |"),
                Some(ratio) if self.misses(i) => write!(line, " **{ratio:.2} ✗** {time} |"),
                Some(ratio) => write!(line, " {ratio:.2} {time} |"),
            }
            .expect("a text takes all that is written");
        }
        match self.targets() {
            Some([a, b, c]) => format!("{line} {a} / {b} / {c} |\n"),
            None => format!("{line} |\n"),
        }
    }
}

/// What the ratio of a narrow call to the wide one should be at most.
fn narrow_target(call: NarrowCall, sizes: Sizes) -> Option<f64> {
    match (call, sizes) {
        (NarrowCall::Load, [128, 128, 128]) => Some(1.25),
        (NarrowCall::Load, _) => Some(1.15),
        (_, [16, 32, 16]) => None,
        (NarrowCall::Merge, _) => Some(0.8),
        (NarrowCall::Cut(_), [32, 32, 32]) => Some(0.9),
        (NarrowCall::Cut(_), _) => Some(0.75),
    }
}

pub const ON_A_COPY: &str = ", on a copy";
pub const IN_PLACE: &str = ", in place";

/// In three digits.
fn milliseconds(seconds: f64) -> String {
    let time = 1000.0 * seconds;
    let digits = [0.9995, 9.995, 99.95]
        .iter()
        .filter(|&&bound| time < bound)
        .count();
    format!("({time:.digits$} ms)")
}

/// The name of a grid.
pub fn grid([b1, b2, b3]: Sizes) -> String {
    format!("{b1},{b2},{b3}")
}

/// One table for each grid.
pub fn tables(rows: &[Row], inputs: &[Input]) -> String {
    let mut text = String::new();
    let names: Vec<_> = inputs.iter().map(|input| input.name).collect();
    for rows in rows.chunk_by(|a, b| a.sizes == b.sizes) {
        let (name, names) = (grid(rows[0].sizes), names.join(" | "));
        text += &format!("### Grid {name}\n\n| | {names} | at most |\n|---|---|---|---|---|\n");
        text.extend(rows.iter().map(Row::line));
        text += "\n";
    }
    text
}

/// The cells that miss, a line for each.
pub fn misses(rows: &[Row], inputs: &[Input]) -> Vec<(Operation, String)> {
    let mut lines = Vec::new();
    for row in rows {
        for (i, input) in inputs.iter().enumerate().filter(|&(i, _)| row.misses(i)) {
            let ratio = row.cells[i].rounded().expect("a ratio misses");
            let most = row.targets().expect("a target is missed")[i];
            let (name, grid) = (row.name(), grid(row.sizes));
            let line = format!(
                "- {name}, {grid}, {}: {ratio:.2}, at most {most}",
                input.name
            );
            lines.push((row.operation, line));
        }
    }
    lines
}
