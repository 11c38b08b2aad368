//! Times the proved code and the original's text in one process, on the same frames, and prints the ratios.
//!
//! `--quick` takes fewer runs, and `--only TEXT` takes only the rows whose grid or operation has that text. A whole run
//! of both sides fills a template, `--template FILE`, and writes it to `--page FILE`. Where a cell misses its target
//! and the template gives no reason, the run fails.
mod inputs;
mod measure;
mod narrow;
#[cfg(feature = "original")]
mod one_load;
mod ours;
mod page;
#[cfg(feature = "original")]
mod plain;
mod ppm;
mod recording;
mod report;
mod rescue;
mod side;
mod terminal;
#[cfg(feature = "original")]
mod theirs;
#[cfg(feature = "original")]
mod triples;

use inputs::Input;
use measure::Effort;
use report::{Cell, IN_PLACE, ON_A_COPY, Row};
use side::{Beside, Lent, NarrowCall, OPERATIONS, Operation, Side, Sizes};
use std::{env, fs, process::ExitCode, time::Duration};

const GRIDS: [Sizes; 5] = [
    [16, 32, 16],
    [32, 32, 32],
    [64, 64, 64],
    [128, 128, 128],
    SMALL,
];

/// A grid for small devices: slow cuts alone are timed there.
const SMALL: Sizes = [8, 8, 8];

const WHOLE: Effort = Effort {
    time: Duration::from_millis(1000),
    fewest: 15,
    most: 301,
};
const QUICK: Effort = Effort {
    time: Duration::from_millis(150),
    fewest: 5,
    most: 101,
};

/// Whether an operation is timed at a grid.
fn is_timed(sizes: Sizes, operation: Operation) -> bool {
    match operation {
        // in larger grids a run takes up to some seconds
        Operation::CutSlowly(_) => [SMALL, [16, 32, 16], [32, 32, 32]].contains(&sizes),
        // it has no grid, and stands in one table
        Operation::Nearest => sizes == GRIDS[0],
        _ => sizes != SMALL,
    }
}

/// Our side at a grid, and the original where its text is at hand: its moments on a copy, and in place.
fn sides(sizes: Sizes, lent: &Lent) -> Vec<Box<dyn Side>> {
    let ours: Box<dyn Side> = Box::new(ours::Ours::new(sizes, lent));
    #[cfg(feature = "original")]
    return [ours].into_iter().chain(theirs::at(sizes, lent)).collect();
    #[cfg(not(feature = "original"))]
    vec![ours]
}

/// The rows of one operation, still without cells: two where the Rust makes moments.
fn rows_of(sizes: Sizes, operation: Operation) -> Vec<Row> {
    let moments: &[_] = match operation {
        _ if !cfg!(feature = "original") => &[""],
        Operation::Moments
        | Operation::Cut(_)
        | Operation::Narrow(NarrowCall::Cut(_), Beside::Original) => &[ON_A_COPY, IN_PLACE],
        Operation::Whole { .. } => &[IN_PLACE],
        _ => &[""],
    };
    let row = |&moments| Row {
        sizes,
        operation,
        moments,
        cells: Vec::new(),
    };
    moments.iter().map(row).collect()
}

/// All rows of a grid, of the operations that are wanted.
fn measure(sizes: Sizes, inputs: &[Input], operations: &[Operation], effort: Effort) -> Vec<Row> {
    let mut rows: Vec<_> = operations.iter().map(|&o| rows_of(sizes, o)).collect();
    for input in inputs {
        let mut lent = Lent::new(input);
        let mut sides = sides(sizes, &lent);
        for rows in &mut rows {
            let taking_part = sides.len().min(1 + rows.len());
            let sides = &mut sides[..taking_part];
            let medians = measure::medians(sides, rows[0].operation, &mut lent, effort);
            for (i, row) in rows.iter_mut().enumerate() {
                row.cells.push(Cell {
                    time: medians.time,
                    ratio: medians.ratios.get(i).copied(),
                });
            }
        }
    }
    rows.into_iter().flatten().collect()
}

/// What was asked for.
#[derive(Default)]
struct Asked {
    quick: bool,
    only: Option<String>,
    template: Option<String>,
    page: Option<String>,
}

fn asked() -> Asked {
    let mut asked = Asked::default();
    let mut words = env::args().skip(1);
    while let Some(word) = words.next() {
        match word.as_str() {
            "--quick" => asked.quick = true,
            "--only" => asked.only = words.next(),
            "--template" => asked.template = words.next(),
            "--page" => asked.page = words.next(),
            _ => panic!("what is {word}?"),
        }
    }
    asked
}

fn main() -> ExitCode {
    let asked = asked();
    if cfg!(debug_assertions) {
        panic!("only a release build is worth timing");
    }
    if !cfg!(feature = "original") {
        println!("The original's text is not at hand: our side is timed alone.\n");
    }
    let effort = if asked.quick { QUICK } else { WHOLE };
    let inputs = inputs::all();
    let mut rows = Vec::new();
    for sizes in GRIDS {
        let wanted = |o: &Operation| match &asked.only {
            _ if !is_timed(sizes, *o) => false,
            None => true,
            Some(text) => format!("{} {o}", report::grid(sizes)).contains(text),
        };
        let operations: Vec<_> = OPERATIONS.into_iter().filter(wanted).collect();
        if operations.is_empty() {
            continue;
        }
        let more = measure(sizes, &inputs, &operations, effort);
        print!("{}", report::tables(&more, &inputs));
        rows.extend(more);
    }
    let misses = report::misses(&rows, &inputs);
    misses.iter().for_each(|(_, line)| println!("{line}"));

    let Some(template) = asked.template else {
        return ExitCode::SUCCESS;
    };
    let template = fs::read_to_string(template).expect("the template");
    let whole = !asked.quick && asked.only.is_none() && cfg!(feature = "original");
    if let (true, Some(page)) = (whole, asked.page) {
        fs::write(page, page::filled(&template, &rows, &inputs)).expect("the page");
    }
    let mut status = ExitCode::SUCCESS;
    for (operation, line) in &misses {
        if !page::explains(&template, *operation) {
            eprintln!("the template gives no reason for a miss:\n{line}");
            status = ExitCode::FAILURE;
        }
    }
    status
}
