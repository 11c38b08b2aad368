//! Runs the cases of the classes, or those of a file, on a port.
use crate::{
    buffer::Differs,
    case::Case,
    classes::{CLASSES, Cases, Class, Grids, Maker},
    compare::check,
    port::{Grid, Port},
    random::Random,
    shrink::shrink,
    tally::{CALLS, Tally},
};
use std::{collections::HashSet, env, fs, panic, process::ExitCode, time::Instant};

/// A case that differs, and what of it does.
pub struct Found {
    pub case: Case,
    pub differs: Differs,
}

impl Found {
    /// The smallest case found from this one in which the same thing differs.
    pub fn shrunk(&self, port: &dyn Port) -> Self {
        let again = |case: &Case| check(port, case, &mut Tally::default());
        let what = self.differs.split(':').next();
        let differs = |case: &Case| again(case).is_err_and(|d| d.split(':').next() == what);
        let case = shrink(&self.case, &differs);
        let differs = again(&case).expect_err("a difference");
        Self { case, differs }
    }
}

/// What a run of one class has seen.
pub struct Ran {
    pub tally: Tally,
    pub grids: HashSet<Grid>,
    pub differ: usize,
    pub first: Option<Found>,
}

/// Runs the cases of a class; after `most` that differ no further.
pub fn run(port: &dyn Port, class: &Class, cases: usize, seed: u64, most: usize) -> Ran {
    let grids = Grids::of_judge();
    let mut maker = Maker {
        grids: &grids,
        r: Random(seed ^ Random(class.name.bytes().map(u64::from).sum()).draw()),
    };
    let mut ran = Ran {
        tally: Tally::default(),
        grids: HashSet::new(),
        differ: 0,
        first: None,
    };
    let made: Box<dyn Iterator<Item = Case>> = match class.cases {
        Cases::Random(make) => Box::new((0..cases).map(move |i| make(&mut maker, i))),
        Cases::Listed(list) | Cases::OnlyNamed(list) => Box::new(list(&mut maker).into_iter()),
    };
    for case in made {
        ran.grids.insert(case.grid);
        if let Err(differs) = check(port, &case, &mut ran.tally) {
            ran.differ += 1;
            ran.first.get_or_insert(Found { case, differs });
            if ran.differ == most {
                break;
            }
        }
    }
    ran
}

/// The cases of a text, a line each; lines that start with # are no cases.
fn replay(port: &dyn Port, text: &str) -> usize {
    let mut differ = 0;
    for line in text.lines() {
        if line.trim().is_empty() || line.starts_with('#') {
            continue;
        }
        let case = Case::of_line(line).unwrap_or_else(|| panic!("no case: {line}"));
        match check(port, &case, &mut Tally::default()) {
            Ok(()) => println!("agrees: {case}"),
            Err(differs) => {
                println!("differs: {case}\n  {differs}");
                differ += 1;
            }
        }
    }
    differ
}

fn report(name: &str, ran: &Ran, seconds: f64) {
    let t = &ran.tally;
    println!(
        "{name}: {} cases at {} grids, {} differ, {seconds:.1} s",
        t.cases,
        ran.grids.len(),
        ran.differ
    );
    if t.boxes > 0 {
        println!(
            "    {} boxes; {} also slowly, {} also narrow, {} by pixels, {} by batches, {} with 64-bit sums, {} with a negative \
             spread, {} with a box put back ({} of them falsely positive), {} of total 0, {} too heavy",
            t.boxes,
            t.slowly,
            t.narrow,
            t.by_pixels,
            t.by_batches,
            t.wide,
            t.negative,
            t.put_back,
            t.falsely_positive,
            t.of_total_0,
            t.too_heavy
        );
    }
    for (call, numbers) in CALLS.iter().zip(t.numbers) {
        let answered: Vec<String> = (0..numbers.len())
            .filter(|&n| numbers[n] > 0)
            .map(|n| format!("{n} {} times", numbers[n]))
            .collect();
        if !answered.is_empty() {
            println!("    {call} answered {}", answered.join(", "));
        }
    }
}

/// What stands after a word of the arguments.
fn after(word: &str) -> Option<String> {
    env::args().skip_while(|w| w != word).nth(1)
}

fn number(word: &str, usual: u64) -> u64 {
    after(word).map_or(usual, |n| {
        n.parse().unwrap_or_else(|_| panic!("{word} {n}"))
    })
}

/// The text of a file, or of standard input.
fn text(file: &str) -> String {
    let read = match file {
        "-" => std::io::read_to_string(std::io::stdin()),
        _ => fs::read_to_string(file),
    };
    read.unwrap_or_else(|e| panic!("{file}: {e}"))
}

/// Runs a class, prints what was seen, and shrinks the first case that differs.
fn run_and_tell(port: &dyn Port, class: &Class, cases: usize, seed: u64, most: usize) -> Ran {
    let start = Instant::now();
    let ran = run(port, class, cases, seed, most);
    report(class.name, &ran, start.elapsed().as_secs_f64());
    if let Some(found) = &ran.first {
        println!("A CASE DIFFERS\n{}\n  {}", found.case, found.differs);
        let small = found.shrunk(port);
        println!("SHRUNK\n{}\n  {}", small.case, small.differs);
    }
    ran
}

/// Does what the arguments say with a port.
pub fn main(port: &dyn Port) -> ExitCode {
    if let Some(file) = after("--replay") {
        return ended(replay(port, &text(&file)));
    }
    let (cases, seed) = (number("--cases", 1000) as usize, number("--seed", 1));
    // With --first, the first case that differs ends the run.
    let most = match env::args().any(|w| w == "--first") {
        true => 1,
        false => usize::MAX,
    };
    let named = after("--class");
    let chosen = |class: &&Class| match &named {
        Some(name) => name == class.name,
        None => !matches!(class.cases, Cases::OnlyNamed(_)),
    };
    // A panic is told as a difference.
    panic::set_hook(Box::new(|_| {}));
    let mut grids: HashSet<Grid> = HashSet::new();
    let (mut all, mut differ) = (0, 0);
    for class in CLASSES.iter().filter(chosen) {
        let ran = run_and_tell(port, class, cases, seed, most);
        grids.extend(&ran.grids);
        all += ran.tally.cases;
        differ += ran.differ;
        if differ >= most {
            break;
        }
    }
    let grids = grids.len();
    println!("seed {seed}: {all} cases at {grids} grids, {differ} differ");
    ended(differ + usize::from(all == 0))
}

fn ended(differ: usize) -> ExitCode {
    match differ {
        0 => ExitCode::SUCCESS,
        _ => ExitCode::FAILURE,
    }
}
