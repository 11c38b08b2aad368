//! The cases: those of Rules, Cases, one for each mutant, each size in each dimension, and a sample of the
//! runner's classes.
use oracle::{
    case,
    classes::{CLASSES, Cases, Grids, Maker},
    numbers::{bins, place},
    random::Random,
};

/// One load of some of a case's colours, into the table or into a second one that is merged into it.
pub struct Load {
    pub from: usize,
    pub end: usize,
    pub weighted: bool,
    pub merged: bool,
}

pub struct Case {
    pub of: String,
    pub grid: [usize; 3],
    pub k: usize,
    pub colors: Vec<[u8; 3]>,
    pub weights: Vec<u32>,
    pub loads: Vec<Load>,
}

impl Case {
    /// The same with a load up to each of these ends.
    fn in_loads(mut self, ends: &[usize], merged: bool) -> Self {
        let mut from = 0;
        self.loads.clear();
        for &end in ends {
            self.loads.push(Load {
                from,
                end,
                weighted: true,
                merged,
            });
            from = end;
        }
        self
    }
}

/// A whole input, loaded at once with its weights.
fn whole(of: &str, grid: [usize; 3], k: usize, input: &[([u8; 3], u32)]) -> Case {
    let case = Case {
        of: of.into(),
        grid,
        k,
        colors: input.iter().map(|i| i.0).collect(),
        weights: input.iter().map(|i| i.1).collect(),
        loads: Vec::new(),
    };
    case.in_loads(&[input.len()], false)
}

const BLACK: [u8; 3] = [0; 3];
const WHITE: [u8; 3] = [255; 3];
const CUBE: [usize; 3] = [2, 2, 2];

/// P1 to P10.
fn worked() -> Vec<Case> {
    let two = [(BLACK, 1), (WHITE, 3)];
    let reds = [(BLACK, 1), ([64, 0, 0], 1), ([255, 0, 0], 1)];
    let full = [(WHITE, u32::MAX), (WHITE, 1)];
    let one = [(BLACK, 1)];
    vec![
        whole("worked: P1", CUBE, 2, &two),
        whole("worked: P2", CUBE, 3, &two),
        whole("worked: P3", CUBE, 4, &[([10, 20, 30], 1)]),
        whole("worked: P4", CUBE, 256, &[([1, 0, 0], 1), ([2, 0, 0], 1)]),
        whole("worked: P5", CUBE, 2, &[(BLACK, 1), ([0, 128, 128], 1)]),
        whole("worked: P6", [4; 3], 2, &[(BLACK, 1), ([192, 0, 0], 1)]),
        whole("worked: P7", [4, 2, 2], 2, &reds),
        whole("worked: P8", [4, 2, 2], 3, &reds),
        whole("worked: P9", CUBE, 2, &full).in_loads(&[1, 2], false),
        whole("worked: P9 by merging", CUBE, 2, &full).in_loads(&[1, 2], true),
        whole("worked: P10, total 0", CUBE, 2, &[]),
        whole(
            "worked: P10, total 0 by a weight of 0",
            CUBE,
            2,
            &[(BLACK, 0)],
        ),
        whole("worked: P10, k = 0", CUBE, 0, &one),
        whole("worked: P10, k = 257", CUBE, 257, &one),
        whole("worked: P10, size 1 of red", [1, 2, 2], 2, &one),
        whole("worked: P10, size 1 of green", [2, 1, 2], 2, &one),
        whole("worked: P10, size 1 of blue", [2, 2, 1], 2, &one),
    ]
}

/// A small case for each mutant that no worked one shows.
fn mutants() -> Vec<Case> {
    let corners = [BLACK, [0, 0, 255], [0, 255, 0], [0, 255, 255]].map(|c| (c, 1));
    let near = [(BLACK, 1), ([255, 127, 0], 1), ([255, 128, 0], 1)];
    let crowded = [
        (BLACK, 100),
        ([127; 3], 100),
        ([128, 0, 0], 1),
        ([128, 128, 0], 1),
    ];
    let negative = [(BLACK, 1), (WHITE, 214_881)];
    let positive = [(BLACK, 1), ([255, 254, 254], 215_443)];
    let wide = [(BLACK, 1), (WHITE, 16_843_010)];
    let late = [(BLACK, u32::MAX - 1), ([64; 3], 1), (WHITE, 1)];
    let one_bin = [BLACK, [100, 0, 0], [0, 0, 128], [0, 128, 0], [128, 0, 0]].map(|c| (c, 1));
    vec![
        whole("mutant: a tie to the left child", CUBE, 5, &corners),
        whole(
            "mutant: an early stop, at a spread of one half",
            CUBE,
            3,
            &near,
        ),
        whole(
            "mutant: one box cannot be cut, another can",
            CUBE,
            4,
            &crowded,
        ),
        whole(
            "mutant: a negative spread clamped or exact",
            CUBE,
            3,
            &negative,
        ),
        whole("mutant: a falsely positive spread", CUBE, 3, &positive),
        whole("mutant: sums of 32 bits", CUBE, 2, &wide),
        whole(
            "mutant: a box of one bin with two colours",
            CUBE,
            4,
            &one_bin,
        ),
        whole("mutant: half a batch", CUBE, 4, &late).in_loads(&[1, 3], false),
        whole("mutant: half a merge", CUBE, 4, &late).in_loads(&[1, 3], true),
    ]
}

/// Each of the seven sizes in each dimension, at grids of 32,768 bins.
fn sizes(r: &mut Random) -> Vec<Case> {
    let mut cases = Vec::new();
    for power in 1..=7 {
        for d in 0..3 {
            let others = 15 - power;
            let mut grid = [1 << power; 3];
            grid[(d + 1) % 3] = 1 << (others / 2);
            grid[(d + 2) % 3] = 1 << (others - others / 2);
            let input: Vec<_> = (0..10).map(|_| (r.color(), r.from(1, 9) as u32)).collect();
            cases.push(whole("sizes", grid, r.from(2, 12), &input));
        }
    }
    cases
}

/// As many boxes as there can be: 300 occupied bins of the grid 8, 8, 8 and k = 256.
fn filled(r: &mut Random) -> Case {
    let mut input = Vec::new();
    let mut occupied = [false; 512];
    while input.len() < 300 {
        let color = r.color();
        let bin = &mut occupied[place([8; 3], color)];
        if !*bin {
            *bin = true;
            input.push((color, r.one_of(&[1, 1, 1, 2, 3, 7, 50, 400])));
        }
    }
    whole("filled: 300 occupied bins, 256 boxes", [8; 3], 256, &input)
}

/// A sample of a class of the runner.
struct Sample {
    class: &'static str,
    cases: usize,
    /// Only cases with so few colours.
    most_colours: usize,
    /// How many cases of a list belong together.
    run: usize,
}

const fn sample(class: &'static str, cases: usize, most_colours: usize, run: usize) -> Sample {
    Sample {
        class,
        cases,
        most_colours,
        run,
    }
}

const SAMPLES: [Sample; 12] = [
    sample("tiny", 110, 6, 1),
    sample("few", 50, 5, 1),
    sample("equal", 40, 16, 1),
    sample("many", 4, 400, 1),
    sample("grids", 60, 14, 1),
    sample("totals", 60, 12, 1),
    sample("single", 60, 6, 1),
    sample("crowded", 40, 12, 1),
    sample("close", 40, 6, 1),
    sample("width", 32, 12, 2),
    sample("known", 30, 2, 3),
    sample("corners", 45, 3, 9),
];

/// The most bins for which `replay` has the room.
const MOST_BINS: usize = 32_768;

impl Sample {
    /// Of a random class the first cases that fit, of a listed one cases from all over its list.
    fn made(&self, seed: u64) -> Vec<case::Case> {
        let class = CLASSES
            .iter()
            .find(|c| c.name == self.class)
            .expect("a class");
        let grids = Grids::all();
        let mut maker = Maker {
            grids: &grids,
            r: Random(seed ^ Random(class.name.bytes().map(u64::from).sum()).draw()),
        };
        let fits =
            |c: &case::Case| bins(c.grid) <= MOST_BINS && c.input.colors.len() <= self.most_colours;
        match class.cases {
            Cases::Random(make) => {
                let all = (0..).map(|i| make(&mut maker, i));
                all.filter(fits).take(self.cases).collect()
            }
            Cases::Listed(list) | Cases::OnlyNamed(list) => {
                let all: Vec<_> = list(&mut maker).into_iter().filter(fits).collect();
                let runs: Vec<_> = all.chunks(self.run).collect();
                let taken = self.cases / self.run;
                (0..taken)
                    .flat_map(|i| runs[i * runs.len() / taken].to_vec())
                    .collect()
            }
        }
    }
}

/// A case of the runner, loaded at once or in batches of which some are merged. Where the weights of a batch are all 1 it
/// is at times loaded without weights; those that are lent with it are then 0, and nothing looks at them.
fn loaded_at_random(of: &str, made: &case::Case, r: &mut Random) -> Case {
    let colors = made.input.colors.iter().copied();
    let pairs: Vec<_> = colors.zip(made.input.weights.iter().copied()).collect();
    let batches = if r.once_in(2) { 1 } else { r.from(2, 4) };
    let mut ends: Vec<usize> = (1..batches).map(|_| r.from(0, pairs.len())).collect();
    ends.sort_unstable();
    ends.push(pairs.len());
    let mut case = whole(of, made.grid, made.k, &pairs).in_loads(&ends, false);
    for load in &mut case.loads {
        let lent = &mut case.weights[load.from..load.end];
        load.merged = batches > 1 && r.once_in(3);
        if lent.iter().all(|w| *w == 1) && r.once_in(2) {
            load.weighted = false;
            lent.fill(0);
        }
    }
    case
}

pub fn all(seed: u64) -> Vec<Case> {
    let mut r = Random(seed);
    let mut cases = worked();
    cases.extend(mutants());
    cases.extend(sizes(&mut r));
    for sample in SAMPLES {
        for made in sample.made(seed) {
            cases.push(loaded_at_random(sample.class, &made, &mut r));
        }
    }
    cases.push(filled(&mut Random(seed)));
    cases
}
