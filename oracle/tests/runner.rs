//! The runner itself: the rules in plain Rust agree with the original, a line says a whole case, and a port
//! with a fault is found out and its case made small.
use oracle::{
    answer::{Input, original},
    case::{Case, Kind},
    classes::{CLASSES, Cases, Grids, Maker},
    compare::check,
    model::Model,
    port::{Band, CutAnswer, Grid, Lent, Narrow, NarrowMut, Port, Recorded},
    random::Random,
    runner::run,
    tally::Tally,
};

#[test]
fn the_rules_agree_with_the_original() {
    for class in &CLASSES {
        if !matches!(class.cases, Cases::OnlyNamed(_)) {
            let ran = run(&Model, class, 500, 7, 1);
            let first = ran.first.map(|f| format!("{}\n{}", f.case, f.differs));
            assert_eq!(first, None, "{}", class.name);
        }
    }
}

#[test]
fn a_line_says_a_whole_case() {
    let grids = Grids::of_judge();
    let mut maker = Maker {
        grids: &grids,
        r: Random(3),
    };
    for class in &CLASSES {
        if let Cases::Random(make) = class.cases {
            for i in 0..200 {
                let case = make(&mut maker, i);
                assert_eq!(Case::of_line(&case.to_string()), Some(case));
            }
        }
    }
}

/// A port that counts one too many in its second box, where k is 3 or more, and paints one byte past a long band.
struct Faulty;

impl Port for Faulty {
    fn sizes(&self, grid: Grid) -> (usize, usize) {
        Model.sizes(grid)
    }

    fn load(
        &self,
        grid: Grid,
        table: &mut [u64],
        colours: &[u8],
        given: bool,
        weights: &[u32],
    ) -> u8 {
        Model.load(grid, table, colours, given, weights)
    }

    fn ppm_header(&self, file: &[u8]) -> (u8, [usize; 3]) {
        Model.ppm_header(file)
    }

    fn load_ppm(&self, grid: Grid, table: &mut [u64], file: &[u8]) -> u8 {
        Model.load_ppm(grid, table, file)
    }

    fn merge(&self, grid: Grid, table: &mut [u64], second: &[u64]) -> u8 {
        Model.merge(grid, table, second)
    }

    fn compare(
        &self,
        grid: Grid,
        first: &[u64],
        second: &[u64],
        differences: &mut [i64],
    ) -> (u8, usize, usize) {
        Model.compare(grid, first, second, differences)
    }

    fn rescue(&self, grid: Grid, table: &mut [u64], reasons: &mut [u8]) -> u8 {
        Model.rescue(grid, table, reasons)
    }

    fn begin(&self, interval: u32) -> (u8, u32) {
        Model.begin(interval)
    }

    fn reload(&self, in_force: u32, interval: u32) -> (u8, u32) {
        Model.reload(in_force, interval)
    }

    fn batch(
        &self,
        intervals: [u32; 2],
        grid: Grid,
        table: &mut [u64],
        colours: &[u8],
        weighted: bool,
        weights: &[u32],
    ) -> u8 {
        Model.batch(intervals, grid, table, colours, weighted, weights)
    }

    fn replay(
        &self,
        first: u32,
        grid: Grid,
        table: &mut [u64],
        recorded: Recorded<'_>,
        answers: &mut [u8],
    ) -> (u8, u32) {
        Model.replay(first, grid, table, recorded, answers)
    }

    fn cut(
        &self,
        grid: Grid,
        k: usize,
        table: &[u64],
        work: &mut [u64],
        lent: Lent<'_>,
    ) -> CutAnswer {
        let Lent {
            palette,
            counts,
            remainders,
            map,
            boxes,
            spreads,
        } = lent;
        let again = Lent {
            palette,
            counts: &mut *counts,
            remainders,
            map,
            boxes,
            spreads,
        };
        let answer = Model.cut(grid, k, table, work, again);
        if k >= 3 && answer.boxes >= 2 {
            counts[1] += 1;
        }
        answer
    }

    fn cut_slowly(&self, grid: Grid, k: usize, table: &[u64], lent: Lent<'_>) -> CutAnswer {
        Model.cut_slowly(grid, k, table, lent)
    }

    fn narrow_load(
        &self,
        grid: Grid,
        table: NarrowMut<'_>,
        colours: &[u8],
        weighted: bool,
        weights: &[u32],
    ) -> u8 {
        Model.narrow_load(grid, table, colours, weighted, weights)
    }

    fn narrow_merge(&self, grid: Grid, table: NarrowMut<'_>, second: Narrow<'_>) -> u8 {
        Model.narrow_merge(grid, table, second)
    }

    fn narrow_cut(
        &self,
        grid: Grid,
        k: usize,
        table: Narrow<'_>,
        work: NarrowMut<'_>,
        lent: Lent<'_>,
    ) -> CutAnswer {
        Model.narrow_cut(grid, k, table, work, lent)
    }

    fn narrow_cut_slowly(
        &self,
        grid: Grid,
        k: usize,
        table: Narrow<'_>,
        lent: Lent<'_>,
    ) -> CutAnswer {
        Model.narrow_cut_slowly(grid, k, table, lent)
    }

    fn widen(&self, grid: Grid, table: Narrow<'_>, wide: &mut [u64]) -> u8 {
        Model.widen(grid, table, wide)
    }

    fn map(
        &self,
        grid: Grid,
        map: &[u8],
        colours: usize,
        frame: &[u8],
        indices: &mut [u8],
        band: Band,
    ) -> u8 {
        Model.map(grid, map, colours, frame, indices, band)
    }

    fn paint(&self, grid: Grid, map: &[u8], palette: &[u8], frame: &mut [u8], band: Band) -> u8 {
        let number = Model.paint(grid, map, palette, frame, band);
        let end = 3 * (band.first + band.pixels);
        if number == 0 && band.pixels >= 5 && end < frame.len() {
            frame[end] ^= 1;
        }
        number
    }

    fn nearest(&self, palette: &[u8], answers: &mut [u8]) -> u8 {
        Model.nearest(palette, answers)
    }
}

#[test]
fn a_fault_is_found_and_made_small() {
    let class = |name| CLASSES.iter().find(|c| c.name == name).expect("a class");
    let found = run(&Faulty, class("k"), 500, 1, 1).first.expect("a fault");
    let small = found.shrunk(&Faulty);
    assert!(
        small.differs.starts_with("counts: place 1 "),
        "{}",
        small.differs
    );
    assert_eq!((small.case.grid, small.case.k), ([2, 2, 2], 3));
    assert_eq!(small.case.input.weights, [1, 1]);
    assert!(small.case.frame.is_empty());

    let found = run(&Faulty, class("calls"), 2000, 1, usize::MAX);
    let first = found.first.expect("a fault");
    let small = first.shrunk(&Faulty);
    assert!(check(&Model, &small.case, &mut Tally::default()).is_ok());
    assert!(check(&Faulty, &small.case, &mut Tally::default()).is_err());
}

#[test]
fn a_grid_without_an_answer_is_no_agreement() {
    let case = Case {
        kind: Kind::Whole {
            by_pixels: false,
            batches: 0,
        },
        grid: [2, 2, 3],
        k: 1,
        input: Input {
            colors: vec![[0; 3]],
            weights: vec![1],
        },
        frame: Vec::new(),
        band: Band::default(),
        spare: [0; 4],
        seed: 0,
    };
    assert!(original(case.grid).is_none());
    assert!(check(&Model, &case, &mut Tally::default()).is_err());
}
