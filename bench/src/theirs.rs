//! The other side: the original's text, on histograms that stay from run to run.
use crate::{
    narrow::Wide,
    one_load::OneLoad,
    ours,
    plain::Plain,
    rescue::Rescue,
    side::{Answer, Beside, Lent, MOST, Operation, Side, Sizes, touch},
    terminal::Terminal,
    triples::Triples,
};
use oracle::{
    original::u8::{BinnerU8x3, WuU8x3, WuU8x3ColorMap, parts::Narrow},
    stand_ins::{
        num_traits::Zero,
        quantette::{IndexedColorMap, PaletteBuf, PaletteSize},
    },
};

/// Where the original makes its moments: over the histogram, as its own text does, or over a copy of it that is made in
/// the run, so that the histogram stays, as it does on our side.
#[derive(Clone, Copy, PartialEq, Eq)]
enum Moments {
    OnACopy,
    InPlace,
}

type Colours<const B1: usize, const B2: usize, const B3: usize> =
    (WuU8x3ColorMap<[u8; 3], B1, B2, B3>, PaletteBuf<u32>);

struct Theirs<const B1: usize, const B2: usize, const B3: usize> {
    moments: Moments,
    /// Its histogram is what loads, merges and moments write.
    run: WuU8x3<[u8; 3], B1, B2, B3>,
    /// What is cut: the frame's histogram.
    loaded: Narrow<B1, B2, B3>,
    /// What is merged into that: the histogram of the frame with weights.
    second: Narrow<B1, B2, B3>,
    /// The two as tables.
    plain: Plain,
    /// What a rescue, a replay and a PPM are held to: they have no counterpart here.
    rescue: Rescue,
    one_load: OneLoad,
    triples: Triples,
    terminal: Terminal,
    /// What a slow cut is held to: our own cut, with a work table.
    ours: ours::Cut,
    /// What a narrow call is held to beside the original's: our own wide one.
    wide: Wide,
    cut: Option<Colours<B1, B2, B3>>,
    /// What maps and paints read.
    kept: WuU8x3ColorMap<[u8; 3], B1, B2, B3>,
}

fn most(k: usize) -> PaletteSize {
    PaletteSize::new(k).expect("from 1 to 256")
}

fn run<const B1: usize, const B2: usize, const B3: usize>(
    frame: &[[u8; 3]],
) -> WuU8x3<[u8; 3], B1, B2, B3> {
    WuU8x3::run_slice(frame, BinnerU8x3::new()).expect("a frame")
}

/// The index of each pixel, into a lent buffer: `map_to_indices` without its new `Vec`.
fn map<const B1: usize, const B2: usize, const B3: usize>(
    map: &WuU8x3ColorMap<[u8; 3], B1, B2, B3>,
    lent: &mut Lent,
) {
    for (index, colour) in lent.indices.iter_mut().zip(&lent.frame) {
        *index = map.palette_index(colour);
    }
}

/// The five numbers of each bin.
fn numbers<const B1: usize, const B2: usize, const B3: usize>(
    histogram: &Narrow<B1, B2, B3>,
) -> Vec<u64> {
    let mut numbers = Vec::with_capacity(5 * B1 * B2 * B3);
    for bin in histogram.as_flattened() {
        let [c1, c2, c3] = bin.components.map(u64::from);
        numbers.extend([bin.count, c1, c2, c3, bin.sum_squared as u64]);
    }
    numbers
}

impl<const B1: usize, const B2: usize, const B3: usize> Theirs<B1, B2, B3> {
    fn new(moments: Moments, lent: &Lent) -> Self {
        let run = run(&lent.frame);
        let (mut loaded, mut second) = (Narrow::new(), Narrow::new());
        loaded.load(&lent.frame);
        second.load_weighted(&lent.frame, &lent.weights);
        let kept = run.color_map(most(MOST));
        let plain = Plain::new([B1, B2, B3], numbers(&loaded), numbers(&second));
        let rescue = Rescue::new([B1, B2, B3], numbers(&loaded));
        Self {
            moments,
            run,
            loaded,
            second,
            plain,
            rescue,
            one_load: OneLoad::new([B1, B2, B3], &lent.weights),
            triples: Triples::new([B1, B2, B3], &lent.frame),
            terminal: Terminal::new(&lent.frame),
            ours: ours::Cut::new([B1, B2, B3]),
            wide: Wide::new([B1, B2, B3], lent),
            cut: None,
            kept,
        }
    }

    fn clear(&mut self) {
        self.run.narrow().as_flattened_mut().fill(Zero::zero());
    }

    /// Makes the histogram that of the frame.
    fn load_again(&mut self) {
        let table = self.run.narrow().as_flattened_mut();
        table.copy_from_slice(self.loaded.as_flattened());
    }

    fn make_moments(&mut self) {
        if self.moments == Moments::OnACopy {
            self.load_again();
        }
        self.run.narrow().calc_cumulative_moments();
    }
}

impl<const B1: usize, const B2: usize, const B3: usize> Side for Theirs<B1, B2, B3> {
    fn prepare(&mut self, operation: Operation) {
        self.cut = None;
        match operation {
            Operation::Load | Operation::LoadWeighted => self.clear(),
            Operation::Merge => {
                touch(self.second.as_flattened());
                self.load_again();
            }
            Operation::Compare => self.plain.prepare(),
            Operation::Rescue { .. } => self.rescue.prepare_held(),
            Operation::CutSlowly(_) => {
                self.ours.reset();
                touch(self.plain.first());
            }
            Operation::Narrow(call, Beside::Original) => self.prepare(call.wide()),
            Operation::Narrow(call, Beside::Wide) => self.wide.prepare(call),
            Operation::Replay => self.one_load.prepare(),
            Operation::LoadPpm => self.triples.prepare(),
            Operation::Moments | Operation::Cut(_) if self.moments == Moments::OnACopy => {
                self.clear();
                touch(self.loaded.as_flattened());
            }
            Operation::Moments | Operation::Cut(_) => self.load_again(),
            Operation::Map | Operation::Paint => touch(self.kept.map()),
            Operation::Nearest => self.terminal.prepare(),
            Operation::Whole { .. } => {}
        }
    }

    fn run(&mut self, operation: Operation, lent: &mut Lent) {
        match operation {
            Operation::Load => self.run.narrow().load(&lent.frame),
            Operation::LoadWeighted => {
                self.run.narrow().load_weighted(&lent.frame, &lent.weights);
            }
            Operation::Merge => self.run.narrow().merge(&self.second),
            Operation::Compare => self.plain.run(),
            Operation::Rescue { damaged } => self.rescue.run_held(damaged),
            Operation::CutSlowly(k) => self.ours.run([B1, B2, B3], k, self.plain.first()),
            Operation::Narrow(call, Beside::Original) => self.run(call.wide(), lent),
            Operation::Narrow(call, Beside::Wide) => self.wide.run(call, lent),
            Operation::Replay => self.one_load.run(lent),
            Operation::LoadPpm => self.triples.run(),
            Operation::Moments => self.make_moments(),
            Operation::Cut(k) => {
                self.make_moments();
                self.cut = Some(self.run.color_map_and_counts(most(k)));
            }
            Operation::Map => map(&self.kept, lent),
            Operation::Paint => self.kept.map_slice_in_place(&mut lent.painted),
            Operation::Nearest => self.terminal.by_loop(),
            Operation::Whole { .. } => {
                let run = run::<B1, B2, B3>(&lent.frame);
                let (colours, counts) = run.color_map_and_counts(most(MOST));
                map(&colours, lent);
                self.cut = Some((colours, counts));
            }
        }
    }

    fn answer(&mut self, operation: Operation, answer: &mut Answer) {
        match operation {
            Operation::Load | Operation::LoadWeighted | Operation::Merge | Operation::Moments => {
                answer.numbers.extend(numbers(self.run.narrow()));
            }
            Operation::Compare => self.plain.answer(answer),
            Operation::Rescue { damaged } => self.rescue.answer_held(damaged, answer),
            Operation::CutSlowly(_) => self.ours.answer(answer),
            Operation::Narrow(call, Beside::Original) => self.answer(call.wide(), answer),
            Operation::Narrow(call, Beside::Wide) => self.wide.answer(call, answer),
            Operation::Replay => self.one_load.answer(answer),
            Operation::LoadPpm => self.triples.answer(answer),
            Operation::Cut(_) | Operation::Whole { .. } => {
                let (colours, counts) = self.cut.as_ref().expect("a cut");
                answer.numbers.extend(counts.iter().map(|&n| u64::from(n)));
                answer.bytes.extend(colours.palette().as_flattened());
                answer.bytes.extend(colours.map());
            }
            Operation::Nearest => self.terminal.answer(answer),
            Operation::Map | Operation::Paint => {}
        }
    }
}

fn both<const B1: usize, const B2: usize, const B3: usize>(lent: &Lent) -> [Box<dyn Side>; 2] {
    [Moments::OnACopy, Moments::InPlace]
        .map(|moments| Box::new(Theirs::<B1, B2, B3>::new(moments, lent)) as Box<dyn Side>)
}

/// The original at a grid: with its moments on a copy, and in place.
pub fn at(sizes: Sizes, lent: &Lent) -> [Box<dyn Side>; 2] {
    match sizes {
        [8, 8, 8] => both::<8, 8, 8>(lent),
        [16, 32, 16] => both::<16, 32, 16>(lent),
        [32, 32, 32] => both::<32, 32, 32>(lent),
        [64, 64, 64] => both::<64, 64, 64>(lent),
        [128, 128, 128] => both::<128, 128, 128>(lent),
        _ => panic!("the original is not compiled for this grid"),
    }
}
