//! Makes the cases of each class.
mod damages;
mod laws;
mod palettes;
pub mod ppm;
mod recordings;

use crate::{
    answer::{Input, grids},
    case::{Case, Kind, LIGHT},
    numbers::bins,
    port::{Band, Grid},
    random::Random,
};

pub struct Class {
    pub name: &'static str,
    pub cases: Cases,
}

pub enum Cases {
    /// As many as are asked for; the number of the case is given.
    Random(fn(&mut Maker<'_>, usize) -> Case),
    /// A list of inputs that the seed changes little or not at all.
    Listed(fn(&mut Maker<'_>) -> Vec<Case>),
    /// A list that is run only where the class is named.
    OnlyNamed(fn(&mut Maker<'_>) -> Vec<Case>),
}

const fn class(name: &'static str, cases: Cases) -> Class {
    Class { name, cases }
}

/// The classes; README.md says what their cases are.
pub const CLASSES: [Class; 29] = [
    class("tiny", Cases::Random(tiny)),
    class("few", Cases::Random(few)),
    class("equal", Cases::Random(equal)),
    class("many", Cases::Random(many)),
    class("long", Cases::Random(long)),
    class("grids", Cases::Random(each_grid)),
    class("k", Cases::Random(each_k)),
    class("totals", Cases::Random(totals)),
    class("single", Cases::Random(single)),
    class("crowded", Cases::Random(crowded)),
    class("close", Cases::Random(close)),
    class("mosaics", Cases::Random(mosaics)),
    class("batches", Cases::Random(in_batches)),
    class("calls", Cases::Random(sound_calls)),
    class("damaged", Cases::Random(damaged)),
    class("narrow", Cases::Random(narrow)),
    class("nights", Cases::Random(nights)),
    class("rescues", Cases::Random(rescues)),
    class("recordings", Cases::Random(recordings::one)),
    class("ppm", Cases::Random(ppm::one)),
    class("trees", Cases::Random(laws::trees)),
    class("doubled", Cases::Random(laws::doubled)),
    class("palettes", Cases::Random(palettes::one)),
    class("levels", Cases::Listed(palettes::levels)),
    class("width", Cases::Listed(width)),
    class("known", Cases::Listed(known)),
    class("corners", Cases::Listed(corners)),
    class("pixels", Cases::OnlyNamed(pixels)),
    class("every-colour", Cases::OnlyNamed(palettes::every_colour)),
];

/// Totals about which cases stand: where the sign of a spread may go wrong, where the original's sums change their
/// width, and the largest.
const TOTALS: [u32; 7] = [
    200_000,
    214_872,
    214_882,
    215_444,
    16_843_008,
    16_843_009,
    4_294_967_295,
];

/// Up to which total a case is also run pixel by pixel: always, and one time in 64.
const FEW_PIXELS: u64 = 2_000;
const MORE_PIXELS: u64 = 300_000;

/// The grids of the judge, by size.
pub struct Grids {
    pub all: Vec<Grid>,
    pub light: Vec<Grid>,
    small: Vec<Grid>,
    large: Vec<Grid>,
}

impl Grids {
    pub fn of_judge() -> Self {
        Self::of(grids(usize::MAX))
    }

    /// Those of all sizes, whether the judge is built with them or not.
    pub fn all() -> Self {
        let sizes = |i: usize| 2 << i;
        Self::of(
            (0..343)
                .map(|i| [i / 49, i / 7 % 7, i % 7].map(sizes))
                .collect(),
        )
    }

    fn of(all: Vec<Grid>) -> Self {
        let chosen = |f: fn(&Grid) -> bool| all.iter().copied().filter(f).collect();
        Self {
            light: chosen(|g| bins(*g) <= LIGHT),
            small: chosen(|g| g.iter().all(|b| *b <= 8)),
            large: chosen(|g| (256..=8192).contains(&bins(*g))),
            all,
        }
    }
}

/// What the cases are made of.
pub struct Maker<'a> {
    pub grids: &'a Grids,
    pub r: Random,
}

impl Maker<'_> {
    /// Mostly a light grid, one time in 64 any.
    fn grid(&mut self) -> Grid {
        if self.r.once_in(64) {
            self.r.one_of(&self.grids.all)
        } else {
            self.r.one_of(&self.grids.light)
        }
    }

    fn k(&mut self) -> usize {
        match self.r.from(0, 3) {
            0 => self.r.one_of(&[1, 2, 3, 255, 256]),
            1 => self.r.from(1, 256),
            _ => self.r.from(2, 12),
        }
    }

    /// A frame of colours of the input and others, at times in long runs.
    fn frame(&mut self, input: &Input) -> Vec<([u8; 3], usize)> {
        let r = &mut self.r;
        let (runs, most) = match r.from(0, 7) {
            0 => (r.from(1, 6), 200),
            1 => (r.from(1, 3), 70),
            2 => (0, 1),
            _ => (r.from(1, 12), 2),
        };
        let mut frame = Vec::with_capacity(runs);
        for _ in 0..runs {
            let color = if input.colors.is_empty() || r.once_in(3) {
                r.color()
            } else {
                r.one_of(&input.colors)
            };
            frame.push((color, r.from(1, most)));
        }
        frame
    }

    /// A band inside a frame of so many pixels, the whole frame at times.
    fn band(&mut self, pixels: usize) -> Band {
        if self.r.once_in(4) {
            return Band { first: 0, pixels };
        }
        let first = self.r.from(0, pixels);
        Band {
            first,
            pixels: self.r.from(0, pixels - first),
        }
    }

    fn case(&mut self, grid: Grid, k: usize, input: Input, kind: Kind) -> Case {
        let frame = self.frame(&input);
        let band = self.band(frame.iter().map(|f| f.1).sum());
        let spare = [(); 4].map(|()| {
            if self.r.once_in(2) {
                0
            } else {
                self.r.from(0, 9)
            }
        });
        Case {
            kind,
            grid,
            k,
            input,
            frame,
            band,
            spare,
            seed: self.r.draw(),
        }
    }

    /// A whole input; at times in batches too, and pixel by pixel where these are few.
    fn whole(&mut self, grid: Grid, k: usize, input: Input) -> Case {
        let batches = if self.r.once_in(8) {
            self.r.from(1, 5)
        } else {
            0
        };
        let most = if self.r.once_in(64) {
            MORE_PIXELS
        } else {
            FEW_PIXELS
        };
        let by_pixels = (1..=most).contains(&input.total());
        self.case(grid, k, input, Kind::Whole { by_pixels, batches })
    }

    /// Colours and weights, each by a rule.
    fn input(
        &mut self,
        colours: usize,
        color: impl Fn(&mut Random) -> [u8; 3],
        weight: impl Fn(&mut Random) -> u32,
    ) -> Input {
        let r = &mut self.r;
        Input {
            colors: (0..colours).map(|_| color(r)).collect(),
            weights: (0..colours).map(|_| weight(r)).collect(),
        }
    }
}

fn tiny(m: &mut Maker<'_>, _: usize) -> Case {
    let n = m.r.from(1, 6);
    let input = m.input(n, Random::lattice_color, |r| r.from(1, 3) as u32);
    let (grid, k) = (m.r.one_of(&m.grids.small), m.k());
    m.whole(grid, k, input)
}

fn few(m: &mut Maker<'_>, _: usize) -> Case {
    let n = m.r.from(1, 5);
    let most = m.r.one_of(&[1, 3, 1000, 100_000_000]);
    let input = m.input(n, Random::color, |r| r.from(0, most) as u32);
    let (grid, k) = (m.grid(), m.k());
    m.whole(grid, k, input)
}

fn equal(m: &mut Maker<'_>, _: usize) -> Case {
    let n = m.r.from(2, 40);
    let w = m.r.one_of(&[1, 1, 2, 7, 1000, 100_003]);
    let color = m.r.one_of(&[Random::color, Random::lattice_color]);
    let input = m.input(n, color, |_| w);
    let (grid, k) = (m.grid(), m.k());
    m.whole(grid, k, input)
}

fn many(m: &mut Maker<'_>, _: usize) -> Case {
    let n = m.r.from(100, 600);
    let one = m.r.once_in(2);
    let weight = |r: &mut Random| r.one_of(&[1, 2, 3, 50, 4000, 1_000_000]);
    let input = m.input(n, Random::color, |r| if one { 1 } else { weight(r) });
    let any = m.k();
    let k = m.r.one_of(&[1, 2, 3, 16, 64, 128, 200, 254, 255, 256, any]);
    let grid = m.r.one_of(&m.grids.large);
    m.whole(grid, k, input)
}

fn long(m: &mut Maker<'_>, _: usize) -> Case {
    let n = m.r.from(4_000, 9_000);
    let most = m.r.one_of(&[1, 3, 400_000]);
    let color = m.r.one_of(&[Random::color, Random::lattice_color]);
    let mut input = m.input(n, color, |r| r.from(0, most) as u32);
    if m.r.once_in(4) {
        // The total is the largest, or passes it by one at some weight.
        let at = m.r.from(0, n - 1);
        input.weights[at] = 0;
        input.weights[at] = u32::MAX - input.total() as u32;
        let other = m.r.from(0, n - 1);
        input.weights[other] = input.weights[other].saturating_add(m.r.from(0, 1) as u32);
    }
    let (grid, k) = (m.grid(), m.k());
    m.whole(grid, k, input)
}

fn each_grid(m: &mut Maker<'_>, i: usize) -> Case {
    let n = m.r.from(1, 60);
    let weight = |r: &mut Random| r.one_of(&[0, 1, 1, 2, 9, 250, 65_536]);
    let input = m.input(n, Random::color, weight);
    let (all, light) = (&m.grids.all, &m.grids.light);
    let grid = match i % 4 {
        0 => all[i / 4 % all.len()],
        _ => light[i % light.len()],
    };
    let k = m.k();
    m.whole(grid, k, input)
}

fn each_k(m: &mut Maker<'_>, i: usize) -> Case {
    let n = m.r.from(1, 500);
    let input = m.input(n, Random::color, |r| r.one_of(&[1, 1, 1, 2, 40, 9000]));
    let grid = m.grid();
    m.whole(grid, 1 + i % 256, input)
}

fn totals(m: &mut Maker<'_>, _: usize) -> Case {
    let n = m.r.from(1, 24);
    let mut total = m.r.one_of(&TOTALS);
    if m.r.once_in(2) {
        total = total.saturating_add(4) - m.r.from(0, 8) as u32;
    }
    let corners = m.r.once_in(3);
    let mut input = m.input(n, Random::color, |_| 0);
    if corners {
        let corner = |c: u8| if c < 128 { 0 } else { 255 };
        input.colors.iter_mut().for_each(|c| *c = c.map(corner));
    }
    input.weights = m.r.weights(n, total);
    if total == u32::MAX && m.r.once_in(8) {
        let at = m.r.from(0, n - 1);
        input.weights[at] = input.weights[at].saturating_add(1);
    }
    let (grid, k) = (m.grid(), m.k());
    m.whole(grid, k, input)
}

fn single(m: &mut Maker<'_>, _: usize) -> Case {
    let n = m.r.from(2, 6);
    let most = m.r.one_of(&[4_294_967_295, 20_000_000]);
    let total = m.r.from(200_000, most) as u32;
    let mut input = m.input(n, Random::color, |_| 0);
    input.weights = m.r.weights(n, total);
    let (grid, k) = (m.r.one_of(&m.grids.small), m.r.from(2, 20));
    m.whole(grid, k, input)
}

fn crowded(m: &mut Maker<'_>, _: usize) -> Case {
    let near: Vec<_> = (0..m.r.from(1, 4)).map(|_| m.r.color()).collect();
    let color = |r: &mut Random| r.one_of(&near).map(|c| c ^ (r.draw() % 16) as u8);
    let n = m.r.from(2, 30);
    let input = m.input(n, color, |r| r.one_of(&[1, 1, 3, 100, 70_000]));
    let (grid, k) = (m.grid(), m.k());
    m.whole(grid, k, input)
}

fn close(m: &mut Maker<'_>, _: usize) -> Case {
    let base = m.r.lattice_color();
    let n = m.r.from(2, 6);
    let color = |r: &mut Random| base.map(|c| c.saturating_sub(r.from(0, 3) as u8));
    let mut input = m.input(n, color, |r| r.from(1, 3) as u32);
    let most = 4_294_967_295 - 3 * n;
    let least = m.r.one_of(&[most, 200_000]);
    input.weights[n - 1] = m.r.from(least, most) as u32;
    let (grid, k) = (m.grid(), m.r.from(2, 8));
    m.whole(grid, k, input)
}

/// Screens of colours one step apart on either side of the edges of bins, so that each box of two colours has a small
/// spread beside sums of squares that are as large as they can be.
fn mosaics(m: &mut Maker<'_>, _: usize) -> Case {
    let (grid, k) = (m.grid(), m.k());
    let screens = m.r.one_of(&[1, 1, 2, 8, 40]);
    let edge = |r: &mut Random, size: usize| 256 / size * r.from(1, size - 1);
    let corners: Vec<_> = (0..screens)
        .map(|_| grid.map(|size| edge(&mut m.r, size)))
        .collect();
    let color = |r: &mut Random| r.one_of(&corners).map(|c| (c - r.from(0, 1)) as u8);
    let n = m.r.from(2, 8 * screens);
    let total = u32::MAX - m.r.one_of(&[0, 1, 1000, 1_000_000_000]);
    let mut input = m.input(n, color, |r| r.from(0, 3) as u32);
    if m.r.once_in(2) {
        input.weights = m.r.weights(n, total);
    } else {
        // one colour has nearly all the weight
        input.weights[0] = 0;
        input.weights[0] = total - input.total() as u32;
    }
    m.whole(grid, k, input)
}

fn in_batches(m: &mut Maker<'_>, _: usize) -> Case {
    let n = m.r.from(0, 60);
    let color = m.r.one_of(&[Random::color, Random::lattice_color]);
    let most = m.r.one_of(&[1, 5, 300, 70_000_000]);
    let input = m.input(n, color, |r| r.from(0, most) as u32);
    let (grid, k) = (m.grid(), m.k());
    let heavy = bins(grid) > 100_000;
    let batches = m.r.from(1, if heavy { 3 } else { 12 });
    let by_pixels = (1..=FEW_PIXELS).contains(&input.total());
    m.case(grid, k, input, Kind::Whole { by_pixels, batches })
}

/// Calls one by one, with weights that at times bring the total near its limit.
fn calls(m: &mut Maker<'_>) -> Case {
    let n = m.r.from(0, 12);
    let most = m.r.one_of(&[1, 3, 1000]);
    let mut input = m.input(n, Random::color, |r| r.from(0, most) as u32);
    if n > 0 && m.r.once_in(4) {
        let at = m.r.from(0, n - 1);
        let rest = input.total() - u64::from(input.weights[at]);
        let off = m.r.from(0, 4) as u64;
        let wanted = u64::from(u32::MAX) + 2 - off - rest;
        input.weights[at] = u32::try_from(wanted).unwrap_or(u32::MAX);
    }
    let split = m.r.from(0, n);
    let (grid, k) = (m.grid(), m.k());
    let damages = Vec::new();
    m.case(grid, k, input, Kind::Calls { split, damages })
}

fn sound_calls(m: &mut Maker<'_>, _: usize) -> Case {
    calls(m)
}

fn damaged(m: &mut Maker<'_>, _: usize) -> Case {
    let mut case = calls(m);
    let count = m.r.one_of(&[1, 1, 1, 2, 3]);
    let made = (0..count).map(|_| damages::one(&case, &mut m.r)).collect();
    if let Kind::Calls { damages, .. } = &mut case.kind {
        *damages = made;
    }
    case
}

/// Narrow tables, call by call: mostly the total of all weights is the narrow limit or up to two off, in the one table
/// or in two; in every other case something is damaged.
fn narrow(m: &mut Maker<'_>, _: usize) -> Case {
    let n = m.r.from(0, 12);
    let most = m.r.one_of(&[1, 3, 1000, 3_000_000]);
    let color =
        m.r.one_of(&[Random::color, Random::lattice_color, |_: &mut Random| {
            [255; 3]
        }]);
    let mut input = m.input(n, color, |r| r.from(0, most) as u32);
    if n > 0 && !m.r.once_in(3) {
        let at = m.r.from(0, n - 1);
        let rest = input.total() - u64::from(input.weights[at]);
        let wanted = u64::from(WIDTHS[0]) + 2 - m.r.from(0, 4) as u64;
        input.weights[at] = wanted.saturating_sub(rest) as u32;
    }
    let any = m.r.from(0, n);
    let split = m.r.one_of(&[any, any, n]);
    let (grid, k) = (m.grid(), m.k());
    let kind = Kind::Narrow {
        split,
        damages: Vec::new(),
    };
    let mut case = m.case(grid, k, input, kind);
    let count = m.r.one_of(&[0, 0, 0, 1, 1, 2]);
    let damages = (0..count).map(|_| damages::one(&case, &mut m.r)).collect();
    case.kind = Kind::Narrow { split, damages };
    case
}

/// Any of the 343 grids, those of at most 4,096 bins more often.
fn any_grid(i: usize) -> Grid {
    let every = Grids::all();
    match i % 8 {
        0 => every.all[i / 8 % every.all.len()],
        _ => every.light[i % every.light.len()],
    }
}

/// Two tables compared, that share some colours, all or none, at any of the 343 grids, those of at most 4,096 bins more
/// often; one time in two with something damaged.
fn nights(m: &mut Maker<'_>, i: usize) -> Case {
    let n = m.r.from(0, 24);
    let most = m.r.one_of(&[1, 3, 1000, 100_000_000, 4_294_967_295]);
    let color = m.r.one_of(&[Random::color, Random::lattice_color]);
    let input = m.input(n, color, |r| r.from(0, most) as u32);
    let grid = any_grid(i);
    let split = m.r.from(0, n);
    let (from, split) = match m.r.from(0, 3) {
        0 => (0, n),
        1 => (split, split),
        _ => (m.r.from(0, n), split),
    };
    let kind = Kind::Nights {
        from,
        split,
        damages: Vec::new(),
    };
    let mut case = m.case(grid, 1, input, kind);
    let count = m.r.one_of(&[0, 0, 0, 1, 1, 2]);
    let made = (0..count).map(|_| damages::one(&case, &mut m.r)).collect();
    if let Kind::Nights { damages, .. } = &mut case.kind {
        *damages = made;
    }
    case
}

/// A table rescued, mostly with some numbers, bits or a page of it damaged; often its weights do not fit together.
fn rescues(m: &mut Maker<'_>, i: usize) -> Case {
    let n = m.r.from(0, 24);
    let most = m.r.one_of(&[1, 3, 1000, 1_000_000_000, 4_294_967_295]);
    let color = m.r.one_of(&[Random::color, Random::lattice_color]);
    let input = m.input(n, color, |r| r.from(0, most) as u32);
    let grid = any_grid(i);
    let kind = Kind::Rescues {
        damages: Vec::new(),
    };
    let mut case = m.case(grid, 1, input, kind);
    let count = m.r.one_of(&[0, 1, 1, 2, 3, 6]);
    let made = (0..count).map(|_| damages::one(&case, &mut m.r)).collect();
    case.kind = Kind::Rescues { damages: made };
    case
}

/// The last total at which the original's sums have 32 bits and the first at which they have 64.
const WIDTHS: [u32; 2] = [16_843_008, 16_843_009];

/// An input of such a total, with much white, whose sums are the largest.
fn wide(m: &mut Maker<'_>, total: u32) -> Input {
    let mut input = m.input(12, Random::color, |_| 0);
    input.colors[..4].fill([255; 3]);
    input.weights = m.r.weights(12, total);
    m.r.shuffle(&mut input.weights);
    input
}

fn width(m: &mut Maker<'_>) -> Vec<Case> {
    let mut cases = Vec::new();
    for &grid in &m.grids.all {
        if bins(grid) > 32_768 {
            continue;
        }
        for total in WIDTHS {
            let input = wide(m, total);
            let k = m.r.from(2, 16);
            cases.push(m.whole(grid, k, input));
        }
    }
    cases
}

fn pixels(m: &mut Maker<'_>) -> Vec<Case> {
    let mut cases = Vec::new();
    for grid in [
        [2, 2, 2],
        [8, 8, 8],
        [16, 32, 16],
        [128, 2, 2],
        [64, 64, 64],
    ] {
        if !m.grids.all.contains(&grid) {
            continue;
        }
        for total in WIDTHS {
            let input = wide(m, total);
            let k = m.r.one_of(&[2, 16, 256]);
            let kind = Kind::Whole {
                by_pixels: true,
                batches: 0,
            };
            cases.push(m.case(grid, k, input, kind));
        }
    }
    cases
}

/// Black once and another colour often, at grid 2,2,2.
fn pair(m: &mut Maker<'_>, second: [u8; 3], w: u32, k: usize) -> Case {
    let input = Input {
        colors: vec![[0; 3], second],
        weights: vec![1, w],
    };
    m.whole([2, 2, 2], k, input)
}

/// White 214,881 times and (255,254,254) 215,443 times, and 250 weights to either side of each.
fn known(m: &mut Maker<'_>) -> Vec<Case> {
    let mut cases = Vec::new();
    for (second, middle) in [([255; 3], 214_881), ([255, 254, 254], 215_443)] {
        for w in middle - 250..=middle + 250 {
            for k in [2, 3, 4] {
                cases.push(pair(m, second, w, k));
            }
        }
    }
    cases
}

fn corners(m: &mut Maker<'_>) -> Vec<Case> {
    let corner = |i: usize| [i & 4, i & 2, i & 1].map(|bit| if bit == 0 { 0 } else { 255 });
    let mut cases = Vec::new();
    for set in 0_usize..256 {
        let colors: Vec<[u8; 3]> = (0..8).filter(|i| set >> i & 1 == 1).map(corner).collect();
        let n = colors.len();
        if n > 3 {
            continue;
        }
        for weighing in 0..4_usize.pow(n as u32) {
            let weights: Vec<u32> = (0..n).map(|i| (weighing >> (2 * i) & 3) as u32).collect();
            for k in 1..=9 {
                let (colors, weights) = (colors.clone(), weights.clone());
                cases.push(m.whole([2, 2, 2], k, Input { colors, weights }));
            }
        }
    }
    cases
}
