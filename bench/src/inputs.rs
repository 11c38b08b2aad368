//! The three frames, made from a fixed seed by additions, products and shifts alone, so that they are the same on
//! every machine.

pub const WIDTH: usize = 1920;
pub const HEIGHT: usize = 1080;

pub type Colour = [u8; 3];

/// A frame with its name, and a weight for each pixel.
pub struct Input {
    pub name: &'static str,
    pub frame: Vec<Colour>,
    pub weights: Vec<u32>,
}

/// The frames in the order of the tables' columns.
pub fn all() -> [Input; 3] {
    let mut random = Random(2024);
    let frames = [
        ("noise", noise(&mut random)),
        ("picture", picture(&mut random, WIDTH, HEIGHT)),
        ("console", console(&mut random)),
    ];
    frames.map(|(name, frame)| Input {
        name,
        weights: frame.iter().map(|_| random.below(8) as u32).collect(),
        frame,
    })
}

impl Input {
    /// How many colours there are.
    pub fn colours(&self) -> usize {
        let mut seen = vec![false; 1 << 24];
        for &[r, g, b] in &self.frame {
            seen[usize::from(r) << 16 | usize::from(g) << 8 | usize::from(b)] = true;
        }
        seen.iter().filter(|&&s| s).count()
    }

    /// How many pixels of a hundred lie in a run of 64 or more of one colour.
    pub fn flat(&self) -> usize {
        let runs = self.frame.chunk_by(|a, b| a == b);
        let pixels: usize = runs.map(<[Colour]>::len).filter(|&n| n >= 64).sum();
        100 * pixels / self.frame.len()
    }
}

/// Splitmix64.
struct Random(u64);

impl Random {
    fn next(&mut self) -> u64 {
        self.0 = self.0.wrapping_add(0x9e37_79b9_7f4a_7c15);
        let mut z = self.0;
        z = (z ^ (z >> 30)).wrapping_mul(0xbf58_476d_1ce4_e5b9);
        z = (z ^ (z >> 27)).wrapping_mul(0x94d0_49bb_1331_11eb);
        z ^ (z >> 31)
    }

    /// A number from 0 to n - 1.
    fn below(&mut self, n: usize) -> usize {
        ((u128::from(self.next()) * n as u128) >> 64) as usize
    }

    /// A number from -1 to 1.
    fn unit(&mut self) -> f64 {
        self.below(1 << 24) as f64 / f64::from(1 << 23) - 1.0
    }
}

/// Every byte by chance.
fn noise(random: &mut Random) -> Vec<Colour> {
    let mut colour = || [0; 3].map(|_: u8| random.next() as u8);
    (0..WIDTH * HEIGHT).map(|_| colour()).collect()
}

// ---- The picture

/// Random heights at the crossings of lines `step` apart, with smooth slopes between them.
struct Slopes {
    step: usize,
    across: usize,
    heights: Vec<f64>,
}

impl Slopes {
    fn new(random: &mut Random, step: usize, width: usize, height: usize) -> Self {
        let (across, down) = (width / step + 2, height / step + 2);
        let heights = (0..across * down).map(|_| random.unit()).collect();
        Self {
            step,
            across,
            heights,
        }
    }

    fn at(&self, x: usize, y: usize) -> f64 {
        let smooth = |t: usize| {
            let t = t as f64 / self.step as f64;
            t * t * (3.0 - 2.0 * t)
        };
        let corner = y / self.step * self.across + x / self.step;
        let (h, fx, fy) = (&self.heights, smooth(x % self.step), smooth(y % self.step));
        let above = h[corner] + fx * (h[corner + 1] - h[corner]);
        let below = &h[corner + self.across..];
        let below = below[0] + fx * (below[1] - below[0]);
        above + fy * (below - above)
    }
}

/// Slopes of halving steps, each as high as half the one before.
fn octaves(
    random: &mut Random,
    first: usize,
    last: usize,
    width: usize,
    height: usize,
) -> Vec<f64> {
    let mut sum = vec![0.0; width * height];
    let (mut step, mut share) = (first, 1.0);
    while step >= last {
        let slopes = Slopes::new(random, step, width, height);
        for (i, sum) in sum.iter_mut().enumerate() {
            *sum += share * slopes.at(i % width, i / width);
        }
        (step, share) = (step / 2, share / 2.0);
    }
    sum
}

/// Light with detail down to eight pixels, colour that changes slowly, forty discs with edges, and grain in the light.
fn picture(random: &mut Random, width: usize, height: usize) -> Vec<Colour> {
    let light = octaves(random, 256, 8, width, height);
    let red = octaves(random, 256, 64, width, height);
    let blue = octaves(random, 256, 64, width, height);
    let mut level = vec![[0.0; 3]; width * height];
    for (i, level) in level.iter_mut().enumerate() {
        let light = 115.0 + 65.0 * light[i];
        *level = [
            light + 35.0 * red[i],
            light - 12.0 * red[i] - 8.0 * blue[i],
            light + 40.0 * blue[i],
        ];
    }
    for _ in 0..40 {
        let (x, y) = (random.below(width), random.below(height));
        let size = 1 + random.below(height / 5);
        let shift = [0.0; 3].map(|_: f64| 45.0 * random.unit());
        for row in y.saturating_sub(size)..height.min(y + size) {
            for column in x.saturating_sub(size)..width.min(x + size) {
                let (dx, dy) = (column.abs_diff(x), row.abs_diff(y));
                if dx * dx + dy * dy < size * size {
                    let level = &mut level[row * width + column];
                    *level = [0, 1, 2].map(|c| level[c] + shift[c]);
                }
            }
        }
    }
    let mut grained = |level: [f64; 3]| {
        let grain = 2.0 * (random.unit() + random.unit());
        level.map(|level| (level + grain) as u8)
    };
    level.into_iter().map(&mut grained).collect()
}

// ---- The console screen

/// A letter's room, in pixels.
const ACROSS: usize = 10;
const DOWN: usize = 20;

/// How much of a letter's pixel is ink, in halves.
type Letter = [[u8; ACROSS]; DOWN];

/// A letter of a few strokes, each two pixels thick and with a soft edge at its right.
fn letter(random: &mut Random) -> Letter {
    let mut ink = [[0; ACROSS]; DOWN];
    for _ in 0..2 + random.below(3) {
        let upright = random.below(2) == 0;
        let (x, y) = (1 + random.below(5), 4 + random.below(6));
        let (right, bottom) = if upright { (x + 1, y + 6) } else { (7, y + 1) };
        for row in &mut ink[y..=bottom] {
            row[x..=right].fill(2);
            row[right + 1] = row[right + 1].max(1);
        }
    }
    ink
}

struct Screen {
    frame: Vec<Colour>,
    letters: Vec<Letter>,
}

impl Screen {
    /// One colour over a part of the screen, from (x, y) on.
    fn fill(&mut self, x: usize, y: usize, width: usize, height: usize, colour: Colour) {
        for row in y..y + height {
            self.frame[row * WIDTH + x..][..width].fill(colour);
        }
    }

    /// A letter in ink on what is there.
    fn write(&mut self, x: usize, y: usize, letter: usize, ink: Colour) {
        for (j, row) in self.letters[letter].iter().enumerate() {
            let at = &mut self.frame[(y + j) * WIDTH + x..][..ACROSS];
            for (pixel, &halves) in at.iter_mut().zip(row) {
                let mix = |c: usize| {
                    u16::from(pixel[c]) * u16::from(2 - halves)
                        + u16::from(ink[c]) * u16::from(halves)
                };
                *pixel = [0, 1, 2].map(|c| (mix(c) / 2) as u8);
            }
        }
    }

    /// Lines of words in a part of the screen: some empty, the others indented and of any length.
    fn text(
        &mut self,
        random: &mut Random,
        x: usize,
        y: usize,
        columns: usize,
        lines: usize,
        inks: &[Colour],
    ) {
        for line in 0..lines {
            let end = if random.below(5) == 0 {
                0
            } else {
                random.below(columns)
            };
            let mut column = 4 * random.below(4);
            while column < end {
                let ink = inks[random.below(inks.len())];
                for _ in 0..2 + random.below(8) {
                    if column < end {
                        let letter = random.below(self.letters.len());
                        self.write(x + column * ACROSS, y + line * DOWN, letter, ink);
                    }
                    column += 1;
                }
                column += 1;
            }
        }
    }
}

/// A terminal with two panes of text, a bar at the top and one at the bottom, and a small photograph.
fn console(random: &mut Random) -> Vec<Colour> {
    const INKS: [Colour; 6] = [
        [205, 214, 244],
        [205, 214, 244],
        [166, 227, 161],
        [249, 226, 175],
        [137, 180, 250],
        [243, 139, 168],
    ];
    let mut screen = Screen {
        frame: vec![[30, 30, 46]; WIDTH * HEIGHT],
        letters: (0..90).map(|_| letter(random)).collect(),
    };
    screen.fill(1280, 0, 640, HEIGHT, [24, 24, 37]);
    screen.fill(0, 0, WIDTH, DOWN, [49, 50, 68]);
    screen.fill(0, HEIGHT - DOWN, WIDTH, DOWN, [137, 180, 250]);
    screen.text(random, 10, 0, 60, 1, &INKS[..1]);
    screen.text(random, 10, HEIGHT - DOWN, 120, 1, &[[30, 30, 46]]);
    screen.text(random, 10, 2 * DOWN, 120, 50, &INKS);
    screen.text(random, 1300, 2 * DOWN, 60, 26, &INKS);
    let (width, height) = (480, 320);
    let photograph = picture(random, width, height);
    for (row, part) in photograph.chunks(width).enumerate() {
        screen.frame[(680 + row) * WIDTH + 1360..][..width].copy_from_slice(part);
    }
    screen.frame
}
