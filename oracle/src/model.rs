//! A port in plain Rust, from docs/RULES.md: a box's sum comes from the moments or from its bins, the heap is a list.
//! It stands in the library's place where a mutant is to be caught, and shows whether a difference is the rules'.
use crate::{
    numbers::{self, LARGEST_TOTAL, Lengths, added, bins, place},
    port::{Band, CutAnswer, Grid, Lent, Narrow, NarrowMut, Port, Recorded},
};

/// Min inclusive, max exclusive, and the spread.
#[derive(Clone, Copy)]
pub struct Item {
    pub min: [usize; 3],
    pub max: [usize; 3],
    pub spread: f64,
}

/// The weight, three sums and the squares of a box.
type Sums = [u64; 5];

fn add(a: Sums, b: Sums) -> Sums {
    std::array::from_fn(|j| a[j] + b[j])
}

fn sub(a: Sums, b: Sums) -> Sums {
    std::array::from_fn(|j| a[j] - b[j])
}

/// "Q is c1², then plus c2², then plus c3², each operation rounded once"; here over the weight.
fn share([n, c1, c2, c3, _]: Sums) -> f64 {
    let [c1, c2, c3] = [c1, c2, c3].map(|c| c as f64);
    (c1 * c1 + c2 * c2 + c3 * c3) / n as f64
}

/// What sums are found in: the moments of a table, or the table itself.
#[derive(Clone, Copy)]
enum Source<'a> {
    Moments(&'a [u64]),
    Bins(&'a [u64]),
}

/// One cut.
struct Cutting<'a> {
    grid: Grid,
    source: Source<'a>,
}

impl Cutting<'_> {
    fn sum(&self, min: [usize; 3], max: [usize; 3]) -> Sums {
        match self.source {
            Source::Moments(moments) => self.sum_by_moments(moments, min, max),
            Source::Bins(table) => self.sum_of_bins(table, min, max),
        }
    }

    /// The bins of a box, one after the other.
    fn sum_of_bins(&self, table: &[u64], min: [usize; 3], max: [usize; 3]) -> Sums {
        let [_, b2, b3] = self.grid;
        let mut sums = [0; 5];
        for r in min[0]..max[0] {
            for g in min[1]..max[1] {
                for b in min[2]..max[2] {
                    let at = 5 * ((r * b2 + g) * b3 + b);
                    sums = add(sums, table[at..at + 5].try_into().expect("five"));
                }
            }
        }
        sums
    }

    /// "an index below 0 counts as all zeros": the bounds are exclusive.
    fn corner(&self, moments: &[u64], [r, g, b]: [usize; 3]) -> Sums {
        if r == 0 || g == 0 || b == 0 {
            return [0; 5];
        }
        let [_, b2, b3] = self.grid;
        let at = 5 * (((r - 1) * b2 + g - 1) * b3 + b - 1);
        moments[at..at + 5].try_into().expect("five")
    }

    /// "Its sum is found by inclusion and exclusion"
    fn sum_by_moments(&self, moments: &[u64], min: [usize; 3], max: [usize; 3]) -> Sums {
        let [mut with, mut without] = [[0; 5]; 2];
        for corner in 0..8 {
            let low = [corner & 4, corner & 2, corner & 1].map(|bit| bit != 0);
            let at = std::array::from_fn(|d| if low[d] { min[d] } else { max[d] });
            if low.iter().filter(|l| **l).count() % 2 == 0 {
                with = add(with, self.corner(moments, at));
            } else {
                without = add(without, self.corner(moments, at));
            }
        }
        sub(with, without)
    }

    fn item(&self, min: [usize; 3], max: [usize; 3]) -> Item {
        let sums = self.sum(min, max);
        let one_bin = (0..3).all(|d| max[d] - min[d] == 1);
        let spread = if one_bin {
            0.0
        } else {
            sums[4] as f64 - share(sums)
        };
        Item { min, max, spread }
    }

    /// "The smallest score wins; on a tie the lowest dimension, in it the lowest bin."
    fn best(&self, item: Item) -> Option<(usize, usize)> {
        let mut best = None;
        for d in 0..3 {
            for bin in item.min[d] + 1..item.max[d] {
                let (mut max, mut min) = (item.max, item.min);
                max[d] = bin;
                min[d] = bin;
                let low = self.sum(item.min, max);
                let high = self.sum(min, item.max);
                if low[0] == 0 || high[0] == 0 {
                    continue;
                }
                let score = -(share(low) + share(high));
                if best.is_none_or(|(_, smallest)| score < smallest) {
                    best = Some(((d, bin), score));
                }
            }
        }
        best.map(|(position, _)| position)
    }

    /// "While there are fewer than k boxes, take out the top." The boxes, and how often that was done.
    fn boxes(&self, k: usize) -> (Vec<Item>, usize) {
        let mut rounds = 0;
        let mut heap = vec![Item {
            min: [0; 3],
            max: self.grid,
            spread: f64::INFINITY,
        }];
        while heap.len() < k {
            let top = take_out(&mut heap);
            rounds += 1;
            if top.spread <= 0.0 {
                put_in(&mut heap, top);
                break;
            }
            if let Some((d, bin)) = self.best(top) {
                let (mut max, mut min) = (top.max, top.min);
                max[d] = bin;
                min[d] = bin;
                put_in(&mut heap, self.item(top.min, max));
                put_in(&mut heap, self.item(min, top.max));
            } else {
                put_in(&mut heap, Item { spread: 0.0, ..top });
            }
        }
        (heap, rounds)
    }

    /// Cuts, and writes what was found.
    fn cut(&self, k: usize, lent: Lent<'_>) -> CutAnswer {
        let (boxes, rounds) = self.boxes(k);
        let [_, b2, b3] = self.grid;
        for (i, item) in boxes.iter().enumerate() {
            let [n, sums @ .., _] = self.sum(item.min, item.max);
            for (d, sum) in sums.into_iter().enumerate() {
                lent.palette[3 * i + d] = (sum / n) as u8;
                lent.remainders[3 * i + d] = (sum % n) as u32;
                lent.boxes[6 * i + 2 * d] = item.min[d] as u8;
                lent.boxes[6 * i + 2 * d + 1] = item.max[d] as u8;
            }
            lent.counts[i] = n as u32;
            lent.spreads[i] = item.spread.to_bits();
            for r in item.min[0]..item.max[0] {
                for g in item.min[1]..item.max[1] {
                    let row = (r * b2 + g) * b3;
                    lent.map[row + item.min[2]..row + item.max[2]].fill(i as u8);
                }
            }
        }
        CutAnswer {
            number: 0,
            boxes: boxes.len(),
            rounds,
        }
    }
}

/// The loop over the moments of a table: its boxes in order, and its rounds.
pub fn boxes_and_rounds(grid: Grid, moments: &[u64], k: usize) -> (Vec<Item>, usize) {
    let source = Source::Moments(moments);
    Cutting { grid, source }.boxes(k)
}

/// The lengths of what a cut is lent.
fn lengths(work: Option<&[u64]>, lent: &Lent<'_>) -> Lengths {
    Lengths {
        work: work.map(<[u64]>::len),
        palette: lent.palette.len(),
        counts: lent.counts.len(),
        remainders: lent.remainders.len(),
        map: lent.map.len(),
        boxes: lent.boxes.len(),
        spreads: lent.spreads.len(),
    }
}

/// "append, then climb while strictly greater than the parent"
fn put_in(heap: &mut Vec<Item>, item: Item) {
    heap.push(item);
    let end = heap.len() - 1;
    climb(heap, end);
}

fn climb(heap: &mut [Item], mut p: usize) {
    while p > 0 && heap[p].spread > heap[(p - 1) / 2].spread {
        heap.swap(p, (p - 1) / 2);
        p = (p - 1) / 2;
    }
}

/// "the last element leaves the end; if others remain, it will replace place 0, whose element is the one taken out.
/// Sink a hole from 0: while both children exist, move up the right child if left ≤ right, else the left; if only a
/// left child exists, move that up. The carried element enters the hole and climbs as above."
fn take_out(heap: &mut Vec<Item>) -> Item {
    let last = heap.pop().expect("a box");
    if heap.is_empty() {
        return last;
    }
    let top = heap[0];
    let mut hole = 0;
    while 2 * hole + 1 < heap.len() {
        let (left, right) = (2 * hole + 1, 2 * hole + 2);
        let up = if right < heap.len() && heap[left].spread <= heap[right].spread {
            right
        } else {
            left
        };
        heap[hole] = heap[up];
        hole = up;
    }
    heap[hole] = last;
    climb(heap, hole);
    top
}

/// "Each place of the work table gets the sum over all bins with r, g and b at most its own": one dimension at a time.
fn moments(grid: Grid, table: &[u64], work: &mut [u64]) {
    work.copy_from_slice(table);
    let [b1, b2, b3] = grid;
    for (step, size) in [(b2 * b3, b1), (b3, b2), (1, b3)] {
        for place in 0..bins(grid) {
            if place / step % size > 0 {
                for j in 0..5 {
                    work[5 * place + j] += work[5 * (place - step) + j];
                }
            }
        }
    }
}

/// The wide table of a narrow one: "weight and sums as four 32-bit numbers a bin, squares apart as 64-bit"
fn widened(table: Narrow<'_>) -> Vec<u64> {
    let mut wide = vec![0; 5 * table.squares.len()];
    for (place, five) in wide.as_chunks_mut::<5>().0.iter_mut().enumerate() {
        let [n, c1, c2, c3] = [0, 1, 2, 3].map(|j| u64::from(table.sums[4 * place + j]));
        *five = [n, c1, c2, c3, table.squares[place]];
    }
    wide
}

/// Writes the narrow table of a wide one, no weight and no sum of which reaches 2^32.
fn write_narrow(wide: &[u64], table: NarrowMut<'_>) {
    for (place, &[n, c1, c2, c3, squares]) in wide.as_chunks::<5>().0.iter().enumerate() {
        let sums = [n, c1, c2, c3].map(|sum| u32::try_from(sum).expect("32 bits"));
        table.sums[4 * place..4 * place + 4].copy_from_slice(&sums);
        table.squares[place] = squares;
    }
}

/// A narrow table as it is read.
fn read<'a>(table: &'a NarrowMut<'_>) -> Narrow<'a> {
    Narrow {
        sums: table.sums,
        squares: table.squares,
    }
}

/// The lengths of a narrow work table.
fn both(work: &NarrowMut<'_>) -> [usize; 2] {
    [work.sums.len(), work.squares.len()]
}

/// Where a reader of a header is.
#[derive(PartialEq)]
enum At {
    Gap,
    Comment,
    Number,
}

/// The three numbers of a header and the place behind it, byte by byte; none where it is malformed. "`P6`, a gap, the
/// width, a gap, the height, a gap, the maximum, one whitespace"
fn fields(file: &[u8]) -> Option<([u64; 3], usize)> {
    if !file.starts_with(b"P6") {
        return None;
    }
    let (mut numbers, mut at, mut blank) = (Vec::new(), At::Gap, false);
    for (p, &c) in file.iter().enumerate().skip(2) {
        let whitespace = matches!(c, b' ' | b'\t' | b'\r' | b'\n');
        if at == At::Comment {
            if matches!(c, b'\r' | b'\n') {
                at = At::Gap;
            }
        } else if c.is_ascii_digit() {
            if at == At::Gap {
                if !blank {
                    return None;
                }
                numbers.push(0_u64);
            }
            let n = numbers.last_mut()?;
            *n = n.saturating_mul(10).saturating_add(u64::from(c - b'0'));
            (at, blank) = (At::Number, false);
        } else if numbers.len() == 3 {
            let numbers = numbers.try_into().ok()?;
            return whitespace.then_some((numbers, p + 1));
        } else if c == b'#' {
            at = At::Comment;
        } else if whitespace {
            (at, blank) = (At::Gap, true);
        } else {
            return None;
        }
    }
    None
}

pub struct Model;

/// The colour of a terminal's number, 16 to 255 (Rules, Terminal).
fn fixed_colour(number: u8) -> [u8; 3] {
    let level = |step: u8| [0, 95, 135, 175, 215, 255][usize::from(step)];
    match number.checked_sub(232) {
        Some(i) => [8 + 10 * i; 3],
        None => [(number - 16) / 36, (number - 16) / 6 % 6, (number - 16) % 6].map(level),
    }
}

impl Port for Model {
    fn sizes(&self, grid: Grid) -> (usize, usize) {
        numbers::sizes(grid)
    }

    fn load(
        &self,
        grid: Grid,
        table: &mut [u64],
        colours: &[u8],
        weighted: bool,
        weights: &[u32],
    ) -> u8 {
        let number = numbers::load(grid, table, colours.len(), weighted, weights);
        if number == 0 {
            for (i, &color) in colours.as_chunks::<3>().0.iter().enumerate() {
                let w = if weighted { weights[i] } else { 1 };
                let at = 5 * place(grid, color);
                for (n, more) in table[at..at + 5].iter_mut().zip(added(color, w)) {
                    *n += more;
                }
            }
        }
        number
    }

    fn ppm_header(&self, file: &[u8]) -> (u8, [usize; 3]) {
        let Some(([width, height, maximum], start)) = fields(file) else {
            return (10, [0; 3]);
        };
        let is_side = |n: u64| (1..=65_535).contains(&n);
        if !is_side(width) || !is_side(height) {
            return (10, [0; 3]);
        }
        if maximum != 255 {
            return (11, [0; 3]);
        }
        (0, [width as usize, height as usize, start])
    }

    fn load_ppm(&self, grid: Grid, table: &mut [u64], file: &[u8]) -> u8 {
        let (number, [width, height, start]) = self.ppm_header(file);
        if number != 0 {
            return number;
        }
        let pixels = &file[start..];
        if pixels.len() != 3 * width * height {
            return 12;
        }
        self.load(grid, table, pixels, false, &[])
    }

    fn merge(&self, grid: Grid, table: &mut [u64], second: &[u64]) -> u8 {
        let number = numbers::merge(grid, table, second);
        if number == 0 {
            table.iter_mut().zip(second).for_each(|(n, m)| *n += m);
        }
        number
    }

    fn cut(
        &self,
        grid: Grid,
        k: usize,
        table: &[u64],
        work: &mut [u64],
        lent: Lent<'_>,
    ) -> CutAnswer {
        let number = numbers::cut(grid, k, table, lengths(Some(work), &lent));
        if number != 0 {
            return CutAnswer::refused(number);
        }
        moments(grid, table, work);
        let source = Source::Moments(work);
        Cutting { grid, source }.cut(k, lent)
    }

    fn cut_slowly(&self, grid: Grid, k: usize, table: &[u64], lent: Lent<'_>) -> CutAnswer {
        let number = numbers::cut(grid, k, table, lengths(None, &lent));
        if number != 0 {
            return CutAnswer::refused(number);
        }
        let source = Source::Bins(table);
        Cutting { grid, source }.cut(k, lent)
    }

    fn narrow_load(
        &self,
        grid: Grid,
        table: NarrowMut<'_>,
        colours: &[u8],
        weighted: bool,
        weights: &[u32],
    ) -> u8 {
        let number = numbers::narrow_load(grid, read(&table), colours.len(), weighted, weights);
        if number == 0 {
            // "exactly what the wide layout gives"
            let mut wide = widened(read(&table));
            self.load(grid, &mut wide, colours, weighted, weights);
            write_narrow(&wide, table);
        }
        number
    }

    fn narrow_merge(&self, grid: Grid, table: NarrowMut<'_>, second: Narrow<'_>) -> u8 {
        let number = numbers::narrow_merge(grid, read(&table), second);
        if number == 0 {
            let mut wide = widened(read(&table));
            self.merge(grid, &mut wide, &widened(second));
            write_narrow(&wide, table);
        }
        number
    }

    fn narrow_cut(
        &self,
        grid: Grid,
        k: usize,
        table: Narrow<'_>,
        work: NarrowMut<'_>,
        lent: Lent<'_>,
    ) -> CutAnswer {
        let number = numbers::narrow_cut(grid, k, table, Some(both(&work)), lengths(None, &lent));
        if number != 0 {
            return CutAnswer::refused(number);
        }
        let mut wide = vec![0; 5 * bins(grid)];
        moments(grid, &widened(table), &mut wide);
        write_narrow(&wide, work);
        let source = Source::Moments(&wide);
        Cutting { grid, source }.cut(k, lent)
    }

    fn narrow_cut_slowly(
        &self,
        grid: Grid,
        k: usize,
        table: Narrow<'_>,
        lent: Lent<'_>,
    ) -> CutAnswer {
        let number = numbers::narrow_cut(grid, k, table, None, lengths(None, &lent));
        if number != 0 {
            return CutAnswer::refused(number);
        }
        let source = Source::Bins(&widened(table));
        Cutting { grid, source }.cut(k, lent)
    }

    fn widen(&self, grid: Grid, table: Narrow<'_>, wide: &mut [u64]) -> u8 {
        let number = numbers::widen(grid, table, wide.len());
        if number == 0 {
            wide.copy_from_slice(&widened(table));
        }
        number
    }

    fn map(
        &self,
        grid: Grid,
        map: &[u8],
        colours: usize,
        frame: &[u8],
        indices: &mut [u8],
        band: Band,
    ) -> u8 {
        let number = numbers::map(grid, map, colours, frame.len(), indices.len(), band);
        if number == 0 {
            let pixels = frame.as_chunks::<3>().0;
            for i in band.first..band.first + band.pixels {
                indices[i] = map[place(grid, pixels[i])];
            }
        }
        number
    }

    fn paint(&self, grid: Grid, map: &[u8], palette: &[u8], frame: &mut [u8], band: Band) -> u8 {
        let number = numbers::paint(grid, map, palette.len(), frame.len(), band);
        if number == 0 {
            let pixels = frame.as_chunks_mut::<3>().0;
            for pixel in &mut pixels[band.first..band.first + band.pixels] {
                let index = usize::from(map[place(grid, *pixel)]);
                *pixel = palette.as_chunks::<3>().0[index];
            }
        }
        number
    }

    fn nearest(&self, palette: &[u8], answers: &mut [u8]) -> u8 {
        let number = numbers::nearest(palette.len(), answers.len());
        if number == 0 {
            for (answer, &[r, g, b]) in answers.iter_mut().zip(palette.as_chunks::<3>().0) {
                let square = |a: u8, b: u8| i32::from(a.abs_diff(b)).pow(2);
                let distance = |n: u8| {
                    let [x, y, z] = fixed_colour(n);
                    square(r, x) + square(g, y) + square(b, z)
                };
                let mut best = 16;
                for n in 17..=255 {
                    if distance(n) < distance(best) {
                        best = n;
                    }
                }
                *answer = best;
            }
        }
        number
    }

    fn compare(
        &self,
        grid: Grid,
        first: &[u64],
        second: &[u64],
        differences: &mut [i64],
    ) -> (u8, usize, usize) {
        let number = numbers::compare(grid, first, second, differences.len());
        if number != 0 {
            return (number, 0, 0);
        }
        let (mut differ, mut place) = (0, bins(grid));
        for p in 0..bins(grid) {
            let mut differs = false;
            for i in 5 * p..5 * p + 5 {
                differences[i] = second[i] as i64 - first[i] as i64;
                differs |= differences[i] != 0;
            }
            if differs {
                differ += 1;
                place = place.min(p);
            }
        }
        (0, differ, place)
    }

    fn rescue(&self, grid: Grid, table: &mut [u64], reasons: &mut [u8]) -> u8 {
        let number = numbers::rescue(grid, table.len(), reasons.len());
        if number != 0 {
            return number;
        }
        let mut total = 0;
        for (p, reason) in reasons.iter_mut().enumerate() {
            let five = &mut table[5 * p..5 * p + 5];
            let weight = u128::from(five[0]);
            *reason = if weight > LARGEST_TOTAL || !numbers::keeps_bounds(grid, p, five) {
                1
            } else if total + weight > LARGEST_TOTAL {
                2
            } else {
                0
            };
            if *reason == 0 {
                total += weight;
            } else {
                five.fill(0);
            }
        }
        0
    }

    fn begin(&self, interval: u32) -> (u8, u32) {
        self.reload(0, interval)
    }

    fn reload(&self, in_force: u32, interval: u32) -> (u8, u32) {
        let number = numbers::interval(interval);
        let later = if number == 0 { interval } else { in_force };
        (number, later)
    }

    fn batch(
        &self,
        intervals: [u32; 2],
        grid: Grid,
        table: &mut [u64],
        colours: &[u8],
        weighted: bool,
        weights: &[u32],
    ) -> u8 {
        let [_, interval] = intervals;
        let number = numbers::batch(intervals, grid, table, colours.len(), weighted, weights);
        if number == 0 {
            for (i, &color) in colours.as_chunks::<3>().0.iter().enumerate() {
                let w = if weighted { u64::from(weights[i]) } else { 1 };
                let at = 5 * place(grid, color);
                let w = w * u64::from(interval);
                for (n, more) in table[at..at + 5].iter_mut().zip(added(color, w)) {
                    *n += more;
                }
            }
        }
        number
    }

    fn replay(
        &self,
        first: u32,
        grid: Grid,
        table: &mut [u64],
        recorded: Recorded<'_>,
        answers: &mut [u8],
    ) -> (u8, u32) {
        let number = numbers::replay(first, grid, table, recorded, answers.len());
        if number != 0 {
            return (number, 0);
        }
        let (mut in_force, mut at) = (first, 0);
        let entries = recorded.entries.as_chunks::<3>().0;
        for (answer, &[kind, interval, count]) in answers.iter_mut().zip(entries) {
            if kind == 0 {
                (*answer, in_force) = self.reload(in_force, interval);
                continue;
            }
            let part = at..at + count as usize;
            let colours = &recorded.colours[3 * part.start..3 * part.end];
            let weights = &recorded.weights[part.clone()];
            *answer = self.batch([in_force, interval], grid, table, colours, true, weights);
            at = part.end;
        }
        (0, in_force)
    }
}
